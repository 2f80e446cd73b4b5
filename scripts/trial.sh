#!/usr/bin/env bash
# Whether `apetool trial` prints what the table of its inputs says, by a program in C of its own (scripts/trial.c), and how long a
# trial of two inputs of 8 MB takes. Usage: scripts/trial.sh [APETOOL]
# shellcheck source=scripts/lib.sh
. "$(dirname "$0")/lib.sh"

most=5000000 # microseconds
systems=linux,freebsd,netbsd,windows,mac

if ! is_there gcc; then
    skip 'all' 'there is no gcc'
    finish
fi
check 'the program in C is compiled' gcc -O2 -o "$work/trial" "$root/scripts/trial.c"

# The summary by the program in C, of inputs that it makes, and by apetool.
is_summary() { # NUMBER PAGES
    "$work/trial" "$@" "$work/x64" "$work/a64" &&
        "$apetool" link --systems "$systems" -o "$work/linked" "$work/x64" "$work/a64" &&
        "$work/trial" "$@" "$work/linked" >"$work/wanted" &&
        time_of "$apetool" trial "$@" >"$work/found" && cmp -s "$work/found" "$work/wanted"
}

for numbers in '7 3' '00000000000000000007 0001' '0 4' '18446744073709551615 5'; do
    # shellcheck disable=SC2086 # they are two words
    check "trial $numbers prints what the program in C does" is_summary $numbers
done

# The sizes are known, since the first loads' bytes stand once for both machines.
has_sizes() { # X64 A64 LINKED
    [ "$(head -n 3 "$work/found")" = "input 62 bytes $1
input 183 bytes $2
linked $3" ]
}

check 'trial 7 2000 prints what the program in C does' is_summary 7 2000
check 'trial 7 2000 shares what is equal' has_sizes 8200448 8212736 8241152
check "trial 7 2000 takes $((took / 1000)) ms, at most $((most / 1000))" [ "$took" -le "$most" ]

prints_again() { # NUMBER PAGES
    "$apetool" trial "$@" >"$work/again" && cmp -s "$work/again" "$work/found"
}

check 'trial 7 2000 prints the same once more' prints_again 7 2000
finish
