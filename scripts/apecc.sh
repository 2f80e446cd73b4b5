#!/usr/bin/env bash
# Tries scripts/apecc: C and C++, under each shell, with names that hold blanks, its options, other compilers, and what it says
# where a rule refuses a program. Usage: scripts/apecc.sh [APETOOL]
# shellcheck source=scripts/lib.sh
. "$(dirname "$0")/lib.sh"

apecc=$root/scripts/apecc
folder="$work/a folder"
export APECC_APETOOL=$apetool TMPDIR="$work/tmp"
unset APECC_X64 APECC_A64 APECC_STUB

if ! is_there gcc; then
    skip 'all' 'there is no gcc'
    finish
fi
mkdir "$folder" "$TMPDIR"
cd "$folder" || exit 2
cp "$root/examples/threads.c" 'a program.c'
cp "$root/examples/exceptions.cc" 'a program.cc'
cat >main.c <<'END'
int other(int);
int main(int count, char **words) { (void)words; return other(count); }
END
cat >other.c <<'END'
int other(int count) { return count + OFFSET; }
END

# Runs apecc with these words, and keeps what it says; true where it ends with the status.
ends() { # STATUS WORD ..
    "${@:2}" >"$work/printed" 2>"$work/said"
    [ $? = "$1" ]
}

# Whether a file is a linked one, for these machines as apecc says, and nothing of the work is left.
made() { # OUT MACHINES SYSTEMS
    [ "$(cat "$work/printed")" = "apecc: $1: for $2, on $3, of $(stat -c %s "$1") bytes" ] && [ ! -s "$work/said" ] \
        && [ -x "$1" ] && [ -z "$(ls -A "$TMPDIR")" ]
}

machines=x86-64
if is_there aarch64-linux-gnu-gcc; then machines='x86-64 and AArch64'; fi
machines_cc=x86-64
if is_there aarch64-linux-gnu-g++; then machines_cc='x86-64 and AArch64'; fi

# Whether a linked file ends with a status, and prints the text.
runs() { # OUT STATUS TEXT WORD ..
    local text
    text=$(sh "$1" "${@:4}" </dev/null)
    [ $? = "$2" ] && [ "$text" = "$3" ] && rm -f "$TMPDIR"/ape.*
}

try_languages() {
    check 'C: it is made' ends 0 "$apecc" -O2 -o 'an out' 'a program.c'
    check 'C: it says for which machines' made 'an out' "$machines" linux
    check 'C: it runs' runs './an out' 2 $'100 <one>\n101 <two words>\n100 1\nnone' one 'two words'
    check 'C: no ELF program is left' test ! -e 'an out.x64' -a ! -e 'an out.a64'
    if is_there g++; then
        check 'C++: it is made' ends 0 "$apecc" -O2 -o 'an out' 'a program.cc'
        check 'C++: it says for which machines' made 'an out' "$machines_cc" linux
        g++ -o own 'a program.cc'
        ./own one 'two words' >"$work/own" </dev/null
        check 'C++: it runs as the program does by itself' runs './an out' $? "$(cat "$work/own")" one 'two words'
    else
        skip 'C++' 'there is no g++'
    fi
    check 'several sources and a macro: it is made' ends 0 "$apecc" -DOFFSET=40 -D UNUSED=1 -o several main.c other.c
    check 'several sources and a macro: it runs' runs ./several 42 '' one
    check 'a language by -x: it is made' ends 0 "$apecc" -x c -DOFFSET=1 -o several main.c other.c
    check 'no OUT: it is made' ends 0 "$apecc" 'a program.c'
    check 'no OUT: it is a.out' made a.out "$machines" linux
    check 'an OUT that begins with -' ends 0 "$apecc" -o-dash 'a program.c'
    check 'an OUT that begins with -: it is made' made ./-dash "$machines" linux
}

# Before apetool is proved, scripts/try.sh links. It runs in a folder of its own, as this one does.
try_unproved() {
    mkdir "$work/before"
    printf '#!/bin/sh\ncd / && exec "%s" "$@"\n' "$apetool" >"$work/before/try.sh"
    chmod +x "$work/before/try.sh"
    check 'before the proof: it is made' ends 0 env APECC_APETOOL="$work/before/try.sh" "$apecc" -o 'an out' 'a program.c'
    check 'before the proof: apecc says so' grep -q '^apecc: the proved apetool is not built yet' "$work/said"
    check 'before the proof: it runs' runs './an out' 2 $'100 <one>\n101 <two words>\n100 1\nnone' one 'two words'
}

try_shells() {
    local shell
    for shell in dash bash zsh mksh yash 'busybox sh'; do
        if ! is_there "${shell%% *}"; then
            skip "$shell" 'it is not there'
            continue
        fi
        # shellcheck disable=SC2086 # the shell may be two words
        {
            check "$shell: it is made" ends 0 $shell "$apecc" -O2 -o "by $shell" 'a program.c'
            check "$shell: it says for which machines" made "by $shell" "$machines" linux
            check "$shell: it runs" runs "./by $shell" 1 $'100 <a b>\n100 1\nnone' 'a b'
            check "$shell: other compilers" ends 0 env APECC_X64='gcc -DOFFSET=2' APECC_A64=none $shell "$apecc" -o several main.c other.c
            check "$shell: other compilers: it says for which machines" made several x86-64 linux
            check "$shell: a refusal ends with 1" ends 1 env APECC_A64=none $shell "$apecc" -Wl,-z,max-page-size=512 -o new 'a program.c'
            check "$shell: a refusal has its cure" grep -q '^apecc: the x86-64 program: `-z max-page-size=4096`' "$work/said"
        }
    done
}

try_options() {
    check '--help' ends 0 "$apecc" --help
    check '--help: it is printed' grep -q '^usage: apecc ' "$work/printed"
    check '--version' ends 0 "$apecc" --version
    check '--version: it is printed' grep -q '^apecc [^ ]' "$work/printed"
    check '--systems' ends 0 "$apecc" --systems linux,freebsd -o out 'a program.c'
    check '--systems: it says for which' made out "$machines" linux,freebsd
    check '--systems=' ends 0 "$apecc" --systems=linux,netbsd -o out 'a program.c'
    check '--systems=: it says for which' made out "$machines" linux,netbsd
    check '--keep' ends 0 "$apecc" --keep -o 'kept out' 'a program.c'
    check '--keep: the program for x86-64 is left' runs_kept
    check 'the linked file is that of the programs that are kept' is_linked_of_kept
    check '--share' ends 0 "$apecc" --share -o out 'a program.c'
    check '--share: it says for which machines' made out "$machines" linux
    check 'APECC_A64=none' ends 0 env APECC_A64=none "$apecc" -o out 'a program.c'
    check 'APECC_A64=none: it says for which machines' made out x86-64 linux
    if is_there aarch64-linux-gnu-gcc; then
        check 'APECC_X64=none' ends 0 env APECC_X64=none "$apecc" -o out 'a program.c'
        check 'APECC_X64=none: it says for which machines' made out AArch64 linux
        check 'AArch64, pages of 4096: the refusal names the program' \
            ends 1 env APECC_A64='aarch64-linux-gnu-gcc -Wl,-z,max-page-size=4096' "$apecc" -o new 'a program.c'
        check 'AArch64, pages of 4096: its cure' grep -q '^apecc: the AArch64 program: `-z max-page-size=4096`, or `=16384`' "$work/said"
        check 'AArch64, pages of 4096, first: the refusal names the program' \
            ends 1 env APECC_A64='aarch64-linux-gnu-gcc -Wl,-z,max-page-size=4096' "$apecc" --share -o new 'a program.c'
        check 'AArch64, pages of 4096, first: its cure' grep -q '^apecc: the AArch64 program: `-z' "$work/said"
    else
        skip 'a program for AArch64 alone, and its refusal' 'there is no aarch64-linux-gnu-gcc'
    fi
    local compiler
    if is_there g++; then
        check 'APECC_X64=g++' ends 0 env APECC_X64=g++ APECC_A64=none "$apecc" -DOFFSET=1 -o out main.c other.c
    fi
    for compiler in musl-gcc clang; do
        if is_there "$compiler"; then
            check "APECC_X64=$compiler" ends 0 env APECC_X64="$compiler" APECC_A64=none "$apecc" -O2 -o out "$root/examples/threads.c"
            check "APECC_X64=$compiler: it runs" runs ./out 0 $'100 1\nnone'
        else
            skip "APECC_X64=$compiler" 'it is not there'
        fi
    done
}

runs_kept() {
    ./'kept out.x64' one 'two words' >"$work/own" </dev/null
    [ $? = 2 ] && runs './kept out' 2 "$(cat "$work/own")" one 'two words'
}

is_linked_of_kept() {
    local inputs=('kept out.x64')
    [ ! -e 'kept out.a64' ] || inputs+=('kept out.a64')
    "$apetool" link --systems linux -o "$work/again" "${inputs[@]}" && cmp -s "$work/again" 'kept out'
}

# Whether apecc refuses words with status 2 and a line, and makes nothing.
refuses() { # WORD ..
    rm -f new
    ends 2 "$apecc" "$@" && [[ $(cat "$work/said") == 'apecc: '* ]] && [ "$(wc -l <"$work/said")" = 1 ] && [ ! -s "$work/printed" ] && [ ! -e new ]
}

try_refusals() {
    local option
    for option in -c -S -E -shared -r -pie -static-pie; do
        check "$option isn't taken" refuses "$option" -o new 'a program.c'
    done
    check 'no source' refuses -O2 -o new
    check 'no word' refuses
    check '-o without OUT' refuses 'a program.c' -o
    check 'an OUT that is a source' refuses -o 'a program.c' main.c
    check 'the source is as it was' cmp -s 'a program.c' "$root/examples/threads.c"
    check 'systems that are none' refuses --systems 'linux,' -o new 'a program.c'
    check 'a compiler that is missing' ends 2 env APECC_X64=no-compiler "$apecc" -o new 'a program.c'
    check 'no compiler' ends 2 env APECC_X64=none APECC_A64=none "$apecc" -o new 'a program.c'
    check 'no apetool' ends 2 env APECC_APETOOL=/missing "$apecc" -o new 'a program.c'
    check 'no stub' ends 2 env APECC_STUB=/missing "$apecc" -o new 'a program.c'
    check 'a source that does not compile' ends 1 "$apecc" -o new main.c
    check 'no file is left' test ! -e new
    check 'a system that is unknown' ends 2 "$apecc" --systems linus -o new 'a program.c'
    check 'a system that is unknown: its cure' grep -q '^apecc: --systems takes linux' "$work/said"
    check 'an OUT in a missing folder' ends 4 "$apecc" -o missing/new 'a program.c'
    check 'an OUT in a missing folder: its cure' grep -q '^apecc: another OUT' "$work/said"
    check 'Windows without an entry' ends 1 "$apecc" --systems linux,windows -o new 'a program.c'
    check 'Windows without an entry: its cure' grep -q '^apecc: the x86-64 program: define it' "$work/said"
}

# Whether the cure of each rule stands in the row of docs/ERRORS.md for that rule. An apetool that only refuses stands in.
cures_rule() { # RULE ITEM
    printf '#!/bin/sh\necho "apetool: rule %s input 1 item %s value 0" >&2\nexit 1\n' "$1" "$2" >"$work/refuser"
    chmod +x "$work/refuser"
    ends 1 env APECC_APETOOL="$work/refuser" APECC_A64=none "$apecc" -o new 'a program.c' || return 1
    local cure
    cure=$(sed -n "s/^apecc: the x86-64 program: \(.*\) (rule $1 of ERRORS.md)\$/\1/p" "$work/said")
    [ -n "$cure" ] && grep "^| $1 |" "$root/docs/ERRORS.md" | grep -qF -- "$cure"
}

try_cures() {
    local rule
    for ((rule = 1; rule <= 29; rule++)); do
        check "rule $rule: the cure is that of docs/ERRORS.md" cures_rule "$rule" 1
    done
    check 'rule 19, of the sum: the cure is that of docs/ERRORS.md' cures_rule 19 2
}

# What README.md and docs/RUNS.md say of starts.
piped() {
    sh <out 2>"$work/said"
    [ $? = 121 ]
}

# The program for AArch64, out of the copy that the script makes where `uname -m` answers so.
by_qemu() {
    mkdir -p as/tmp
    printf '#!/bin/sh\ncase $1 in -m) echo aarch64 ;; *) echo Linux ;; esac\n' >as/uname
    chmod +x as/uname
    PATH=$PWD/as:$PATH TMPDIR=$PWD/as/tmp sh out </dev/null >"$work/printed" 2>&1
    [ "$(find as/tmp -name 'ape.*' | wc -l)" = 1 ] \
        && [ "$(qemu-aarch64-static as/tmp/ape.* one </dev/null)" = $'100 <one>\n100 1\nnone' ]
}

try_starts() {
    check 'a file to start' ends 0 "$apecc" -O2 -o out 'a program.c'
    check 'piped into sh it ends with 121' piped
    if is_there qemu-aarch64-static && [ "$machines" != x86-64 ]; then
        check 'a start for AArch64 leaves its copy, which qemu runs as the program for AArch64' by_qemu
    else
        skip 'the program for AArch64 by qemu' 'there is no qemu-aarch64-static, or no compiler for AArch64'
    fi
}

try_languages
try_unproved
try_shells
try_starts
try_options
try_refusals
try_cures
finish
