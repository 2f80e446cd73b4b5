#!/usr/bin/env bash
# Runs the linked example under each shell that is there, and compares what it prints and its status with those of the
# program that was linked. Usage: scripts/shells.sh [APETOOL]
# shellcheck source=scripts/lib.sh
. "$(dirname "$0")/lib.sh"
# shellcheck source=scripts/running.sh
. "$root/scripts/running.sh"

file=$work/hello
words=('' one 'two words' '  ' "it's" '"double"' '$HOME `id` \n %s' $'two\nlines' '*' -n -- '<<' 'Grüße')

# Whether a command prints and ends as the program does that was linked.
is_program() { # COMMAND..
    is_same "$work/hello.elf" "$@" "${words[@]}"
}

# Whether the copy that was started is the linked file but for its first 64 bytes, which are an ELF header.
is_copied() {
    local copied=$tmp/$copy
    [ -f "$copied" ] && [ "$(stat -c %a "$copied")" = 700 ] && cmp -s -i 64 "$copied" "$file" &&
        [ "$(head -c 4 "$copied")" = $'\177ELF' ]
}

# What the script does, by one shell. The shell is words, as `busybox sh`.
check_shell() { # SHELL..
    tmp=$work/"t m'p"
    check "$*: the arguments pass unchanged, with blanks and a quote in TMPDIR" is_program "$@" "$file"
    check "$*: the copy is the file with the header" is_copied
    tmp=none
    check "$*: the same without TMPDIR" is_program "$@" "$file"
    tmp=''
    check "$*: the same with an empty TMPDIR" is_program "$@" "$file"
    tmp=$work/tmp
    check "$*: the same where the shell starts the file by its name" \
        is_program "$@" -c '"$0" "$@"' "$file"
    check "$*: without arguments the status is 0" ends 0 "$@" "$file"
    tmp=$work/missing
    check "$*: where there is no folder TMPDIR the status is 121" ends 121 "$@" "$file" "${words[@]}"
    tmp=$work/tmp
    check_systems "$@"
}

# Other answers of uname, and an APE loader of the system's own. busybox sh takes its own uname.
check_systems() { # SHELL..
    local system
    check "$*: an APE loader is given the file and the arguments" \
        is_program env PATH="$work/loader:$PATH" "$@" "$file"
    if [ "$1" = busybox ]; then
        skip "$*: other systems" 'its own uname comes before that of PATH'
        return
    fi
    check "$*: amd64 is x86_64" is_program env PATH="$work/amd64:$PATH" "$@" "$file"
    for system in aarch64 FreeBSD Darwin; do
        check "$*: the status is 126 on $system" ends 126 env PATH="$work/$system:$PATH" "$@" "$file" "${words[@]}"
    done
    for system in amd64 FreeBSD NetBSD; do
        check "$*: for all systems, it runs on $system" is_program env PATH="$work/$system:$PATH" "$@" "$work/every"
    done
    check "$*: for all systems, the status is 125 on macOS on AArch64" \
        ends 125 env PATH="$work/macos:$PATH" "$@" "$work/every" "${words[@]}"
    check "$*: for all systems, the status is 123 on macOS where dd fails" \
        ends 123 env PATH="$work/no-dd:$work/Darwin:$PATH" "$@" "$work/every" "${words[@]}"
    check "$*: for all systems, the status is 126 on another system" \
        ends 126 env PATH="$work/other:$PATH" "$@" "$work/every" "${words[@]}"
}

begin_running
for tool in as ld; do
    is_there "$tool" || { skip 'all' "the example is built by $tool (package binutils)" && finish; }
done

mkdir "$work/t m'p"
fake "$work/loader" ape 'file=$1' 'shift' "[ \"\$file\" = '$work/hello' ] && exec '$work/hello.elf' \"\$@\""
fake "$work/amd64" uname '[ "$1" = -m ] && echo amd64 || echo Linux'
fake "$work/aarch64" uname '[ "$1" = -m ] && echo aarch64 || echo Linux'
fake "$work/FreeBSD" uname '[ "$1" = -m ] && echo amd64 || echo FreeBSD'
fake "$work/NetBSD" uname '[ "$1" = -m ] && echo x86_64 || echo NetBSD'
fake "$work/macos" uname '[ "$1" = -m ] && echo arm64 || echo Darwin'
fake "$work/other" uname '[ "$1" = -m ] && echo x86_64 || echo OpenBSD'
fake "$work/no-dd" dd 'exit 1'
fake "$work/Darwin" uname '[ "$1" = -m ] && echo x86_64 || echo Darwin'

check 'the example is built' "$root/examples/build.sh" hello x86-64 "$work/hello.elf"
check 'the example is linked' link "$file" "$work/hello.elf"
check 'the example is linked for all systems but Windows' "$apetool" link -o "$work/every" "$work/hello.elf"
cp "$file" "$work/hello.before"

for shell in sh 'bash --posix' "${shells[@]}"; do
    read -ra command <<<"$shell"
    check_shell "${command[@]}"
done
check 'no run changed the linked file' cmp -s "$file" "$work/hello.before"
finish
