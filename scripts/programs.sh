#!/usr/bin/env bash
# Links ordinary static programs of the compilers that are there, and runs them under each shell that is there: their output
# and their status are those of the programs themselves. Usage: scripts/programs.sh [APETOOL]
# shellcheck source=scripts/lib.sh
. "$(dirname "$0")/lib.sh"
# shellcheck source=scripts/running.sh
. "$root/scripts/running.sh"

# Links a program, and runs the linked file by each shell.
check_program() { # NAME FILE
    local shell command
    check "$1: it is linked" link "$work/linked" "$2"
    [ -f "$work/linked" ] || return
    for shell in "${shells[@]}"; do
        read -ra command <<<"$shell"
        check "$1, $shell: output and status are the program's" is_same "$2" "${command[@]}" "$work/linked" "${words[@]}"
    done
    rm -f "$work/linked"
}

# A compiler's program, where the compiler is there and makes one that runs here.
compile() { # NAME TOOL COMMAND..
    made "$@" || return
    check_program "$1" "$work/program"
    rm -f "$work/program"
}

# Two programs in one file: that for x86-64 run by a shell, and that for AArch64 by qemu, from a copy with the header that the
# script's own line writes.
check_both() {
    local x64=$work/x64 a64=$work/a64
    made 'two programs' "gcc aarch64-linux-gnu-gcc $qemu" make_both || return
    check 'two programs: they are linked' "$apetool" link --systems linux,freebsd,netbsd -o "$work/linked" "$a64" "$x64"
    check 'two programs: sh runs that for x86-64' is_same "$x64" sh "$work/linked" "${words[@]}"
    cp "$work/linked" "$work/copy" && chmod 700 "$work/copy"
    t=$work/copy bash -c "$(grep -a "^printf '" "$work/linked" | tail -n 1)"
    check 'two programs: qemu runs that for AArch64' same_as "$qemu" "$a64" -- "$qemu" "$work/copy" "${words[@]}"
}

# Two programs with the same data, of which the linked file holds one copy. The program for AArch64 is the first, so that the
# area is at a multiple of the granules of both.
check_shared() {
    local x64=$work/x64 a64=$work/a64 words=(5 300 49663 49664) at
    made 'shared data' "gcc aarch64-linux-gnu-gcc $qemu" make_shared || return
    check 'shared data: they are linked' "$apetool" link --systems linux -o "$work/linked" "$a64" "$x64"
    check 'shared data: one area serves both machines' is_shared
    check 'shared data: inspect tells what load prints' reports "$work/linked"
    check 'shared data: sh runs the program for x86-64' is_same "$x64" sh "$work/linked" "${words[@]}"
    cp "$work/linked" "$work/copy" && chmod 700 "$work/copy"
    t=$work/copy bash -c "$(grep -a "^printf '" "$work/linked" | tail -n 1)"
    check 'shared data: qemu runs that for AArch64' same_as "$qemu" "$a64" -- "$qemu" "$work/copy" "${words[@]}"
    at=$("$apetool" map --as elf "$x64" | data_place)
    cp "$x64" "$work/other"
    printf x | dd of="$work/other" bs=1 seek=$((16#$at + 212991)) conv=notrunc 2>"$work/said"
    check 'shared data: the last byte of one is changed' "$apetool" link --systems linux -o "$work/apart" "$a64" "$work/other"
    check 'shared data: then the file is 212992 bytes longer' \
        [ $(($(wc -c <"$work/apart") - $(wc -c <"$work/linked"))) = 212992 ]
}

make_shared() {
    "$root/examples/build.sh" shared x86-64 "$x64" && "$root/examples/build.sh" shared aarch64 "$a64"
}

is_shared() {
    local one other
    one=$("$apetool" load "$work/linked" | data_place)
    other=$("$apetool" load --machine aarch64 "$work/linked" | data_place)
    [ -n "$one" ] && [ "$one" = "$other" ]
}

# Where the data stand in a file, from its plan.
data_place() {
    awk '$1 == "0000000010000000" { print $4 }'
}

make_both() {
    "$root/examples/build.sh" threads x86-64 "$x64" && "$root/examples/build.sh" threads aarch64 "$a64"
}

begin_running
flags=(-O2 -static -pthread -o "$work/program" "$root/examples/threads.c")
# shellcheck disable=SC2119 # it has no starter here
if [ "$(told)" = none ]; then
    compile 'gcc' gcc gcc "${flags[@]}"
    compile 'gcc without separate code' gcc gcc -Wl,-z,noseparate-code "${flags[@]}"
    compile 'clang' clang clang "${flags[@]}"
    compile 'Rust' 'rustc gcc' \
        rustc -O -C target-feature=+crt-static -C relocation-model=static -o "$work/program" "$root/examples/threads.rs"
else
    skip 'programs of the C library' "this kernel doesn't tell them that no program headers are in memory, or there is no gcc"
fi
compile 'Go' go env GOFLAGS= CGO_ENABLED=0 go build -o "$work/program" "$root/examples/arguments.go"
check_both
check_shared
finish
