#!/bin/sh
# Builds an example into the file OUT, on x86-64 Linux: a static ELF program for one machine.
# hello is of the machine's assembler and uses no library; threads is threads.c with the start stub start.S; windows is hello
# with what it does on Windows, windows.c and imports.S, and is for x86-64 alone; shared is shared.c with the start stub, and its
# data in a load of their own.
# Usage: examples/build.sh hello|threads|windows|shared x86-64|aarch64 OUT
set -eu

usage() {
    echo 'usage: examples/build.sh hello|threads|windows|shared x86-64|aarch64 OUT' >&2
    exit 2
}

need() { # TOOL PACKAGE
    command -v "$1" >/dev/null || {
        echo "examples/build.sh: $1 is missing; it is in the package $2" >&2
        exit 2
    }
}

[ $# = 3 ] || usage
out=$3
here=$(dirname "$0")

case $2 in
x86-64) prefix='' package='' source=$here/hello.s ;;
aarch64) prefix=aarch64-linux-gnu- package=-aarch64-linux-gnu source=$here/hello-aarch64.s ;;
*) usage ;;
esac

case $1 in
windows)
    [ "$2" = x86-64 ] || usage
    need gcc gcc
    gcc -O -static -nostdlib -ffreestanding -fno-stack-protector -mno-red-zone -Wl,-z,noexecstack \
        -o "$out" "$source" "$here/windows.c" "$here/imports.S"
    ;;
threads)
    need "${prefix}gcc" "gcc$package"
    "${prefix}gcc" -O2 -static -pthread -o "$out" "$here/threads.c" "$here/start.S" -Wl,-e,ape_start
    ;;
shared)
    need "${prefix}gcc" "gcc$package"
    "${prefix}gcc" -O2 -static -o "$out" "$here/shared.c" "$here/start.S" -Wl,-e,ape_start \
        -Wl,--section-start=shared=0x10000000
    ;;
hello)
    need "${prefix}as" "binutils$package"
    need "${prefix}ld" "binutils$package"
    trap 'rm -f "$out.o"' EXIT
    "${prefix}as" -o "$out.o" "$source"
    "${prefix}ld" -static -o "$out" "$out.o"
    ;;
*) usage ;;
esac
