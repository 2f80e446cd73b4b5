#!/usr/bin/env bash
# Measures the least stack, as `ulimit -s` sets it, by which the program links and loads. Each may need 1024 KiB.
# Usage: scripts/stack.sh [APETOOL]
# shellcheck source=scripts/lib.sh
. "$(dirname "$0")/lib.sh"

most=1024 # KiB

with_stack() { # KIB COMMAND..
    (ulimit -s "$1" && exec "${@:2}") >"$work/printed" 2>"$work/errors"
}

# Sets $least to the least stack in KiB, a multiple of 8, by which a command ends with 0, up to 8192.
measure() { # COMMAND..
    local low=0 high=1024 middle
    with_stack $((8 * high)) "$@" || return 1
    while [ $((high - low)) -gt 1 ]; do
        middle=$(((low + high) / 2))
        if with_stack $((8 * middle)) "$@"; then high=$middle; else low=$middle; fi
    done
    least=$((8 * high))
}

needs() { # WHAT COMMAND..
    if measure "${@:2}"; then
        check "$1 takes a stack of $least KiB, at most $most" [ "$least" -le "$most" ]
    else
        check "$1 ends with 0 by a stack of 8 MiB" false
    fi
}

elf_headers 300000 >"$work/program"
head -c 300000 /dev/zero | tr '\0' x >>"$work/program"
needs link "$apetool" link --systems linux -o "$work/linked" "$work/program"
needs load "$apetool" load "$work/linked"
needs 'load --dump' "$apetool" load --dump "$work/image" "$work/linked"

# The names that are looked for stand at more than one place of the strings each, and symbols have them, so that all is marked.
if is_there as && is_there ld; then
    { printf '.globl _start\n_start: nop\n'
      for name in ape_pe_entry ape_image_base ape_mach_entry; do
          printf 'x%s: nop\ny%s: nop\n%s: nop\n' "$name" "$name" "$name"
      done; } | as --64 -o "$work/symbols.o" -
    ld -static -o "$work/symbols" "$work/symbols.o"
    needs 'link of names that stand twice' "$apetool" link --systems linux -o "$work/linked" "$work/symbols"
else
    skip 'names that stand twice' 'they are made by as and ld (package binutils)'
fi
finish
