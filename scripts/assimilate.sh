#!/usr/bin/env bash
# What `apetool assimilate` makes of linked files: an ELF file that runs as the program that was linked and in which the readers
# of ELF that are there find its loads, and a Mach-O file with the bytes that dd makes by the file's own script.
# Usage: scripts/assimilate.sh [APETOOL]
# shellcheck source=scripts/lib.sh
. "$(dirname "$0")/lib.sh"
# shellcheck source=scripts/running.sh
. "$root/scripts/running.sh"

linked=$work/linked
plain=$work/plain

# The loads that a reader of ELF finds: address, sizes and permissions.
loads_by() { # READER FILE
    "$1" -lW "$2" | awk '$1 == "LOAD" { flags = ""; for (i = 7; i < NF; i++) flags = flags $i; print $3, $5, $6, flags }'
}

loads_by_python() { # FILE
    python3 - "$1" <<'PYTHON'
import sys
from elftools.elf.elffile import ELFFile
with open(sys.argv[1], 'rb') as file:
    for segment in ELFFile(file).iter_segments('PT_LOAD'):
        header = segment.header
        print(header.p_vaddr, header.p_filesz, header.p_memsz, header.p_flags)
PYTHON
}

same_loads() { # PROGRAM COMMAND..
    local wanted found
    wanted=$("${@:2}" "$1") && found=$("${@:2}" "$plain") && [ -n "$wanted" ] && [ "$found" = "$wanted" ]
}

check_loads() { # NAME PROGRAM
    local reader
    for reader in readelf llvm-readelf; do
        if is_there "$reader"; then
            check "$1: $reader finds the program's loads" same_loads "$2" loads_by "$reader"
        else
            skip "$1: the loads by $reader" "it isn't there"
        fi
    done
    if python3 -c 'import elftools' 2>/dev/null; then
        check "$1: pyelftools finds the program's loads" same_loads "$2" loads_by_python
    else
        skip "$1: the loads by pyelftools" "it isn't there"
    fi
}

assimilate() { # WORDS..
    rm -f "$plain"
    "$apetool" assimilate "$@" -o "$plain" "$linked" && chmod 700 "$plain"
}

# The program for x86-64 runs here, and that for AArch64 by qemu.
check_elf() {
    local x64=$work/x64 a64=$work/a64
    made 'a program for x86-64' gcc "$root/examples/build.sh" threads x86-64 "$x64" || return
    check 'x86-64: it is linked' link "$linked" "$x64"
    check 'x86-64: it becomes an ELF file' assimilate --as elf
    check 'x86-64: the ELF file runs as the program' is_same "$x64" "$plain" "${words[@]}"
    check_loads x86-64 "$x64"
    made 'two programs' "aarch64-linux-gnu-gcc $qemu" "$root/examples/build.sh" threads aarch64 "$a64" || return
    check 'two programs: they are linked' "$apetool" link --systems linux -o "$linked" "$x64" "$a64"
    check 'two programs: the file becomes an ELF file for AArch64' assimilate --as elf --machine aarch64
    check 'two programs: qemu runs it as the program' same_as "$qemu" "$a64" -- "$qemu" "$plain" "${words[@]}"
    check_loads AArch64 "$a64"
}

# dd by the words that the script has for it, from a copy onto itself.
by_dd() {
    local words
    words=$(grep -a -o ' bs=[0-9]* skip=[0-9]* count=[0-9]* conv=notrunc' "$linked" | head -n 1)
    cp "$linked" "$work/moved"
    # shellcheck disable=SC2086 # they are words
    dd if="$work/moved" of="$work/moved" $words 2>/dev/null && cmp -s "$work/moved" "$plain"
}

check_mach() {
    { elf_headers 16 && printf '0123456789abcdef'; } >"$work/program"
    check 'macOS: a program is linked' "$apetool" link --systems linux,mac -o "$linked" "$work/program"
    check 'macOS: it becomes a Mach-O file' assimilate --as mach
    check 'macOS: the Mach-O file is what dd makes of it' by_dd
    check 'macOS: map reads it' "$apetool" map --as mach "$plain" >"$work/plan"
}

begin_running
check_elf
check_mach
finish
