#!/usr/bin/env bash
# Makes of linked files what their script makes on macOS, by the dd of GNU and of busybox, and compares it with what the Mach-O
# reading, LLVM and macholib tell. Nothing is started. Usage: scripts/macos.sh [APETOOL]
# shellcheck source=scripts/lib.sh
. "$(dirname "$0")/lib.sh"

file=$work/linked
moved=$work/moved

# The copy, by the script's own line for dd, which is the command of that name in PATH.
move() { # COMMAND IN FRONT OF dd..
    local t=$moved line
    cp "$file" "$t" || return 1
    line=$(grep -a '^dd if=' "$file") && line=${line% || exit 123}
    # shellcheck disable=SC2294 # the line is words of a shell
    eval "$* $line"
}

# Whether the copy has the bytes from 8192 on, as far as the header says, over its front.
is_moved() {
    local end
    end=$((32 + $(od -An -tu4 -j$((8192 + 20)) -N4 "$file")))
    cmp <(tail -c +8193 "$file" | head -c "$end") <(head -c "$end" "$moved") &&
        cmp -i "$end" "$file" "$moved"
}

# The sections that map tells, without what they show of the file, and the entry.
loaded() { # FILE COMMAND..
    "$apetool" "${@:2}" "$1" | awk '/^entry/ { print } /^[0-9a-f]/ { print $1, $2, $4, $5 }'
}

# What llvm-objdump reads, as map prints it: each segment that may be touched, and the instruction pointer.
told_by_objdump() {
    "$1" --macho --private-headers "$moved" | awk '
        function number(text) { sub(/^0x/, "", text); return text }
        $1 == "vmaddr" { address = number($2) }
        $1 == "vmsize" { span = number($2) }
        $1 == "fileoff" { place = $2 }
        $1 == "filesize" { size = $2 }
        $1 == "initprot" && $2 != "---" {
            region[++count] = sprintf("%s %s %016x %016x %s", address, span, size, size == 0 ? 0 : place, $2)
        }
        { for (i = 1; i < NF; i++) if ($i == "rip") print "entry " number($(i + 1)) }
        END { for (i = 1; i <= count; i++) print region[i] }'
}

told_by_readobj() {
    "$1" --macho-segment "$moved" | awk '
        $1 == "vmaddr:" { address = $2 }
        $1 == "vmsize:" { span = $2 }
        $1 == "fileoff:" { place = $2 }
        $1 == "filesize:" { size = $2 }
        $1 == "initprot:" && $2 != "---" { print address, span, size, size == 0 ? 0 : place, $2 }' |
        while read -r address span size place rights; do
            printf '%016x %016x %016x %016x %s\n' "$address" "$span" "$size" "$place" "$rights"
        done
}

tells_as() { # WANTED COMMAND..
    "${@:2}" >"$work/told" 2>"$work/said"
    [ -s "$1" ] && cmp "$1" "$work/told"
}

# A file that is linked for macOS, and what it is there.
check_file() { # WHAT
    "$apetool" map --as mach "$moved" >"$work/map" 2>"$work/said"
    check "$1: map --as mach takes the copy" [ -s "$work/map" ]
    check "$1: it has the loads and the entry that load tells" \
        cmp <(loaded "$file" load) <(loaded "$moved" map --as mach)
    grep -v '^entry' "$work/map" >"$work/regions"
    [ -z "$objdump" ] || check "$1: llvm-objdump tells segments and entry so" tells_as "$work/map" told_by_objdump "$objdump"
    [ -z "$readobj" ] || check "$1: llvm-readobj tells segments so" tells_as "$work/regions" told_by_readobj "$readobj"
    [ -z "$python" ] || check "$1: macholib tells segments and entry so" \
        tells_as "$work/map" "$python" "$root/scripts/macos.py" "$moved"
}

check_moves() { # WHAT
    check "$1: dd of this system moves the header" move && check "$1: the copy has the header in front" is_moved
    check "$1: dd by POSIX alone does" move env POSIXLY_CORRECT=1 && check "$1: that copy, too" is_moved
    if is_there busybox; then
        check "$1: dd of busybox does" move busybox && check "$1: and that copy" is_moved
    else
        skip "$1: dd of busybox" 'it is missing'
    fi
}

begin_tools() {
    local tool
    for tool in llvm-objdump llvm-readobj; do
        is_there "$tool" || skip "$tool" 'it is missing (package llvm)'
    done
    objdump=$(command -v llvm-objdump)
    readobj=$(command -v llvm-readobj)
    python=''
    for tool in python3 /usr/bin/python3; do
        "$tool" -c 'import macholib' 2>/dev/null && python=$tool && return
    done
    skip 'macholib' 'it is missing (package python3-macholib)'
}

begin_tools
{
    elf_headers 100
    head -c 100 /dev/zero | tr '\0' x
} >"$work/small"
check 'a program of one load is linked for macOS' "$apetool" link --systems mac -o "$file" "$work/small"
check_moves 'one load'
check_file 'one load'
if gcc -O2 -static -pthread -o "$work/threads" "$root/examples/threads.c" "$root/examples/start.S" -Wl,-e,ape_start \
    2>"$work/said"; then
    check 'the C example is linked without --systems' "$apetool" link -o "$file" "$work/threads"
    check_moves 'the C example'
    check_file 'the C example'
else
    skip 'the C example' "gcc: $(head -n 1 "$work/said" | head -c 100)"
fi
finish
