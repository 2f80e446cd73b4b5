#!/usr/bin/env bash
# Shows each line of docs/ERRORS.md by a file or words that bring it about, and the refusals that compilers' files meet most,
# each with the flags that cure it. Usage: scripts/refusals.sh [APETOOL]
# shellcheck source=scripts/lib.sh
. "$(dirname "$0")/lib.sh"
# shellcheck source=scripts/running.sh
. "$root/scripts/running.sh"

examples=$root/examples
program=$work/program
file=$work/file
new=$work/new

# Whether a command ends with a status and one line, which is a pattern, and prints nothing else and makes no new file.
says() { # STATUS LINE COMMAND..
    rm -f "$new"
    "${@:3}" >"$work/printed" 2>"$work/errors"
    # shellcheck disable=SC2053 # it is a pattern
    [ $? = "$1" ] && [[ $(cat "$work/errors") == "apetool: "$2 ]] && [ ! -s "$work/printed" ] && [ ! -e "$new" ]
}

# The small program with numbers changed: in its header, its program header at 64, and the place of a second one, at 120.
change() { # FILE [AT BYTES VALUE]..
    local file=$1
    cp "$work/small" "$file"
    shift
    while [ $# -gt 0 ]; do
        put "$file" "$@"
        shift 3
    done
}

put() { # FILE AT BYTES VALUE..
    number "$3" "$4" | dd of="$1" bs=1 seek="$2" conv=notrunc 2>/dev/null
}

# A second program header: its type, flags, place in the file, address, sizes and alignment.
second() { # TYPE FLAGS OFFSET ADDRESS FILESZ MEMSZ ALIGN
    echo 56 2 2 120 4 "$1" 124 4 "$2" 128 8 "$3" 136 8 "$4" 144 8 0 152 8 "$5" 160 8 "$6" 168 8 "$7"
}

rule() { # RULE ITEM VALUE [AT BYTES VALUE]..
    change "$file" "${@:4}"
    check "rule $1, value $3" says 1 "rule $1 input 1 item $2 value $3" link "$new" "$file"
}

check_rules() {
    local page=$((0x400078))
    check 'the small program itself is linked' link "$work/linked" "$work/small"
    : >"$file" && truncate -s $(((1 << 28) + 1)) "$file"
    check 'rule 1' says 1 'rule 1 input 1 item 0 value 268435457' link "$new" "$file"
    : >"$file"
    check 'rule 2, of an empty file' says 1 'rule 2 input 1 item 0 value 0' link "$new" "$file"
    rm -f "$work/pipe" && mkfifo "$work/pipe"
    timeout 60 sh -c ': >"$0"' "$work/pipe" &
    check 'rule 2, of a pipe' says 1 'rule 2 input 1 item 0 value 0' link "$new" "$work/pipe"
    wait $!
    check 'rule 3, of a script' says 1 "rule 3 input 1 item 0 value $((0x752f2123))" link "$new" "$0"
    check 'rule 3, of a linked file' says 1 'rule 3 input 1 item 0 value 1953653098' link "$new" "$work/linked"
    rule 4 0 1 4 1 1
    rule 5 0 2 5 1 2
    rule 6 0 0 6 1 0
    rule 6 0 2 20 4 2
    rule 7 0 3 16 2 3
    rule 8 0 243 18 2 243
    rule 9 0 32 54 2 32
    rule 10 0 0 56 2 0
    rule 11 0 165 32 8 165
    rule 12 1 3 64 4 3
    rule 13 0 0 64 4 0
    rule 14 1 100 104 8 99
    rule 15 1 121 72 8 121
    rule 16 1 4096 80 8 4096 24 8 4096
    rule 17 1 7 68 4 7
    # shellcheck disable=SC2046 # they are words
    {
        rule 18 2 $page $(second 1 4 120 $page 10 10 4096)
        rule 19 1 $(((1 << 30) + 0x1000)) $(second 1 4 120 $((page + (1 << 30))) 10 10 4096)
        rule 21 2 $page $(second 7 4 120 $page 10 10 $(((1 << 30) + 1)))
        change "$file" 96 8 $((1 << 28)) 104 8 $((1 << 28)) 72 8 0 $(second 1 4 0 $((1 << 29)) 1 1 4096)
    }
    truncate -s $((1 << 28)) "$file"
    check 'rule 19, of the sum' says 1 "rule 19 input 1 item 2 value $(((1 << 28) + 1))" link "$new" "$file"
    rule 20 0 16 24 8 16
    rule 22 0 1 40 8 64 60 2 1
    check 'rule 23' says 1 'rule 23 input 2 item 0 value 62' link_two "$work/small" "$work/small"
    rm -f "$file"
    check 'input 2 is named where it breaks a rule' says 1 'rule 2 input 2 item 0 value 0' \
        link_two "$work/small" /dev/null
}

link_two() { # IN IN
    "$apetool" link --systems linux -o "$new" "$@"
}

elf() { # CAUSE ITEM VALUE [AT BYTES VALUE]..
    change "$file" "${@:4}"
    check "elf $1" says 1 "elf $1 item $2 value $3" "$apetool" map --as elf "$file"
}

check_readings() {
    local page=$((0x400078))
    : >"$file"
    check 'elf Short' says 1 'elf Short item 0 value 0' "$apetool" map --as elf "$file"
    elf Magic 0 $((0x464c457e)) 0 1 126
    elf Class 0 1 4 1 1
    elf Endian 0 2 5 1 2
    elf Version 0 2 20 4 2
    elf FileType 0 3 16 2 3
    elf Machine 0 183 18 2 183
    elf TableSize 0 32 54 2 32
    elf TableCount 0 65 56 2 65
    elf TableRange 0 165 32 8 165
    elf Dynamic 1 2 64 4 2
    elf Sizes 1 100 104 8 99
    elf Range 1 121 72 8 121
    elf Top 1 $(((1 << 47) + 120)) 80 8 $(((1 << 47) + 120))
    elf Congruent 1 120 80 8 4096
    change "$file" 18 2 183 24 8 $((page + 4096)) 80 8 $((page + 4096)) 88 8 $((page + 4096))
    check 'elf Congruent, of pages of 16384' says 1 'elf Congruent item 1 value 120' "$apetool" map --as elf --machine aarch64 "$file"
    check 'it is taken in pages of 4096' maps_small
    # shellcheck disable=SC2046 # they are words
    elf Order 2 $page $(second 1 4 120 $page 10 10 4096)
    elf NoLoad 0 0 64 4 0
    check 'ape NoMagic' says 1 'ape NoMagic item 0 value 0' "$apetool" load "$work/small"
    check 'ape NoStatement' says 1 'ape NoStatement item 0 value 0' "$apetool" load --machine aarch64 "$work/linked"
    cp "$work/linked" "$file" && put "$file" $((96 + 40)) 8 99
    check 'elf, of a linked file' says 1 'elf Sizes item 1 value 100' "$apetool" load "$file"
    put "$file" $((96 + 40)) 8 $(((1 << 30) + 1))
    check 'image Wide' says 1 "image Wide item 0 value $(((1 << 30) + 4096))" "$apetool" load --dump "$new" "$file"
    truncate -s $(((1 << 30) + 1)) "$file"
    check 'file Large' says 1 "file Large item 0 value $(((1 << 30) + 1))" "$apetool" load "$file"
    rm -f "$file"
}

maps_small() {
    "$apetool" map --as elf --machine aarch64 --page 4096 "$file" >"$work/printed" 2>&1
}

check_others() {
    local usage='usage: apetool *'
    check 'usage: no words' says 2 "$usage" "$apetool"
    check 'usage: -o is missing' says 2 "$usage" "$apetool" link --systems linux "$work/small"
    check 'usage: an unknown system' says 2 "$usage" "$apetool" link --systems beos -o "$new" "$work/small"
    check 'usage: an option that is given twice' says 2 "$usage" "$apetool" link --systems linux --systems=linux -o "$new" "$work/small"
    check 'usage: OUT is IN' says 2 "$usage" "$apetool" link --systems linux -o "$work/small" "$work/small"
    check 'usage: three inputs' says 2 "$usage" link_two "$work/small" "$work/small" "$work/small"
    check 'usage: help' says 2 "$usage" "$apetool" --help
    check 'cannot read: a missing file' says 3 'cannot read' link "$new" "$work/missing"
    check 'cannot read: a folder' says 3 'cannot read' "$apetool" load "$work"
    check 'cannot write: a missing folder' says 4 'cannot write' link "$work/missing/new" "$work/small"
    check 'cannot write: an image file' says 4 'cannot write' "$apetool" load --dump "$work/missing/new" "$work/linked"
    if [ -c /dev/full ]; then
        check 'cannot print' says 4 'cannot print' sh -c '"$0" load "$1" >/dev/full' "$apetool" "$work/linked"
    else
        skip 'cannot print' 'there is no /dev/full'
    fi
    cp "$work/linked" "$file" && truncate -s 400000000 "$file" # it is read whole
    if (ulimit -v 200000 && "$apetool" load "$work/linked") >"$work/said" 2>&1; then
        check 'no memory' says 5 'no memory' sh -c 'ulimit -v 200000; "$0" load --dump "$1" "$2"' "$apetool" "$new" "$file"
    else
        skip 'no memory' 'the program does not start in 200 MB of addresses'
    fi
    rm -f "$file"
}

# What a compiler makes: the line of its refusal.
refused() { # LINE NAME TOOLS COMMAND..
    rm -f "$program"
    made "${@:2}" || return
    check "$2: $1" says 1 "$1" link "$new" "$program"
}

# And with the flags that cure it.
cured() { # NAME TOOLS COMMAND..
    rm -f "$program"
    made "$@" || return
    check "$1: it is linked" link "$work/cured" "$program"
}

check_compilers() {
    local c=(-O2 -pthread -o "$program" "$examples/threads.c") a64=aarch64-linux-gnu-gcc flag
    local rust=(rustc -O -o "$program" "$examples/threads.rs")
    local go=(env GOFLAGS= CGO_ENABLED=0 go build -o "$program")

    refused 'rule 7 input 1 item 0 value 3' 'gcc without flags' gcc gcc "${c[@]}"
    refused 'rule 7 input 1 item 0 value 3' 'gcc -static-pie' gcc gcc -static-pie "${c[@]}"
    refused 'rule 7 input 1 item 0 value 3' 'gcc -shared' gcc gcc -shared -fPIC "${c[@]}"
    refused 'rule 12 input 1 item * value 3' 'gcc -no-pie' gcc gcc -no-pie "${c[@]}"
    refused 'rule 7 input 1 item 0 value 1' 'gcc -c' gcc gcc -c "${c[@]}"
    cured 'gcc -static' gcc gcc -static "${c[@]}"
    refused 'rule 7 input 1 item 0 value 3' 'clang without flags' clang clang "${c[@]}"
    cured 'clang -static' clang clang -static "${c[@]}"
    refused 'rule 7 input 1 item 0 value 3' 'rustc without flags' 'rustc gcc' "${rust[@]}"
    refused 'rule 7 input 1 item 0 value 3' 'rustc crt-static alone' 'rustc gcc' "${rust[@]}" -C target-feature=+crt-static
    cured 'rustc crt-static, relocation-model=static' 'rustc gcc' \
        "${rust[@]}" -C target-feature=+crt-static -C relocation-model=static
    refused 'rule 7 input 1 item 0 value 3' 'go -buildmode=pie' go "${go[@]}" -buildmode=pie "$examples/arguments.go"
    cured 'go' go "${go[@]}" "$examples/arguments.go"

    for flag in -N -n; do
        refused 'rule 17 input 1 item 1 value 7' "a program of text and data, ld $flag" 'as ld' make_data "$flag"
    done
    cured 'a program of text and data, ld' 'as ld' make_data
    if is_there gcc; then
        check 'the stub is not taken by ld -N' lacks_header gcc -static -Wl,-N "${c[@]}" "$examples/start.S" -Wl,-e,ape_start
    fi
    for flag in 512 2048; do
        refused 'rule 18 input 1 item * value *' "gcc -static, pages of $flag" gcc \
            gcc -static -Wl,-z,max-page-size=$flag "${c[@]}"
    done
    cured 'gcc -static, pages of 4096' gcc gcc -static -Wl,-z,max-page-size=4096 "${c[@]}"
    refused 'rule 18 input 1 item * value *' 'AArch64 gcc -static, pages of 4096' $a64 \
        $a64 -static -Wl,-z,max-page-size=4096 "${c[@]}"
    cured 'AArch64 gcc -static, pages of 16384' $a64 $a64 -static -Wl,-z,max-page-size=16384 "${c[@]}"
    cured 'AArch64 gcc -static' $a64 $a64 -static "${c[@]}"

    refused 'rule 4 input 1 item 0 value 1' 'a program of 32 bits' 'as ld' make_32
    refused 'rule 16 input 1 item 1 value 4096' 'gcc -static, text at 4096' gcc \
        gcc -static -Wl,-Ttext-segment=0x1000 "${c[@]}"
    cured 'gcc -static, text at 65536' gcc gcc -static -Wl,-Ttext-segment=0x10000 "${c[@]}"
    refused 'rule 20 input 1 item 0 value 16' 'gcc -static, entry at 16' gcc gcc -static -Wl,-e,0x10 "${c[@]}"
}

make_data() { # LINKER'S FLAG..
    as -o "$work/data.o" - <<<$'.globl _start\n_start: incl number\n.data\nnumber: .long 1' &&
        ld "$@" -o "$program" "$work/data.o"
}

lacks_header() { # COMMAND..
    ! "$@" >"$work/said" 2>&1 && grep -q __ehdr_start "$work/said"
}

make_32() {
    as --32 -o "$work/32.o" - <<<$'.globl _start\n_start: nop' && ld -m elf_i386 -o "$program" "$work/32.o"
}

{
    elf_headers 100
    head -c 100 /dev/zero | tr '\0' x
} >"$work/small"
tell_versions gcc clang binutils golang-go gcc-aarch64-linux-gnu
check_rules
check_readings
check_others
check_compilers
finish
