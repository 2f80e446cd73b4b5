#!/usr/bin/env bash
# Measures how long the program takes, each the best of five runs that take turns: a link of 100 MB against cp of the same
# bytes, against dd and against objcopy; a link of a program of 100,000 symbols against one of the same program stripped, against
# one for Windows too, and against one whose symbols end in the names that are looked for; a link of a program of 1,000,000 symbols
# that name places beside those names, against one of the same program without the names; a link of two programs with the same
# 100 MB of data against one cmp and one cp of them; a load of a file of 500 MB against cat of it; and a link and a dump of a file
# of 250 MB against dd of its bytes in pieces of 64 KB, with the memory that the dump takes. A load may take 2 times as long as cat,
# and a dump may have 1.1 times the file in memory. Where STRICT is set a link may take 2.5 times as long as cp and 1.05 times as
# long as dd, one with symbols, or for Windows, 1.3 times as long as one without, one with the names 1.5 times as long as one
# without, one of two programs with the same data 1.6 times as long as cmp and cp, and a dump 2.5 times as long as dd.
# Usage: scripts/speed.sh [APETOOL]
# shellcheck source=scripts/lib.sh
. "$(dirname "$0")/lib.sh"

size=100000000
bound=250 # hundredths
symbols=100000
symbols_bound=130
windows_bound=130
marked_bound=150
loaded=500000000
load_bound=200
dumped=250000000
dump_bound=250
memory_bound=110
shared_bound=160
large_bound=105

# The same commands in turns, each on a new output, with the least times.
measure() {
    local turn
    for turn in 1 2 3 4 5; do
        rm -f "$work/linked" "$work/copied"
        time_of link "$work/linked" "$work/program" || return 1
        [ "$turn" != 1 ] && [ "$took" -ge "$linking" ] || linking=$took
        time_of cp "$work/program" "$work/copied" || return 1
        [ "$turn" != 1 ] && [ "$took" -ge "$copying" ] || copying=$took
    done
}

is_whole() {
    cmp -s -n "$size" <(tail -c +$((16384 + 121)) "$work/linked") <(tail -c +121 "$work/program")
}

# Loads and reads of the linked file, lengthened by a hole, in turns, with the least times.
measure_load() {
    local turn
    truncate -s "$loaded" "$work/linked" || return 1
    for turn in 1 2 3 4 5; do
        time_of "$apetool" load "$work/linked" >"$work/plan" || return 1
        [ "$turn" != 1 ] && [ "$took" -ge "$loading" ] || loading=$took
        time_of cat "$work/linked" >/dev/null || return 1
        [ "$turn" != 1 ] && [ "$took" -ge "$reading" ] || reading=$took
    done
}

# A linked file with one load of 250 MB, dumped and copied in turns, with the least times, and the most memory of a dump in KB.
measure_dump() {
    local turn
    for turn in 1 2 3 4 5; do
        rm -f "$work/image" "$work/copied"
        time_of "$apetool" load --dump "$work/image" "$work/linked" >"$work/plan" || return 1
        [ "$turn" != 1 ] && [ "$took" -ge "$dumping" ] || dumping=$took
        time_of dd if="$work/linked" of="$work/copied" bs=64k status=none || return 1
        [ "$turn" != 1 ] && [ "$took" -ge "$piping" ] || piping=$took
    done
}

# Links of a program with one load of 250 MB, and copies of it, in turns, with the least times.
measure_large() {
    local turn
    for turn in 1 2 3 4 5; do
        rm -f "$work/linked" "$work/copied"
        time_of link "$work/linked" "$work/program" || return 1
        [ "$turn" != 1 ] && [ "$took" -ge "$linking" ] || linking=$took
        time_of dd if="$work/program" of="$work/copied" bs=64k status=none || return 1
        [ "$turn" != 1 ] && [ "$took" -ge "$piping" ] || piping=$took
    done
}

# The most memory that a command has, in KB.
memory_of() { # COMMAND ..
    python3 -c 'import resource, subprocess, sys
status = subprocess.run(sys.argv[1:], stdout=subprocess.DEVNULL).returncode
print(resource.getrusage(resource.RUSAGE_CHILDREN).ru_maxrss)
sys.exit(status)' "$@"
}

# Two programs for both machines with the same data, whose granules end at the same place.
make_shared() {
    elf_headers "$shared" >"$work/one" && head -c "$shared" /dev/urandom >>"$work/one" && cp "$work/one" "$work/other" &&
        printf '\267' | dd of="$work/one" bs=1 seek=18 conv=notrunc status=none
}

# The second with other data, so that the first pieces that are compared differ.
make_unlike() {
    elf_headers "$shared" >"$work/other" && head -c "$shared" /dev/urandom >>"$work/other"
}

# A link of the two, and a command, in turns, with the least times.
measure_two() { # COMMAND
    local turn
    for turn in 1 2 3 4 5; do
        rm -f "$work/linked" "$work/copied"
        time_of "$apetool" link --systems linux -o "$work/linked" "$work/one" "$work/other" || return 1
        [ "$turn" != 1 ] && [ "$took" -ge "$linking" ] || linking=$took
        time_of "$1" || return 1
        [ "$turn" != 1 ] && [ "$took" -ge "$copying" ] || copying=$took
    done
}

compare_and_copy() {
    cmp -s -i 120 "$work/one" "$work/other" && cp "$work/one" "$work/copied"
}

copy_both() {
    cat "$work/one" "$work/other" >"$work/copied"
}

# A program of many functions, with their symbols and stripped of them.
make_symbols() {
    functions _start symbols && strip -o "$work/stripped" "$work/symbols"
}

# The same with an entry for Windows.
make_windows() {
    functions ape_pe_entry windows
}

functions() { # ENTRY FILE
    seq "$symbols" | sed "s/.*/function_&_of_the_program: .skip 64, 0x90/; 1i .globl $1\n$1:" |
        as --64 -o "$work/$2.o" - && ld -static -e "$1" -o "$work/$2" "$work/$2.o"
}

# The same where the names that are looked for end other names, ahead of all symbols.
make_marked() {
    {
        printf '.globl _start\n_start:\n'
        printf 'x%s:\ny%s:\n' ape_pe_entry ape_pe_entry ape_image_base ape_image_base ape_mach_entry ape_mach_entry
        seq "$symbols" | sed 's/.*/function_&_of_the_program: .skip 64, 0x90/'
    } | as --64 -o "$work/marked.o" - && ld -static -o "$work/marked" "$work/marked.o"
}

# A program of 1,000,000 symbols and 200 KB of strings, all in its load. Each string is a name with a byte ahead, and each symbol
# names the byte.
make_beside() { # FILE NAME..
    python3 -c 'import struct, sys
names = [b"x" + name.encode() + b"\0" for name in sys.argv[2:]]
unit = b"".join(names)
strings = b"\0" + unit * (200000 // len(unit))
places = [1 + i for i in range(len(strings) - 1) if strings[i] == 0]
symbols = b"".join(struct.pack("<IBBHQQ", places[i % len(places)], 18, 0, 1, 0x400078, 0) for i in range(1000000))
end = 120 + len(symbols) + len(strings)
end += -end % 8
head = struct.pack("<4s4B8xHHIQQQIHHHHHH", b"\x7fELF", 2, 1, 1, 0, 2, 62, 1, 0x400078, 64, end, 0, 64, 56, 1, 64, 3, 0)
load = struct.pack("<IIQQQQQQ", 1, 5, 0, 0x400000, 0x400000, end, end, 4096)
table = struct.pack("<IIQQQQIIQQ", 0, 2, 0, 0, 120, len(symbols), 2, 1, 8, 24)
names = struct.pack("<IIQQQQIIQQ", 0, 3, 0, 0, 120 + len(symbols), len(strings), 0, 0, 1, 0)
with open(sys.argv[1], "wb") as out:
    out.write((head + load + symbols + strings).ljust(end, b"\0") + bytes(64) + table + names)' "$@"
}

# Two links in turns, each of its input to a new output, with the least times in $one and $other.
measure_links() { # COMMAND IN COMMAND IN
    local turn
    for turn in 1 2 3 4 5; do
        rm -f "$work/linked"
        time_of "$1" "$work/linked" "$2" || return 1
        [ "$turn" != 1 ] && [ "$took" -ge "$one" ] || one=$took
        rm -f "$work/linked"
        time_of "$3" "$work/linked" "$4" || return 1
        [ "$turn" != 1 ] && [ "$took" -ge "$other" ] || other=$took
    done
}

link_for_windows() { # OUT IN
    "$apetool" link --systems linux,windows -o "$1" "$2"
}

is_planned() {
    [ "$(head -n 1 "$work/plan")" = 'entry 0000000000400078' ]
}

if [ -z "${EPOCHREALTIME-}" ]; then
    skip 'all' 'the clock of bash 5 is missing'
    finish
fi
if [ "$(df -Pk "$work" | awk 'NR == 2 { print $4 }')" -lt 1000000 ]; then
    skip 'all' "there is no 1 GB free in $work"
    finish
fi

elf_headers "$size" >"$work/program"
head -c "$size" /dev/urandom >>"$work/program"
check '100 MB are linked five times' measure
[ "$failed" = 0 ] || finish
check 'the linked file holds the load' is_whole

# Compares two times in microseconds with a bound in hundredths, which is asked for where STRICT is set.
compare() { # WHAT TIME WHAT TIME BOUND
    local ratio=$((100 * $2 / $4)) figures most
    figures=$(printf '%s %d us, %s %d us, ratio %d.%02d' "$1" "$2" "$3" "$4" $((ratio / 100)) $((ratio % 100)))
    most=$(printf '%d.%02d' $(($5 / 100)) $(($5 % 100)))
    if [ -n "${STRICT-}" ]; then
        check "$figures, at most $most" [ "$ratio" -le "$5" ]
    else
        echo "$figures ($most is wanted, and asked for where STRICT is set)"
    fi
}

compare link "$linking" cp "$copying" "$bound"

# The same bytes by other programs, for the table of docs/GATE.md.
copy_by_dd() { # SIZE
    dd if="$work/program" of="$work/copied" bs="$1" 2>"$work/errors"
}
for piece in 64k 128k 256k 512k 1M; do
    rm -f "$work/copied"
    time_of copy_by_dd "$piece" && echo "dd bs=$piece $took us"
done
if is_there objcopy; then
    rm -f "$work/copied"
    time_of objcopy -I binary -O binary "$work/program" "$work/copied" && echo "objcopy $took us"
fi

mv "$work/linked" "$work/large"
shared=100007816 # with its 120 bytes of headers a multiple of 16384
check 'two programs with the same 100 MB are made' make_shared
check 'they are linked five times' measure_two compare_and_copy
[ "$failed" = 0 ] || finish
check 'their data stand once' [ "$(wc -c <"$work/linked")" = $((16384 + 120 + shared)) ]
compare 'link of two with the same data' "$linking" 'cmp and cp' "$copying" "$shared_bound"
rm -f "$work/linked" "$work/copied"
check 'two programs with unlike 100 MB are made' make_unlike
check 'they are linked five times' measure_two copy_both
[ "$failed" = 0 ] || finish
compare 'link of two with unlike data' "$linking" 'cat of both' "$copying" "$bound"
rm -f "$work/one" "$work/other" "$work/copied" "$work/linked"
if is_there as && is_there ld && is_there strip; then
    check 'a program of 100,000 symbols is made' make_symbols
    check 'it is linked five times' measure_links link "$work/symbols" link "$work/stripped"
    [ "$failed" = 0 ] || finish
    compare 'link with 100,000 symbols' "$one" 'without them' "$other" "$symbols_bound"
    check 'the same with an entry for Windows is made' make_windows
    check 'it is linked five times for Windows too' measure_links link_for_windows "$work/windows" link "$work/windows"
    [ "$failed" = 0 ] || finish
    compare 'link for Linux and Windows' "$one" 'for Linux alone' "$other" "$windows_bound"
    check 'a program whose symbols end in the names that are looked for is made' make_marked
    check 'it is linked five times' measure_links link "$work/marked" link "$work/symbols"
    [ "$failed" = 0 ] || finish
    compare 'link with such symbols' "$one" 'without them' "$other" "$marked_bound"
else
    skip 'symbols' 'they are made by as, ld and strip (package binutils)'
fi
if is_there python3; then
    check 'a program is made whose 1,000,000 symbols name places beside the names' make_beside "$work/beside" ape_pe_entry \
        ape_mach_entry ape_image_base ape_idata ape_idata_end ape_iat ape_iat_end
    check 'the same is made without the names' make_beside "$work/without" aqe_pe_entry aqe_mach_entry aqe_image_base aqe_idata \
        aqe_idata_end aqe_iat aqe_iat_end
    check 'they are linked five times' measure_links link "$work/beside" link "$work/without"
    [ "$failed" = 0 ] || finish
    compare 'link with the names' "$one" 'without them' "$other" "$marked_bound"
else
    skip 'names beside symbols' 'they are made by python3'
fi
mv "$work/large" "$work/linked"

check '500 MB are loaded five times' measure_load
[ "$failed" = 0 ] || finish
check 'the plan is printed' is_planned
ratio=$((100 * loading / reading))
figures=$(printf 'load %d ms, cat %d ms, ratio %d.%02d' $((loading / 1000)) $((reading / 1000)) $((ratio / 100)) $((ratio % 100)))
check "$figures, at most 2.00" [ "$ratio" -le "$load_bound" ]

elf_headers "$dumped" >"$work/program"
head -c "$dumped" /dev/urandom >>"$work/program"
rm -f "$work/linked" "$work/image" "$work/copied"
check '250 MB are linked five times' measure_large
[ "$failed" = 0 ] || finish
compare 'link of 250 MB' "$linking" 'dd bs=64k' "$piping" "$large_bound"
rm -f "$work/program"
check '250 MB are dumped five times' measure_dump
[ "$failed" = 0 ] || finish
compare 'load --dump' "$dumping" 'dd bs=64k' "$piping" "$dump_bound"
if is_there python3; then
    memory=$(memory_of "$apetool" load --dump "$work/image" "$work/linked")
    check 'its memory is measured' [ "${memory:-0}" -gt 0 ]
    ratio=$((100 * 1024 * ${memory:-0} / dumped))
    figures=$(printf 'load --dump has %d KB in memory, %d.%02d times the file' "${memory:-0}" $((ratio / 100)) $((ratio % 100)))
    check "$figures, at most 1.10" [ "$ratio" -le "$memory_bound" ]
else
    skip 'memory of load --dump' 'it is measured by python3'
fi
finish
