#!/usr/bin/env bash
# Links programs for Windows, and asks others what they see: objdump, llvm-readobj and pefile tell what a linked file is, and
# what files that others made are; wine runs the linked file, and shells and qemu run it as they run any. What is expected is
# told by the program that was linked and by these tools. Usage: scripts/windows.sh [APETOOL]
# shellcheck source=scripts/lib.sh
. "$(dirname "$0")/lib.sh"
# shellcheck source=scripts/running.sh
. "$root/scripts/running.sh"

examples=$root/examples
program=$work/windows
arm=$work/hello.a64
file=$work/linked
words+=('a\"b' "c:\\dir\\" "x\\\\ y\\\\" ' ')
tools=(map) # those that tell what a Windows file is, as far as they are here
example=(gcc -O -static -nostdlib -ffreestanding -fno-stack-protector -mno-red-zone '-Wl,-z,noexecstack' \
    "$examples/hello.s" "$examples/windows.c" "$examples/imports.S")
loaded=500000000
load_bound=200 # hundredths

link_for() { # SYSTEMS OUT IN..
    "$apetool" link --systems "$1" -o "${@:2}"
}

# What a Windows file is, in lines: its entry, where it stands, its sections with their permissions, and its imports.

# By the program that is linked: its symbols and loads. A section stands for each load, and for each gap before one.
told_by_program() {
    local base address size flags rights end
    base=$(address_of ape_image_base)
    printf 'entry %s\nbase %s\n' "$(address_of ape_pe_entry)" "$base"
    end=$((0x$base + 8192))
    while read -r address size flags; do
        case $flags in *W*) rights=rw- ;; *E*) rights=r-x ;; *) rights=r-- ;; esac
        [ $((address & -4096)) = "$end" ] || printf 'section %016x r--\n' "$end"
        printf 'section %016x %s\n' $((address & -4096)) "$rights"
        end=$(((address + size + 4095) & -4096))
    done < <(readelf -lW "$program" | awk '$1 == "LOAD" { print $3, $6, $7 $8 }')
    imports_of_program | sed 's/ [^ ]*$//'
}

address_of() { # SYMBOL
    nm "$program" | sed -n "s/ . $1\$//p"
}

# The functions of kernel32, each with the place of its address, by the names that imports.S gives these places.
imports_of_program() {
    nm "$program" | sort | awk -v from="x$(address_of ape_iat)" -v to="x$(address_of ape_iat_end)" \
        '"x" $1 >= from && "x" $1 < to && $3 != "ape_iat" { print "import KERNEL32.dll", $3, $1 }'
}

told_by_map() { # FILE
    "$apetool" map --as pe "$1" |
        awk 'NR == 1 { print } NR == 2 { print "base", $1 } NR > 2 { print "section", $1, $5 }'
}

told_by_objdump() { # FILE
    objdump -fhpw "$1" | awk '
        $1 == "start" { print "entry", substr($3, 3) }
        $1 == "ImageBase" { print "base", $2 }
        /^\tDLL Name:/ { name = $3 }
        /^\t[0-9a-f]+\t/ && name != "" { print "import", name, $3 }
        $7 ~ /^2\*\*/ { print "section", $4, "r" (/READONLY/ ? "-" : "w") (/CODE/ ? "x" : "-") }'
}

told_by_readobj() { # FILE
    local key value base entry start='' rights name
    llvm-readobj --file-headers --sections --coff-imports "$1" | while read -r key value _; do
        case $key in
        AddressOfEntryPoint:) entry=$value ;;
        ImageBase:) base=$value && printf 'entry %016x\nbase %016x\n' $((base + entry)) "$base" ;;
        VirtualAddress:) start=$((base + value)) rights=--- ;;
        IMAGE_SCN_MEM_READ) rights=r${rights:1} ;;
        IMAGE_SCN_MEM_WRITE) rights=${rights:0:1}w${rights:2} ;;
        IMAGE_SCN_MEM_EXECUTE) rights=${rights:0:2}x ;;
        ']') [ -z "$start" ] || printf 'section %016x %s\n' "$start" "$rights" && start='' ;;
        Name:) name=$value ;;
        Symbol:) echo "import $name $value" ;;
        esac
    done
}

told_by_pefile() { # FILE
    "$python" "$root/scripts/windows.py" told "$1"
}

# Whether a tool tells of the file what the program tells. `map` tells no imports here.
tells() { # TOOL FILE
    "told_by_$1" "$2" | sort >"$work/told"
    case $1 in
    map) told_by_program | grep -v '^import' ;;
    *) told_by_program ;;
    esac | sort >"$work/wanted"
    [ "$(grep -c '^section' "$work/wanted")" -gt 1 ] && cmp "$work/told" "$work/wanted"
}

check_tools() { # WHAT FILE
    local tool
    for tool in "${tools[@]}"; do
        check "$1: $tool tells what the program does" tells "$tool" "$2"
    done
    [ -n "$python" ] || return
    check "$1: pefile finds the places of the imports where the program has them" finds_imports "$2"
    check "$1: pefile maps what map --as pe prints" maps_alike "$2"
}

finds_imports() { # FILE
    imports_of_program >"$work/wanted"
    [ -s "$work/wanted" ] && "$python" "$root/scripts/windows.py" imports "$1" | cmp - "$work/wanted"
}

check_imports() { # WHAT FILE..
    [ -n "$python" ] || return
    check "$1: map --as pe --imports prints the imports that pefile finds" imports_alike "${@:2}"
}

imports_alike() { # FILE..
    local other
    "$python" "$root/scripts/windows.py" imports "$@" >"$work/wanted"
    for other; do
        "$apetool" map --as pe --imports "$other" | grep '^import '
    done >"$work/told"
    [ -s "$work/wanted" ] && cmp "$work/told" "$work/wanted"
}

maps_alike() { # FILE..
    "$python" "$root/scripts/windows.py" memory "$apetool" "$@"
}

# Finds what tells of Windows files, and sets $python to the one that has pefile.
begin_tools() {
    if is_there objdump && objdump -i | grep -qx pei-x86-64; then
        tools+=(objdump)
    else
        skip 'objdump' "it is missing, or doesn't know PE"
    fi
    if is_there llvm-readobj; then tools+=(readobj); else skip 'llvm-readobj' 'it is missing'; fi
    for python in python3 /usr/bin/python3 ''; do
        [ -n "$python" ] || break
        ! "$python" -c 'import pefile' 2>"$work/said" || break
    done
    if [ -n "$python" ]; then tools+=(pefile); else skip 'pefile' 'there is no python3-pefile'; fi
}

# Sets up a Windows of wine's in a folder of its own, and $wine to the command that runs a program in it.
begin_wine() {
    wine=()
    { is_there wine && is_there wineserver; } || { skip 'wine' 'it is missing' && return; }
    mkdir "$work/home"
    export WINEPREFIX=$work/prefix WINEDEBUG=-all WINEDLLOVERRIDES='mscoree=;mshtml=;winemenubuilder.exe='
    # The server of wine writes into its folder a little longer than it tells.
    trap 'wineserver -k; sleep 1; rm -rf "$work"' EXIT
    wine=(env HOME="$work/home" timeout 300 wine)
    if "${wine[@]}" cmd /c 'echo begun' >"$work/told" 2>"$work/said" && grep -q '^begun' "$work/told"; then
        # What sets up the folder may still run. Then one server stays for all programs.
        timeout 60 wineserver -w
        wineserver -p
        echo "with: $(wine --version)"
    else
        skip 'wine' "it doesn't start: $(head -n 1 "$work/said" | head -c 100)"
        wine=()
    fi
}

check_wine() { # WHAT FILE
    [ ${#wine[@]} != 0 ] || return
    check "$1: wine runs it as Linux runs the program" is_same "$program" "${wine[@]}" "$2" "${words[@]}"
    check "$1: without arguments wine ends with 0" ends_in_wine "$2"
    [ ! -c /dev/full ] || check "$1: a write that fails ends it with 255" ends_full "$2"
}

ends_in_wine() { # FILE
    ends 0 "${wine[@]}" "$1" || {
        echo "    status $status, $(head -c 200 "$work/printed") $(head -c 200 "$work/errors")"
        return 1
    }
}

ends_full() { # FILE
    "${wine[@]}" "$1" one >/dev/full 2>&1
    [ $? = 255 ]
}

check_linked() { # WHAT FILE
    check_tools "$@"
    check_imports "$@"
    check_wine "$@"
    check "$1: each shell runs it as the program" same_in_shells "$program" "$2"
}

check_example() {
    check 'the example is linked' link_for linux,windows "$file" "$program"
    check_linked 'the example' "$file"
    check 'the choice of Windows changes nothing behind the block' same_behind_block
    check 'the example is linked for Windows alone' link_for windows "$work/alone" "$program"
    check_tools 'for Windows alone' "$work/alone"
    check_wine 'for Windows alone' "$work/alone"
    check 'for Windows alone: a shell ends it with 126' ends 126 sh "$work/alone" one
    if [ ${#wine[@]} != 0 ]; then
        cp "$file" "$work/linked.exe"
        check 'the cmd of wine starts it by its name, which ends in .exe' \
            is_same "$program" "${wine[@]}" cmd /c "Z:${work//\//\\}\\linked.exe" "${words[@]}"
    fi
    check_names
    check_both
}

same_behind_block() {
    link_for linux "$work/none" "$program" && cmp -i 16384 "$file" "$work/none" &&
        [ "$("$apetool" load "$file")" = "$("$apetool" load "$work/none")" ]
}

# The file begins as Windows wants it, which mksh takes for a format that it can't run.
check_names() {
    local shell command
    for shell in "${shells[@]}"; do
        read -ra command <<<"$shell"
        if [ "$shell" != mksh ]; then
            check "$shell starts the file by its name" is_same "$program" "${command[@]}" -c '"$0" "$@"' "$file" "${words[@]}"
        elif is_same "$program" mksh -c '"$0" "$@"' "$file" "${words[@]}"; then
            skip "mksh doesn't start the file by its name" 'here it does'
        else
            check "mksh doesn't start the file by its name: $(tail -c 35 "$work/errors")" [ ! -s "$work/printed" ]
            check 'mksh starts it as sh FILE' is_same "$program" mksh -c 'sh "$0" "$@"' "$file" "${words[@]}"
        fi
    done
}

# With a program for AArch64 in the same file, in either order.
check_both() {
    made 'with AArch64' 'aarch64-linux-gnu-as aarch64-linux-gnu-ld' "$examples/build.sh" hello aarch64 "$arm" || return
    check 'with AArch64: it is linked' link_for linux,windows "$work/both" "$program" "$arm"
    check_linked 'with AArch64' "$work/both"
    check_qemu 'with AArch64' "$work/both"
    check 'with AArch64 first: it is linked' link_for linux,windows "$work/both" "$arm" "$program"
    check_linked 'with AArch64 first' "$work/both"
    check 'for all systems: it is linked' link_for linux,freebsd,netbsd,windows,mac "$work/both" "$program" "$arm"
    check_linked 'for all systems' "$work/both"
    check 'for all systems: inspect tells what load and map print' reports "$work/both"
    check_qemu 'for all systems' "$work/both"
}

# The program for AArch64, by the script's own line for it.
check_qemu() { # WHAT FILE
    is_there "$qemu" || { skip "$1: qemu" "there is no $qemu" && return; }
    cp "$2" "$work/copy"
    t=$work/copy bash -c "$(grep -a "^printf '" "$2" | tail -n 1)"
    check "$1: qemu runs that program" same_as "$qemu" "$arm" -- "$qemu" "$work/copy" "${words[@]}"
}

# The example by other linkers, of which lld and mold put programs below 0x400000 by themselves.
check_linkers() {
    local linker base
    for linker in gold lld mold; do
        base=-Wl,--image-base=0x400000
        [ $linker != gold ] || base=
        made "$linker" "ld.$linker" "${example[@]}" -o "$work/other" -fuse-ld=$linker $base || continue
        check "$linker: it is linked" link_for linux,windows "$work/both" "$work/other"
        check "$linker: each shell runs it as the program" same_in_shells "$work/other" "$work/both"
        check_wine "$linker" "$work/both"
    done
    check_stack
    check_base
    check_refused
}

# The stack that Windows gives the program is the one asked for, or 8 MiB.
check_stack() {
    "${example[@]}" -o "$work/other" -Wl,-z,stack-size=0x240000
    check 'a stack size is asked for: it is linked' link_for linux,windows "$work/both" "$work/other"
    check_wine 'a stack size is asked for' "$work/both"
    [[ ${tools[*]} == *objdump* ]] || return 0
    check 'a stack size is asked for: objdump tells it' has_stack 240000 "$work/both"
    check 'no stack size is asked for: objdump tells 8 MiB' has_stack 800000 "$file"
}

has_stack() { # HEXADECIMAL FILE
    [ "$(objdump -p "$2" | awk '$1 == "SizeOfStackReserve" { print $2 }')" = "$(printf '%016x' $((0x$1)))" ]
}

# Where the program doesn't say where its image is, which it may where it imports nothing.
check_base() {
    [[ ${tools[*]} == *objdump* ]] && is_there objcopy || return 0
    "${example[@]}" -Wl,-Ttext-segment=0x411000 -o "$work/other"
    objcopy -N ape_image_base -N ape_idata -N ape_idata_end -N ape_iat -N ape_iat_end "$work/other"
    check 'no ape_image_base: it is linked' link_for windows "$work/none" "$work/other"
    check 'no ape_image_base: objdump tells 0x400000 for text at 0x411000' has_base 400000 "$work/none"
}

has_base() { # HEXADECIMAL FILE
    [ "$(objdump -p "$2" | awk '$1 == "ImageBase" { print $2 }')" = "$(printf '%016x' $((0x$1)))" ]
}

# What is refused of the example, made or changed by other words. Each is linked for Linux alone.
check_refused() {
    local base=$((0x$(address_of ape_image_base))) end=$((0x$(address_of ape_idata) + 20))
    check 'gcc -s: rule 25' is_refused 'rule 25 input 1 item 0 value 0' "${example[@]}" -s -o "$work/other"
    check 'text at 0x3f1000: rule 26' is_refused "rule 26 input 1 item 0 value $base" \
        "${example[@]}" -Wl,-Ttext-segment=0x3f1000 -o "$work/other"
    is_there objcopy || { skip 'rules 27 and 28' 'there is no objcopy' && return; }
    check 'no symbol ape_iat: rule 27' is_refused 'rule 27 input 1 item 0 value 3' \
        objcopy --strip-symbol=ape_iat "$program" "$work/other"
    check 'no last entry of zeros: rule 28' is_refused "rule 28 input 1 item 4 value $end" \
        objcopy --strip-symbol=ape_idata_end --add-symbol=ape_idata_end=.data:20,global "$program" "$work/other"
}

is_refused() { # LINE COMMAND.. (which makes $work/other)
    rm -f "$work/none" "$work/other"
    "${@:2}" && ! link_for linux,windows "$work/none" "$work/other" 2>"$work/said" &&
        [ "$(cat "$work/said")" = "apetool: $1" ] && [ ! -e "$work/none" ] &&
        link_for linux "$work/none" "$work/other"
}

# A program that has a C library on Linux, and none on Windows.
check_library() {
    made 'a C library' gcc gcc -O2 -static -pthread -fno-stack-protector -mno-red-zone -o "$work/library" \
        "$examples/threads.c" "$examples/windows.c" "$examples/imports.S" "$examples/start.S" -Wl,-e,ape_start || return
    check 'a C library on Linux: it is linked' link_for linux,windows "$work/both" "$work/library"
    check 'a C library on Linux: each shell runs it as the program' same_in_shells "$work/library" "$work/both"
    check_wine 'a C library on Linux' "$work/both"
}

# Files that others made: what mingw links, and the programs and libraries of wine's Windows.
check_others() {
    local mingw=x86_64-w64-mingw32-gcc others
    echo 'int main(void) { return 3; }' >"$work/three.c"
    if made 'a program of mingw' $mingw $mingw -O2 -o "$work/three.exe" "$work/three.c"; then
        check_other 'a program of mingw' "$work/three.exe"
    fi
    others=("$work"/prefix/drive_c/windows/system32/*.{dll,exe})
    if [ -f "${others[0]}" ]; then
        check_other "${#others[@]} programs and libraries of wine" "${others[@]}"
    else
        skip "wine's programs and libraries" 'there are none'
    fi
}

check_other() { # WHAT FILE..
    if [[ ${tools[*]} == *objdump* ]]; then check "$1: map --as pe tells the entry and the sections that objdump tells" tell_alike "${@:2}"; fi
    if [ -n "$python" ]; then check "$1: pefile maps what map --as pe prints" maps_alike "${@:2}"; fi
    check_imports "$@"
}

# Entry, and the address, the permissions and the place in the file of each section. objdump tells 0 as the entry of a library
# that has none.
tell_alike() { # FILE..
    local other
    for other; do
        "$apetool" map --as pe "$other" | awk '
            NR == 1 { entry = $2 }
            NR == 2 { print "entry", $1 == entry ? "0000000000000000" : entry }
            NR > 2 { print $1, $5, substr($4, 9) }' >"$work/told"
        objdump -fhw "$other" | awk '
            $1 == "start" { print "entry", substr($3, 3) }
            $7 ~ /^2\*\*/ { print $4, "r" (/READONLY/ ? "-" : "w") (/CODE/ ? "x" : "-"), $6 }' >"$work/wanted"
        if [ ! -s "$work/wanted" ] || ! cmp "$work/told" "$work/wanted"; then
            echo "    $other"
            return 1
        fi
    done
}

# What tools leave of a linked file that take it for one of Windows and write it anew.
check_strip() {
    local tool
    for tool in strip llvm-strip objcopy; do
        is_there $tool || { skip "$tool" 'it is missing' && continue; }
        cp "$file" "$work/stripped"
        $tool "$work/stripped" 2>"$work/said" || { skip "$tool" "$(head -n 1 "$work/said")" && continue; }
        check "$tool takes the linked file and cuts it" [ "$(stat -c %s "$work/stripped")" -lt "$(stat -c %s "$file")" ]
        check "$tool: sh starts nothing of what it leaves" starts_nothing "$work/stripped"
        check "$tool: an APE loader finds no program in it" finds_none "$work/stripped"
        [ ${#wine[@]} = 0 ] ||
            check "$tool: wine runs it still" is_same "$program" "${wine[@]}" "$work/stripped" "${words[@]}"
    done
}

# Its status may be any, as a shell may take all of it for a here-document.
starts_nothing() { # FILE
    run sh "$1" one
    [ ! -s "$work/printed" ] && [ ! -e "$work/tmp/$copy" ]
}

finds_none() { # FILE
    ! "$apetool" load "$1" >"$work/told" 2>"$work/said"
}

# `map --as pe` and cat of a linked file that a hole makes long, in turns, with the least times.
measure() {
    local turn
    cp "$file" "$work/long" && truncate -s "$loaded" "$work/long" || return 1
    for turn in 1 2 3 4 5; do
        time_of "$apetool" map --as pe "$work/long" >"$work/told" || return 1
        [ "$turn" != 1 ] && [ "$took" -ge "$mapping" ] || mapping=$took
        time_of cat "$work/long" >/dev/null || return 1
        [ "$turn" != 1 ] && [ "$took" -ge "$reading" ] || reading=$took
    done
}

check_speed() {
    [ -n "${EPOCHREALTIME-}" ] || { skip 'speed' 'the clock of bash 5 is missing' && return; }
    check '500 MB are mapped five times' measure || return
    check 'they are mapped as the short file is' cmp <("$apetool" map --as pe "$file") "$work/told"
    check "map --as pe $mapping us, cat $reading us, at most 2 times" [ $((100 * mapping / reading)) -le "$load_bound" ]
}

begin_running
tell_versions binutils llvm python3-pefile wine64 gcc gcc-mingw-w64-x86-64-win32 binutils-aarch64-linux-gnu
begin_tools
begin_wine
made 'the example' 'gcc readelf nm' "$examples/build.sh" windows x86-64 "$program" || finish
check_example
check_linkers
check_library
check_others
check_strip
check_speed
finish
