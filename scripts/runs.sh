#!/usr/bin/env bash
# Shows what docs/RUNS.md says: which programs, compilers, shells, starters and kernels run a linked file, and which don't.
# Usage: scripts/runs.sh [APETOOL]
# shellcheck source=scripts/lib.sh
. "$(dirname "$0")/lib.sh"
# shellcheck source=scripts/running.sh
. "$root/scripts/running.sh"

examples=$root/examples
program=$work/program
file=$work/linked
stub=("$examples/start.S" '-Wl,-e,ape_start')
c=(-O2 -static -pthread -o "$program" "$examples/threads.c")

runs() { # COMMAND..
    is_same "$program" "$@" "${words[@]}"
}

dies() { # COMMAND..
    run "$@"
    [ "$status" = $((128 + 11)) ] # by SIGSEGV
}

# How a linked program ends. One without the stub may run or die by what its C library does, so where it is the other than
# docs/RUNS.md says, that is told and counts nothing.
check_end() { # runs|may-run|may-die WHAT COMMAND..
    case $1 in
    runs) check "$2: it runs" "${@:3}" runs ;;
    may-run) check_either runs dies "${@:2}" ;;
    may-die) check_either dies runs "${@:2}" ;;
    *) check "$2: it can be linked" [ -f "$file" ] ;;
    esac
}

check_either() { # WANTED OTHER WHAT COMMAND..
    if ! "${@:4}" "$1" && "${@:4}" "$2"; then
        skip "$3: it $1" "here it $2"
    else
        check "$3: it $1" "${@:4}" "$1"
    fi
}

in_shells() { # runs|dies
    case $1 in
    runs) same_in_shells "$program" "$file" ;;
    dies) dies sh "$file" ;;
    esac
}

with_another() { # runs|dies
    "$1" "$work/older" sh "$file"
}

# A program of a compiler: how it ends where the kernel tells no AT_PHDR, and where it tells another than the program's own.
language() { # NONE OTHER NAME TOOLS COMMAND..
    local here=unknown
    rm -f "$program" "$file"
    made "${@:3}" || return
    check "$3: it is linked" link "$file" "$program"
    case $told in
    none) here=$1 ;;
    other) here=$2 ;;
    own) here=runs ;;
    *) [ "$1" != "$2" ] || here=$1 ;;
    esac
    check_end "$here" "$3, in each shell" in_shells
    [ ! -x "$work/older" ] || check_end "$2" "$3, told another AT_PHDR" with_another
}

# The same of a program by the user mode of qemu, for AArch64 and for x86-64. The script is run by bash, which takes the exec
# of a file to be one by qemu, with a uname that answers for the machine.
language_by() { # ENDS QEMU MACHINE NAME TOOLS COMMAND..
    rm -f "$program" "$file"
    made "$4, by $2" "$2 bash $5" "${@:6}" || return
    check "$4: it is linked" link "$file" "$program"
    check_end "$1" "$4, by $2" by_qemu "$2" "$3"
}

by_qemu() { # QEMU MACHINE runs|dies
    case $3 in
    runs) same_as "$1" "$program" -- by "$1" "$2" "$file" "${words[@]}" ;;
    dies) dies by "$1" "$2" "$file" ;;
    esac
}

by() { # QEMU MACHINE FILE ARGUMENT..
    printf 'exec() { command exec %s "$@"; }\n' "$1" >"$work/by-qemu"
    fake "$work/$2" uname "[ \"\$1\" = -m ] && echo $2 || echo Linux"
    BASH_ENV=$work/by-qemu PATH=$work/$2:$PATH bash "${@:3}"
}

# What the user mode of qemu tells of the program headers.
tell_of() { # QEMU MACHINE TOOL
    made "what $1 tells" "$1 bash $3" "$3" -O -static -nostdlib -o "$program" "$root/scripts/probe.c" || return
    link "$file" "$program" && run by "$1" "$2" "$file"
    echo "with: what $1 tells of a linked program: $(cat "$work/printed")"
}

check_languages() {
    gcc -c -o "$work/start.o" "$examples/start.S" >"$work/said" 2>&1
    if ! { gcc -O2 -o "$work/older" "$root/scripts/older.c" && "$work/older" true; } >"$work/said" 2>&1; then
        rm -f "$work/older"
        skip 'another AT_PHDR' "there is no gcc, or ptrace isn't allowed: $(head -n 1 "$work/said")"
    fi
    told=$(told)
    echo "with: what the kernel tells as AT_PHDR of a linked program: ${told:-unknown}"
    local rust=(rustc -O -C target-feature=+crt-static -C relocation-model=static -o "$program" "$examples/threads.rs")
    local gcc=(gcc "${c[@]}" "${stub[@]}") flag

    language runs runs 'C, glibc, with the stub' gcc "${gcc[@]}"
    language may-run may-die 'C, glibc, without it' gcc gcc "${c[@]}"
    language runs runs 'C, musl, with the stub' musl-gcc musl-gcc "${c[@]}" "${stub[@]}"
    language may-die may-die 'C, musl, without it' musl-gcc musl-gcc "${c[@]}"
    language runs runs 'C, clang, with the stub' clang clang "${c[@]}" "${stub[@]}"
    language runs runs 'C++ with exceptions, with the stub' g++ \
        g++ -O2 -static -pthread -o "$program" "$examples/exceptions.cc" "${stub[@]}"
    language may-run may-die 'C++ with exceptions, without it' g++ g++ -O2 -static -pthread -o "$program" "$examples/exceptions.cc"
    language runs runs 'Rust, with the stub' 'rustc gcc' \
        "${rust[@]}" -C link-arg="$work/start.o" -C link-arg=-Wl,-e,ape_start
    language may-run may-die 'Rust, without it' 'rustc gcc' "${rust[@]}"
    language runs runs 'Fortran, with the stub' gfortran \
        gfortran -O2 -static -o "$program" "$examples/arguments.f90" "${stub[@]}"
    language runs runs 'Ada, with the stub' 'gnatmake gcc' make_ada "$work/start.o" -Wl,-e,ape_start
    language runs runs 'Go' go env GOFLAGS= CGO_ENABLED=0 go build -o "$program" "$examples/arguments.go"
    language runs runs 'Pascal' fpc fpc -FE"$work" -o"$program" "$examples/arguments.pas"
    language runs runs 'assembler without a library' 'as ld' "$examples/build.sh" hello x86-64 "$program"

    for flag in -fuse-ld=gold -fuse-ld=lld -fuse-ld=mold; do
        language runs runs "C, glibc, with the stub, $flag" "gcc ld.${flag#*=} ${flag#*=}" "${gcc[@]}" "$flag"
    done
    for flag in -s -g -flto -Wl,--gc-sections -Wl,-z,noseparate-code -Wl,-z,norelro -Wl,-z,execstack -Wl,-z,stack-size=0x200000 \
        -Wl,-z,max-page-size={0x1000,0x4000,0x10000,0x200000} -Wl,-Ttext-segment=0x10000; do
        language runs runs "C, glibc, with the stub, $flag" gcc "${gcc[@]}" "$flag"
    done
    for flag in -Wl,--no-rosegment -Wl,-z,separate-loadable-segments; do
        language runs runs "C, glibc, with the stub, -fuse-ld=lld $flag" 'gcc ld.lld' "${gcc[@]}" -fuse-ld=lld "$flag"
    done
}

make_ada() { # LINKER'S FLAG..
    mkdir -p "$work/ada"
    (cd "$work/ada" && gnatmake -O2 -o "$program" "$examples/arguments.adb" -bargs -static -largs -static "$@")
}

check_user_mode() {
    local a64=aarch64-linux-gnu-gcc flag
    local x64=("$(first_there qemu-x86_64-static qemu-x86_64)" x86_64) arm=("$qemu" aarch64)

    tell_of "${x64[@]}" gcc
    language_by runs "${x64[@]}" 'C, glibc, with the stub' gcc gcc "${c[@]}" "${stub[@]}"
    language_by may-die "${x64[@]}" 'C, glibc, without it' gcc gcc "${c[@]}"
    language_by runs "${x64[@]}" 'C, musl, with the stub' musl-gcc musl-gcc "${c[@]}" "${stub[@]}"

    tell_of "${arm[@]}" $a64
    language_by runs "${arm[@]}" 'AArch64: C, glibc, with the stub' $a64 $a64 "${c[@]}" "${stub[@]}"
    language_by may-run "${arm[@]}" 'AArch64: C, glibc, without it' $a64 $a64 "${c[@]}"
    for flag in 16384 65536; do
        language_by runs "${arm[@]}" "AArch64: C, glibc, with the stub, pages of $flag" $a64 \
            $a64 "${c[@]}" "${stub[@]}" -Wl,-z,max-page-size=$flag
    done
    language_by runs "${arm[@]}" 'AArch64: C, clang and lld, with the stub' "$a64 clang ld.lld" \
        clang --target=aarch64-linux-gnu -fuse-ld=lld "${c[@]}" "${stub[@]}"
    language_by runs "${arm[@]}" 'AArch64: C++ with exceptions, with the stub' aarch64-linux-gnu-g++ \
        aarch64-linux-gnu-g++ -O2 -static -pthread -o "$program" "$examples/exceptions.cc" "${stub[@]}"
    language_by runs "${arm[@]}" 'AArch64: Go' go \
        env GOFLAGS= CGO_ENABLED=0 GOARCH=arm64 go build -o "$program" "$examples/arguments.go"
    language_by runs "${arm[@]}" 'AArch64: assembler without a library' 'aarch64-linux-gnu-as aarch64-linux-gnu-ld' \
        "$examples/build.sh" hello aarch64 "$program"
}

# What the stub makes of what the kernel tells of the program headers.
check_stub() {
    is_there gcc || { skip 'the stub' 'there is no gcc' && return; }
    local probe=(gcc -O -static -nostdlib -o "$work/probe.elf" "$root/scripts/probe.c") other=
    if [ -x "$work/older" ]; then other=$(told "$work/older" sh); fi
    [ -z "$other" ] || check 'by ptrace another AT_PHDR is told' [ "$other" = other ]
    check 'unlinked, the example with the stub does as it does without it' same_with_stub
    rm -f "$work/probe"
    check 'the probe is made with the stub' "${probe[@]}" "${stub[@]}"
    check 'it is linked' link "$work/probe" "$work/probe.elf"
    check 'the stub tells the program its own' [ "$(told)" = own ]
    [ -z "$other" ] || check 'and does so where another AT_PHDR is told' [ "$(told "$work/older" sh)" = own ]
}

same_with_stub() {
    gcc "${c[@]}" && mv "$program" "$work/plain" && gcc "${c[@]}" "${stub[@]}" &&
        is_same "$work/plain" "$program" "${words[@]}"
}

# The examples as a user builds and links them, in one file for both machines.
check_examples() {
    made 'the examples' 'gcc as ld' "$examples/link.sh" "$apetool" "$work/examples" || return
    sed 's/^/    /' "$work/said"
    local example
    for example in hello threads; do
        check "the example $example: inspect tells of it what load and map print" reports "$work/examples/$example"
        check "the example $example: it runs in each shell as it does by itself" \
            same_in_shells "$work/examples/$example.x64" "$work/examples/$example"
        if [ -f "$work/examples/$example.a64" ] && is_there "$qemu"; then
            check "the example $example: the same file runs by $qemu" same_as "$qemu" "$work/examples/$example.a64" -- \
                by "$qemu" aarch64 "$work/examples/$example" "${words[@]}"
        else
            skip "the example $example on AArch64" "there are no cross tools, or no $qemu"
        fi
    done
}

# The commands of README.md's first page as they stand there, and what it says that they print.
check_readme() {
    is_there gcc || { skip 'the commands of README.md' 'there is no gcc' && return; }
    mkdir -p "$work/reader/crates/apetool/out"
    ln -s "$examples" "$work/reader/examples"
    ln -s "$root/scripts" "$work/reader/scripts"
    ln -s "$apetool" "$work/reader/crates/apetool/out/apetool"
    check 'the first command of README.md makes the file' makes "$(block README.md 2 | sed -n 1p)"
    check 'the second prints and ends as README.md says' prints_as_said
    if is_there aarch64-linux-gnu-gcc; then
        check 'the commands by hand of docs/RUNS.md make the file' makes "$(block docs/RUNS.md 1)"
        check 'it prints and ends likewise' prints_as_said
    else
        skip 'the commands by hand of docs/RUNS.md' 'there is no aarch64-linux-gnu-gcc'
    fi
    block README.md 8 >"$work/wanted"
    if [ "$("$apetool" inspect "$work/examples/threads" | head -n 1)" = "$(head -n 1 "$work/wanted")" ]; then
        check 'inspect prints what README.md shows' reports_as_said
    else
        skip 'what inspect prints' "the example has another size here than in README.md"
    fi
}

# A block of code of a page.
block() { # PAGE NUMBER
    awk -v number="$2" '/^```/ { count++; next } count == 2 * number - 1' "$root/$1"
}

# Whether the lines that README.md shows stand in the report in their order, with others between them at `..` alone.
reports_as_said() {
    "$apetool" inspect "$work/examples/threads" | awk '
        NR == FNR { wanted[++count] = $0; next }
        wanted[at + 1] == $0 { at++; next }
        wanted[at + 1] == ".." { if (wanted[at + 2] == $0) at += 2; next }
        { exit 1 }
        END { if (at != count) exit 1 }
    ' "$work/wanted" -
}

makes() { # COMMANDS
    (cd "$work/reader" && rm -f hello && APECC_APETOOL=$apetool sh -ec "$1" >/dev/null && [ -f hello ])
}

prints_as_said() {
    local status
    mkdir -p "$work/tmp"
    (cd "$work/reader" && unset GREETING && TMPDIR=$work/tmp sh -c "$(block README.md 2 | sed -n 2p)") >"$work/printed"
    status=$?
    block README.md 3 | cmp -s - "$work/printed" && [ "$status" = 2 ]
}

# A program by which the rest is tried: threads.c, or the assembler one.
begin_shells() {
    rm -f "$file"
    if is_there gcc && "$examples/build.sh" threads x86-64 "$program" 2>"$work/said"; then
        reads=yes
    else
        check 'the example is built' "$examples/build.sh" hello x86-64 "$program"
    fi
    check 'it is linked' link "$file" "$program"
    cp "$file" "$work/before"
}

check_shells() {
    local shell command
    for shell in "${shells[@]}"; do
        read -ra command <<<"$shell"
        check "$shell FILE" runs "${command[@]}" "$file"
        check "$shell starts the file by its name" runs "${command[@]}" -c '"$0" "$@"' "$file"
    done
    if is_there bash; then check 'bash --posix FILE' runs bash --posix "$file"; fi
    if is_there zsh; then check 'zsh --emulate sh FILE' runs zsh --emulate sh "$file"; fi
    for shell in ksh yash; do
        is_there $shell || { skip "$shell" 'it is missing' && continue; }
        if runs $shell "$file"; then
            skip "$shell doesn't run the file" 'here it does'
        else
            check "$shell doesn't run the file" refuses $shell "$file"
            check "$shell doesn't start it by its name" refuses $shell -c '"$0" "$@"' "$file"
        fi
        check "$shell starts it as sh FILE" runs $shell -c 'sh "$0" "$@"' "$file"
    done
    [ -n "${reads-}" ] || return
    check 'standard input may be a pipe' reads_pipe
}

refuses() { # COMMAND..
    run "$@" "${words[@]}"
    echo "    $1: status $status, $(head -n 1 "$work/errors" | head -c 160 | tr -d '\0')"
    [ "$status" != 0 ] && [ ! -s "$work/printed" ] && [ -s "$work/errors" ]
}

reads_pipe() {
    [ "$(printf 'one\ntwo' | TMPDIR=$work/tmp sh "$file" | tail -n 2)" = $'read one\nread two' ]
}

# What else starts the file by its name.
check_starters() {
    local starter command
    for starter in env nohup nice 'timeout 60' 'setsid -w' 'find -L /dev/null -exec' 'xargs -a /dev/null' make perl; do
        read -ra command <<<"$starter"
        is_there "${command[0]}" || { skip "$starter" 'it is missing' && continue; }
        check "${command[0]} starts the file" "starts_by_${command[0]}" "${command[@]}"
    done
    if is_there python3; then
        check 'a plain execve, by Python, says that the format is wrong' \
            ends 8 python3 -c 'import subprocess, sys
try: subprocess.run(sys.argv[1:])
except OSError as error: sys.exit(error.errno)' "$file" one
        check 'and sh FILE is started by it' runs python3 -c 'import os, sys; os.execvp("sh", ["sh"] + sys.argv[1:])' "$file"
    else
        skip 'a plain execve, by Python' 'there is no python3'
    fi
}

starts_by_env() { runs "$@" "$file"; }
starts_by_nohup() { runs sh -c 'nohup "$@" 2>/dev/null' sh "$file"; }
starts_by_nice() { runs "$@" "$file"; }
starts_by_timeout() { runs "$@" "$file"; }
starts_by_setsid() { runs "$@" "$file"; }
starts_by_perl() { runs perl -e 'exit(system(@ARGV) >> 8)' "$file"; }
# These have statuses of their own.
starts_by_find() { prints "$@" "$file" one 'two words' \;; }
starts_by_xargs() { prints "$@" "$file" one 'two words'; }
starts_by_make() {
    printf 'all:\n\t-@%s one "two words" </dev/null\n' "'$file'" >"$work/Makefile"
    prints make -s -f "$work/Makefile"
}

prints() { # COMMAND..
    run "$program" one 'two words' </dev/null
    grep -v '^read' "$work/printed" >"$work/wanted"
    run "$@"
    grep -v '^read' "$work/printed" | cmp -s - "$work/wanted" && [ -s "$work/wanted" ]
}

# printf and dd, of GNU and of busybox. Shells have a printf of their own as a rule: bash drops its own where it is told to.
check_tools() {
    local name
    printf 'enable -n printf\n' >"$work/no-printf"
    for name in GNU busybox; do
        tool_of $name printf || continue
        fake "$work/$name" printf ": >'$work/called'" "exec ${tool[*]} \"\$@\""
        check "printf of $name writes the header for bash" runs_by_printf $name bash
        if is_there mksh; then check "printf of $name writes it for mksh" runs_by_printf $name mksh; fi
    done
    for name in GNU busybox; do
        tool_of $name dd || continue
        check "dd of $name copies a part of a file over its front, and keeps the rest" copies_by "${tool[@]}"
    done
}

tool_of() { # NAME TOOL
    case $1 in
    GNU) tool=("$(type -P "$2")") && "${tool[@]}" --version 2>/dev/null | grep -q GNU ;;
    busybox) tool=("$(type -P busybox)" "$2") && is_there busybox ;;
    esac || { skip "$2 of $1" 'it is missing' && return 1; }
}

runs_by_printf() { # NAME SHELL
    rm -f "$work/called"
    runs env BASH_ENV="$work/no-printf" PATH="$work/$1:$PATH" "$2" "$file" && [ -f "$work/called" ]
}

copies_by() { # DD..
    head -c 20000 "$file" >"$work/part"
    { tail -c +8193 "$work/part" | head -c 1608 && tail -c +1609 "$work/part"; } >"$work/wanted"
    "$@" if="$work/part" of="$work/part" bs=8 skip=1024 count=201 conv=notrunc 2>/dev/null &&
        cmp -s "$work/part" "$work/wanted"
}

check_statuses() {
    local shell
    fake "$work/no-chmod" chmod 'exit 1'
    fake "$work/folder" chmod 'rm "$2" && mkdir "$2"'
    fake "$work/Darwin" uname '[ "$1" = -m ] && echo arm64 || echo Darwin'
    fake "$work/riscv64" uname '[ "$1" = -m ] && echo riscv64 || echo Linux'
    for shell in sh bash; do
        check "$shell: status 121 where TMPDIR is no folder" ends 121 env TMPDIR="$work/missing" $shell "$file"
        check "$shell: status 122 where the copy's mode can't be set" ends 122 env PATH="$work/no-chmod:$PATH" $shell "$file"
        check "$shell: status 124 where the header can't be written" ends 124 env PATH="$work/folder:$PATH" $shell "$file"
        check "$shell: status 126 on a system that wasn't chosen" ends 126 env PATH="$work/Darwin:$PATH" $shell "$file"
        check "$shell: status 126 on a machine without a program" ends 126 env PATH="$work/riscv64:$PATH" $shell "$file"
    done
    check 'status 121 where a limit of the size of files is met' ends 121 bash -c 'ulimit -f 8 && exec sh "$@"' sh "$file"
    check_missing_tools
    check_folders
    check_names
}

check_missing_tools() {
    local sh bash
    sh=$(type -P sh)
    bash=$(type -P bash)
    check 'status 126 where the command uname is not found' ends 126 env PATH=/nowhere "$sh" "$file"
    tools uname chmod
    check 'status 121 where the command cp is not found' ends 121 env PATH="$work/few" "$sh" "$file"
    tools uname cp
    check 'status 122 where the command chmod is not found' ends 122 env PATH="$work/few" "$sh" "$file"
    tools uname cp chmod
    check 'status 124 where no printf is found' ends 124 env PATH="$work/few" BASH_ENV="$work/no-printf" "$bash" "$file"
}

tools() { # TOOL..
    local tool
    rm -rf "$work/few" && mkdir "$work/few"
    for tool; do ln -s "$(type -P "$tool")" "$work/few"; done
}

# Folders that take no copy, or none that may be started.
check_folders() {
    if [ "$(id -u)" = 0 ] && is_there unshare && unshare -m mount -t tmpfs -o noexec none /mnt 2>"$work/said"; then
        check 'status 121 where TMPDIR is full' ends_on 121 size=16k
        check 'a part of the copy is left' [ "$(cat "$work/left")" -lt "$(stat -c %s "$file")" ]
        check 'status 126 of the shell where TMPDIR runs no programs' ends_on 126 noexec
        check 'and its line says so' grep -q 'Permission denied' "$work/errors"
        check 'the whole copy is left' [ "$(cat "$work/left")" = "$(stat -c %s "$file")" ]
    else
        skip 'a TMPDIR that is full, or runs no programs' 'it takes root, and a mount'
    fi
    if [ "$(id -u)" = 0 ] && is_there setpriv; then
        chmod 711 "$work"
        check "status 122 where the copy's name is another user's file" ends 122 bash -c \
            ': >"$TMPDIR/ape.$$" && chmod 666 "$TMPDIR/ape.$$" && exec setpriv --reuid=65534 --regid=65534 --clear-groups -- sh "$@"' sh "$file"
        chmod 700 "$work"
    else
        skip "a copy's name that is another user's file" 'it takes root'
    fi
}

# A start whose TMPDIR is a file system of its own. The size of what it leaves there is kept.
ends_on() { # STATUS OPTION
    ends "$1" unshare -m sh -c 'mount -t tmpfs -o "$0" none /mnt && {
        TMPDIR=/mnt sh "$1"
        ended=$?
        stat -c %s /mnt/ape.* >"$2"
        exit "$ended"
    }' "$2" "$file" "$work/left"
}

# Names that cp takes for options, and a file that comes through a pipe.
check_names() {
    mkdir "$work/dashes" "$work/dashes/-tmp"
    cp "$file" "$work/dashes/-file"
    check 'status 121 where TMPDIR begins with -' in_dashes ends 121 env TMPDIR=-tmp sh "$file"
    check 'status 121 where FILE begins with -' in_dashes ends 121 sh -- -file
    check 'it runs as ./-file' in_dashes runs sh ./-file
    check 'status 121 where FILE is piped into sh' in_dashes ends 121 sh -c 'cat "$0" | sh' "$file"
}

in_dashes() { # COMMAND..
    (cd "$work/dashes" && "$@")
}

check_copies() {
    run sh "$file" one
    check 'each start leaves one copy in TMPDIR' [ "$(find "$work/tmp" -type f | wc -l)" = 1 ]
    check 'it has the size of the whole file' [ "$(stat -c %s "$work/tmp"/ape.*)" = "$(stat -c %s "$file")" ]
    check 'it has the mode 0700' [ "$(stat -c %a "$work/tmp"/ape.*)" = 700 ]
    cp "$work/tmp"/ape.* "$work/copy"
    check 'the copy is the program for this machine, and starts by itself' runs "$work/copy"
    check 'a file that is there under its name is overwritten, and a link is followed' follows_link
    check_meetings
    check 'twelve at once have a copy each' run_twelve
    if [ -n "${reads-}" ]; then
        check 'the program has the process and the name of its copy, which may be removed' names_copy
        check 'messages of getopt begin with the name of the copy' getopt_names_copy
    fi
    if link "$work/box" "$(type -P busybox)" 2>"$work/said"; then
        check 'busybox finds no applet of the name of the copy' busybox_names_copy
    else
        skip 'busybox as a linked file' 'there is no static one'
    fi
    check 'TMPDIR may hold blanks and quotes' runs env TMPDIR="$work/t m'p" sh "$file"
    check 'the file may stand where nothing can be written' runs_read_only
    check 'no run changed the linked file' cmp -s "$file" "$work/before"
}

# What becomes of a copy whose name another start, or a program that runs, has too.
check_meetings() {
    check 'a program that runs under its name: status 121' meets_running
    check 'and the line of cp says why' grep -q 'Text file busy' "$work/errors"
    check 'a copy that is being written: status 126 of the shell' \
        ends 126 bash -c 'exec 3<>"$TMPDIR/ape.$$" && exec sh "$@"' sh "$file"
    check 'a copy over which the whole file was written: status 121' replaced 121 'cp "$linked" "$1"'
    check 'a copy that was removed: status 127 of the shell' replaced 127 'rm "$1"'
    check 'a copy over which another program was written: that one starts' replaced 5 'cp "$other" "$1"'
    if unshare -p -f true 2>"$work/said"; then
        check 'where processes are counted anew, as in a container, the first copy is ape.1' is_first
    else
        skip 'a copy of the process 1' 'it takes root and unshare'
    fi
}

is_first() {
    run unshare -p -f sh "$file" one
    [ "$status" = 1 ] && [ -s "$work/printed" ] && [ "$(ls "$work/tmp")" = ape.1 ]
}

meets_running() {
    local met
    ends 121 bash -c 'cp "$(type -P sleep)" "$TMPDIR/ape.$$"
        "$TMPDIR/ape.$$" 60 &
        echo "$!" >"$TMPDIR/running"
        for ((i = 0; i < 100; i++)); do
            [ "$(readlink "/proc/$!/exe")" != "$TMPDIR/ape.$$" ] || break
            sleep 0.1
        done
        exec sh "$@"' sh "$file"
    met=$?
    kill "$(cat "$work/tmp/running")"
    return "$met"
}

# How a start ends where something is done to its copy just before it becomes it. bash takes the script's exec to be a function.
replaced() { # STATUS COMMAND
    elf_headers 12 >"$work/other"
    printf '\x6a\x3c\x58\x6a\x05\x5f\x0f\x05\x90\x90\x90\x90' >>"$work/other" # exit(5)
    printf 'exec() { %s; command exec "$@"; }\n' "$2" >"$work/replace"
    ends "$1" env BASH_ENV="$work/replace" linked="$file" other="$work/other" bash "$file"
}

follows_link() {
    : >"$work/victim"
    run sh -c 'ln -s "$0" "$TMPDIR/ape.$$" && exec sh "$@"' "$work/victim" "$file" one
    [ "$(stat -c %s "$work/victim")" = "$(stat -c %s "$file")" ]
}

run_twelve() {
    local i jobs=()
    rm -rf "$work/tmp" && mkdir "$work/tmp"
    for i in {1..12}; do
        TMPDIR=$work/tmp sh "$file" "$i" </dev/null >"$work/printed.$i" &
        jobs+=($!)
    done
    for i in {1..12}; do
        wait "${jobs[i - 1]}"
        [ $? = 1 ] && grep -q "<$i>\|^$i\$" "$work/printed.$i" || return 1
    done
    [ "$(find "$work/tmp" -type f | wc -l)" = 12 ]
}

# Starts the file so that its program waits for a line. The process that was sh is the program then, by the number $held.
hold() {
    local i
    rm -rf "$work/tmp" "$work/held" && mkdir "$work/tmp" && mkfifo "$work/held"
    TMPDIR=$work/tmp sh "$file" one <"$work/held" >"$work/printed" &
    held=$!
    exec 3>"$work/held"
    for ((i = 0; i < 100; i++)); do
        [ "$(readlink "/proc/$held/exe")" != "$work/tmp/ape.$held" ] || return 0
        sleep 0.1
    done
    return 1
}

# Lets it end, and says whether it did so as it should.
release() {
    exec 3>&-
    wait "$held"
    [ $? = 1 ]
}

names_copy() {
    local name
    hold
    name=$(tr '\0' '\n' <"/proc/$held/cmdline" | head -n 1)
    rm -f "$work/tmp"/ape.*
    release && [ "$name" = "$work/tmp/ape.$held" ]
}

# A program of getopt, which prints a name in front of its messages.
getopt_names_copy() {
    printf '#include <unistd.h>\nint main(int n, char **words) { return getopt(n, words, "a") == 63; }\n' >"$work/options.c"
    gcc -static -o "$work/options.elf" "$work/options.c" "${stub[@]}" && link "$work/options" "$work/options.elf" || return
    ends 1 sh "$work/options" -b
    [ "$(cat "$work/errors")" = "$work/tmp/$copy: invalid option -- 'b'" ]
}

# busybox, which chooses what it is by its name.
busybox_names_copy() {
    ends 127 sh "$work/box" echo one
    [ "$(cat "$work/errors")" = "$copy: applet not found" ]
}

runs_read_only() {
    mkdir -p "$work/closed" && cp "$file" "$work/closed/linked" && chmod 555 "$work/closed"
    runs sh "$work/closed/linked"
    local ran=$?
    chmod 755 "$work/closed"
    return "$ran"
}

# What strace and gdb make of the file and of the program that it holds.
check_debuggers() {
    [ -n "${reads-}" ] || { skip 'strace and gdb' 'the example is the one without a library' && return; }
    if is_there strace && strace -o "$work/trace" true 2>"$work/said"; then
        check 'strace runs the ELF program' runs strace -o "$work/trace" "$program"
        check 'strace does not start the file' refused_by 'Exec format error' strace -o "$work/trace" "$file"
        check 'strace -f sh FILE runs it' runs strace -f -o "$work/trace" sh "$file"
        check 'and shows that it becomes the copy' grep -q "execve(\"$work/tmp/ape\.[0-9]*\"" "$work/trace"
    else
        skip 'strace' 'it is missing, or may not trace here'
    fi
    if is_there gdb && gdb -q -batch -ex run "$(type -P true)" 2>&1 | grep -q 'exited normally'; then
        check 'gdb stops in the ELF program, and runs it' stops_in_main
        check 'gdb does not take the file' refused_by 'file format not recognized' gdb -q -batch -ex run "$file"
        check 'gdb with the ELF program and the process number of the started file shows where it is' shows_held
    else
        skip 'gdb' 'it is missing, or may not trace here'
    fi
}

refused_by() { # TEXT COMMAND..
    run "${@:2}"
    [ "$status" != 0 ] && [ ! -s "$work/printed" ] && grep -q "$1" "$work/errors"
}

stops_in_main() {
    run gdb -q -batch -ex 'break main' -ex run -ex continue --args "$program" one
    grep -q '^Breakpoint 1, .* in main ()' "$work/printed" && grep -q '^100 <one>$' "$work/printed"
}

shows_held() {
    hold
    gdb -q -batch -ex bt "$program" "$held" </dev/null >"$work/shown" 2>&1
    release && grep -q '^#[0-9]* .* in main ()' "$work/shown"
}

# What the linked file is to other tools, and to the choice of systems.
check_files() {
    local all=linux,freebsd,netbsd
    check 'it is linked for three systems' "$apetool" link --systems $all -o "$work/three" "$program"
    check 'it runs as well' runs sh "$work/three"
    check 'the systems change the script alone' same_behind_block "$work/three" "$file"
    is_there strip || { skip 'strip' 'it is missing' && return; }
    check 'strip refuses the linked file' strip_refuses "$work/three"
    check 'a stripped program makes no smaller file' stripped_has_size
}

same_behind_block() { # FILE FILE
    cmp -s -i 16384 "$1" "$2" && [ "$("$apetool" load "$1")" = "$("$apetool" load "$2")" ]
}

strip_refuses() { # FILE
    cp "$1" "$work/copy"
    ! strip "$1" 2>"$work/errors" && cmp -s "$1" "$work/copy"
}

stripped_has_size() {
    strip -o "$work/stripped" "$program" && link "$work/copy" "$work/stripped" &&
        [ "$(stat -c %s "$work/copy")" = "$(stat -c %s "$file")" ]
}

begin_running
mkdir -p "$work/t m'p"
tell_versions libc6-dev musl-dev gcc g++ gfortran gnat fpc clang lld mold binutils golang-go \
    gcc-aarch64-linux-gnu libc6-dev-arm64-cross qemu-user-static
if is_there rustc; then echo "with: $(rustc --version)"; fi
tell_versions dash bash zsh mksh busybox busybox-static ksh93u+m yash coreutils findutils make perl python3 strace gdb
check_languages
check_user_mode
check_stub
check_examples
check_readme
begin_shells
check_shells
check_starters
check_tools
check_statuses
check_copies
check_debuggers
check_files
finish
