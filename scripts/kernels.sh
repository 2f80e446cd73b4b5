#!/usr/bin/env bash
# Starts a Linux kernel of its own in qemu, and in it linked programs by busybox sh, each beside the program itself. So it
# shows kernels that aren't the machine's. A kernel is an image (vmlinuz) for x86-64 or AArch64, as in Debian's packages
# linux-image-*, and BUSYBOX is a static busybox for the same machine, as in busybox-static.
# Usage: scripts/kernels.sh APETOOL [KERNEL BUSYBOX]..
# shellcheck source=scripts/lib.sh
. "$(dirname "$0")/lib.sh"
# shellcheck source=scripts/running.sh
. "$root/scripts/running.sh"

examples=$root/examples
stub=("$examples/start.S" '-Wl,-e,ape_start')

# The machine of a kernel's image, by its boot header.
machine_of() { # IMAGE
    if [ "$(tail -c +515 "$1" | head -c 4)" = HdrS ]; then
        echo x86-64
    elif [ "$(tail -c +57 "$1" | head -c 3)" = ARM ]; then
        echo aarch64
    else
        echo none
    fi
}

# Makes a program of the machine and links it.
add() { # NAME TOOLS COMMAND..
    rm -f "$work/program"
    made "$@" || return
    link "$tree/t/$1.ape" "$work/program" && mv "$work/program" "$tree/t/$1.elf"
}

add_programs() { # MACHINE
    local prefix='' go=amd64 program=$work/program
    if [ "$1" = aarch64 ]; then prefix=aarch64-linux-gnu- go=arm64; fi
    local c=("${prefix}gcc" -O2 -static -pthread -o "$program" "$examples/threads.c")
    local cc=("${prefix}g++" -O2 -static -pthread -o "$program" "$examples/exceptions.cc")
    local rust=(rustc -O -C target-feature=+crt-static -C relocation-model=static -o "$program" "$examples/threads.rs")
    local probe=("${prefix}gcc" -O -static -nostdlib -o "$program" "$root/scripts/probe.c")
    add 'assembler' "${prefix}as ${prefix}ld" "$examples/build.sh" hello "$1" "$program"
    add 'Go' go env GOFLAGS= CGO_ENABLED=0 GOARCH=$go go build -o "$program" "$examples/arguments.go"
    add 'C with the stub' "${prefix}gcc" "${c[@]}" "${stub[@]}"
    add 'C without it' "${prefix}gcc" "${c[@]}"
    add 'C++ with the stub' "${prefix}g++" "${cc[@]}" "${stub[@]}"
    add 'C++ without it' "${prefix}g++" "${cc[@]}"
    add 'probe' "${prefix}gcc" "${probe[@]}"
    add 'probe with the stub' "${prefix}gcc" "${probe[@]}" "${stub[@]}"
    add_both "$1"
    if [ "$1" = aarch64 ]; then
        add 'C in pages of 16384' "${prefix}gcc" "${c[@]}" "${stub[@]}" -Wl,-z,max-page-size=16384
        return
    fi
    gcc -c -o "$work/start.o" "$examples/start.S" >"$work/said" 2>&1
    add 'musl with the stub' musl-gcc musl-gcc "${c[@]:1}" "${stub[@]}"
    add 'musl without it' musl-gcc musl-gcc "${c[@]:1}"
    add 'Rust with the stub' 'rustc gcc' "${rust[@]}" -C link-arg="$work/start.o" -C link-arg=-Wl,-e,ape_start
    add 'Rust without it' 'rustc gcc' "${rust[@]}"
    add 'Pascal' fpc fpc -FE"$work" -o"$program" "$examples/arguments.pas"
}

# The example threads, for both machines in one file.
add_both() { # MACHINE
    made 'both machines' 'gcc aarch64-linux-gnu-gcc' "$examples/link.sh" "$apetool" "$work/examples" || return
    cp "$work/examples/threads" "$tree/t/both machines.ape"
    case $1 in
    x86-64) cp "$work/examples/threads.x64" "$tree/t/both machines.elf" ;;
    aarch64) cp "$work/examples/threads.a64" "$tree/t/both machines.elf" ;;
    esac
}

# What the kernel runs first: each program by itself and linked, with the same words and input, and a line of it.
write_init() {
    cat >"$tree/init" <<'END'
#!/bin/busybox sh
/bin/busybox --install -s /bin
export PATH=/bin GREETING='good day'
mount -t devtmpfs none /dev
exec >/dev/console 2>&1
mount -t proc none /proc
echo "@version $(uname -v)"
echo "@kernel $(uname -srm), pages of $(sed -n 's/^KernelPageSize: *//p' /proc/self/smaps | head -n 1)"
printf 'first\nlast\n' >/lines
cd /t
for file in *.elf; do
    name=${file%.elf}
    set -- '' one 'two words' "it's" '"double"' '$HOME `id`' '*' -n --
    "./$file" "$@" </lines >/wanted 2>/errors
    wanted=$?
    sh "./$name.ape" "$@" </lines >/printed 2>/errors
    status=$?
    rm -f /tmp/ape.*
    case $name in probe*) echo "@$name: $(cat /printed)" ;; esac
    if [ $status = $wanted ] && cmp -s /printed /wanted; then
        echo "@$name: runs"
    else
        echo "@$name: status $status, and the program itself $wanted"
    fi
done
echo @end
poweroff -f
END
    chmod 755 "$tree/init"
}

# Starts a kernel, and keeps what it prints.
boot() { # MACHINE IMAGE
    local qemu
    case $1 in
    x86-64) qemu=(qemu-system-x86_64 -accel tcg -append 'console=ttyS0 quiet panic=-1') ;;
    aarch64) qemu=(qemu-system-aarch64 -M virt -cpu max -append 'console=ttyAMA0 quiet panic=-1') ;;
    esac
    (cd "$tree" && find . | busybox cpio -o -H newc 2>/dev/null | gzip -1) >"$work/initrd"
    timeout 120 "${qemu[@]}" -m 1024 -nographic -no-reboot -kernel "$2" -initrd "$work/initrd" </dev/null 2>&1 |
        tr -d '\r' | sed -n 's/^.*@//p' >"$work/booted"
    sed 's/^/    /' "$work/booted"
    [ "$(tail -n 1 "$work/booted")" = end ]
}

says() { # LINE
    grep -q "^$1" "$work/booted"
}

# What is claimed of a program, by what the kernel tells of the program header table: that it runs, or dies by SIGSEGV.
expect() { # NAME NONE OTHER
    [ -f "$tree/t/$1.elf" ] || return
    local wanted
    case $told in
    none) wanted=$2 ;;
    other) wanted=$3 ;;
    *) wanted=runs ;;
    esac
    case $wanted in
    runs) check "$kernel: $1 runs" says "$1: runs\$" ;;
    dies) check "$kernel: $1 dies" says "$1: status 139, and" ;;
    esac
}

try_kernel() { # IMAGE BUSYBOX
    local machine tree=$work/tree kernel told name
    machine=$(machine_of "$1")
    case $machine in
    x86-64) name='qemu-system-x86_64' ;;
    aarch64) name='qemu-system-aarch64' ;;
    *) check "$1 is a kernel for x86-64 or AArch64" false && return ;;
    esac
    is_there "$name" || { skip "$1" "there is no $name" && return; }
    rm -rf "$tree" && mkdir -p "$tree"/{bin,dev,proc,tmp,t}
    cp "$2" "$tree/bin/busybox"
    add_programs "$machine"
    write_init
    check "$(basename "$1"): it starts, and tries all" boot "$machine" "$1"
    kernel=$(sed -n 's/^kernel //p' "$work/booted")
    told=$(sed -n 's/^probe: AT_PHDR 0x[0-9a-f]* \([a-z]*\), .*/\1/p' "$work/booted")
    check "$kernel: the probe says what is told: ${told:-nothing}" [ -n "$told" ]
    check "$kernel: with the stub it is the program's own" says 'probe with the stub: AT_PHDR 0x[0-9a-f]* own,'

    expect 'assembler' runs runs
    expect 'both machines' runs runs
    expect 'Go' runs runs
    expect 'Pascal' runs runs
    expect 'C with the stub' runs runs
    expect 'C without it' runs dies
    expect 'C in pages of 16384' runs runs
    expect 'C++ with the stub' runs runs
    expect 'C++ without it' runs dies
    expect 'Rust with the stub' runs runs
    expect 'Rust without it' runs dies
    expect 'musl with the stub' runs runs
    expect 'musl without it' dies dies
}

begin_running
is_there busybox || { skip 'all' 'busybox makes the archive that a kernel starts from' && finish; }
[ $# -gt 2 ] || skip 'kernels' 'none is given, as words behind the first'
for ((at = 2; at < $#; at += 2)); do
    try_kernel "$(realpath "${!at}")" "$(realpath "${@:at+1:1}")"
done
finish
