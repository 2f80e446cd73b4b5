#!/bin/sh
# Installs under a folder PREFIX: bin/apetool, the file that apetool makes of itself, bin/apecc, the manual page, and in share/apetool
# the start stub, the examples, the documents and the version. crates/apetool/out/apetool.o has to be there; scripts/build.sh
# makes it. With --elf bin/apetool is the static ELF program instead, which leaves no copies in TMPDIR.
# Usage: scripts/install.sh [--elf] PREFIX
set -eu

elf=''
if [ "${1-}" = --elf ]; then
    elf=yes
    shift
fi
if [ $# != 1 ] || [ -z "$1" ]; then
    echo 'usage: scripts/install.sh [--elf] PREFIX' >&2
    exit 2
fi
stop() { # WHY
    echo "scripts/install.sh: $1" >&2
    exit 2
}

prefix=$1
here=$(dirname "$0")
root=$here/..
made=$root/crates/apetool/out
if [ ! -f "$made/apetool.o" ] || [ ! -x "$made/apetool" ]; then stop 'there is no built program; scripts/build.sh makes it'; fi
command -v gcc >/dev/null || stop 'there is no gcc'
rt=$(command -v rt) || stop 'there is no rt; it is the command of the Rattle kit, whose two C libraries are linked in'
kit=$(dirname "$(dirname "$(readlink -f "$rt")")")
for library in libos_c.a liblibc_c.a; do
    [ -f "$kit/c/$library" ] || stop "there is no $kit/c/$library"
done

work=$(mktemp -d)
trap 'rm -rf "$work"' EXIT
gcc -static -no-pie -s -o "$work/apetool.x64" "$made/apetool.o" "$kit/c/libos_c.a" "$kit/c/liblibc_c.a" \
    "$root/examples/start.S" -Wl,-e,ape_start
"$made/apetool" link --systems linux -o "$work/apetool" "$work/apetool.x64"
if [ -n "$elf" ]; then cp "$work/apetool.x64" "$work/apetool"; fi

mkdir -p "$prefix/bin" "$prefix/share/man/man1" "$prefix/share/apetool/examples" "$prefix/share/apetool/docs"
cp "$work/apetool" "$here/apecc" "$prefix/bin/"
chmod 755 "$prefix/bin/apetool" "$prefix/bin/apecc"
cp "$root/docs/apetool.1" "$prefix/share/man/man1/"
cp "$root"/examples/* "$prefix/share/apetool/examples/"
cp "$root/README.md" "$prefix/share/apetool/"
cp "$root"/docs/*.md "$prefix/share/apetool/docs/"
(git -C "$root" describe --tags --always --dirty 2>/dev/null || echo unknown) >"$prefix/share/apetool/version"
echo "apetool $(cat "$prefix/share/apetool/version") is installed in $prefix"
