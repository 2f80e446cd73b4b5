#!/bin/sh
# Builds the examples into the folder OUT and links each by apetool into one file for Linux: for x86-64, and for AArch64
# too where the cross tools are there. The example windows is linked for Windows besides, with hello for AArch64, and the example
# shared for both machines alone, that for AArch64 first.
# Usage: examples/link.sh APETOOL OUT
set -eu

[ $# = 2 ] || {
    echo 'usage: examples/link.sh APETOOL OUT' >&2
    exit 2
}
apetool=$1
out=$2
here=$(dirname "$0")

mkdir -p "$out"
for example in hello threads; do
    "$here/build.sh" "$example" x86-64 "$out/$example.x64" || exit
    set -- "$out/$example.x64"
    if "$here/build.sh" "$example" aarch64 "$out/$example.a64"; then
        set -- "$@" "$out/$example.a64"
    else
        echo "examples/link.sh: $example is linked for x86-64 alone"
    fi
    "$apetool" link --systems linux -o "$out/$example" "$@"
    echo "$out/$example: $*"
done

"$here/build.sh" windows x86-64 "$out/windows.x64"
set -- "$out/windows.x64"
[ ! -f "$out/hello.a64" ] || set -- "$@" "$out/hello.a64"
"$apetool" link --systems linux,windows -o "$out/windows" "$@"
echo "$out/windows: $*"

if "$here/build.sh" shared aarch64 "$out/shared.a64"; then
    "$here/build.sh" shared x86-64 "$out/shared.x64"
    set -- "$out/shared.a64" "$out/shared.x64"
    "$apetool" link --systems linux -o "$out/shared" "$@"
    echo "$out/shared: $*"
fi
