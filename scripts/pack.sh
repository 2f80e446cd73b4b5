#!/bin/sh
# Makes one archive, apetool-VERSION.tar.gz in the folder OUT, of what scripts/install.sh installs. Unpacked anywhere, its bin/apetool
# runs on x86-64 Linux whatever the C library is. Usage: scripts/pack.sh OUT
set -eu

if [ $# != 1 ] || [ -z "$1" ]; then
    echo 'usage: scripts/pack.sh OUT' >&2
    exit 2
fi
here=$(dirname "$0")
version=$(git -C "$here" describe --tags --always --dirty 2>/dev/null || echo unknown)
work=$(mktemp -d)
trap 'rm -rf "$work"' EXIT
"$here/install.sh" "$work/apetool-$version" >/dev/null
mkdir -p "$1"
tar -czf "$1/apetool-$version.tar.gz" -C "$work" "apetool-$version"
echo "$1/apetool-$version.tar.gz"
