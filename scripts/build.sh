#!/bin/sh
# Proves and builds the program, crates/apetool/out/apetool with its object apetool.o. From nothing this takes 15 to 20 minutes, and
# a second once it stands. Usage: scripts/build.sh
set -eu

cd "$(dirname "$0")/../crates/apetool"
command -v rt >/dev/null || {
    echo 'scripts/build.sh: there is no rt in PATH; it is the command of the Rattle kit' >&2
    exit 2
}
# `rt run` runs what it built, so that there is something to do: a script that ends.
text=$(mktemp)
trap 'rm -f "$text"' EXIT
echo 'exit 0' >"$text"
rt run -- script --system Linux --machine x86_64 "$text" || {
    echo 'scripts/build.sh: the program was not built' >&2
    exit 1
}
