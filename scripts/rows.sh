#!/usr/bin/env bash
# Runs the rows of scripts/rows.txt, and shows those that fail. Usage: scripts/rows.sh [APETOOL]
# shellcheck source=scripts/lib.sh
. "$(dirname "$0")/lib.sh"

if ! is_there python3; then
    skip 'all' 'there is no python3'
    finish
fi
mkdir "$work/row"
python3 "$root/scripts/rows.py" "$apetool" "$root/scripts/rows.txt" "$work/row"
