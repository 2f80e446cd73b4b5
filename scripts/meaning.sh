#!/usr/bin/env bash
# Compares what `apetool script` tells of some four hundred scripts with what shells do. Usage: scripts/meaning.sh [APETOOL]
# shellcheck source=scripts/lib.sh
. "$(dirname "$0")/lib.sh"
# shellcheck source=scripts/running.sh
. "$root/scripts/running.sh"

begin_running
for tool in python3 gcc; do
    is_there "$tool" || { skip 'all' "there is no $tool" && finish; }
done
if ! gcc -O -shared -fPIC -o "$work/execs.so" "$root/scripts/execs.c" >"$work/said" 2>&1; then
    skip 'all' "gcc makes no library: $(head -n 1 "$work/said" | head -c 100)"
    finish
fi
mkdir "$work/meaning"
python3 "$root/scripts/meaning.py" "$apetool" "$work/execs.so" "$root/scripts/rows.txt" "$work/meaning" "${shells[@]}" |
    tee "$work/told" | grep -v '^[0-9]* passed'
if [[ $(tail -n 1 "$work/told") =~ ^([0-9]+)' passed, '([0-9]+)' failed' ]]; then
    passed=$((passed + BASH_REMATCH[1]))
    failed=$((failed + BASH_REMATCH[2]))
else
    check 'the comparison comes to its end' false
fi
finish
