#!/bin/sh
# apetool before its proof: `rt try` builds it, with its checks at run time, runs it with these words and leaves no program. Names of
# files in the words are whole, from / on. Usage: scripts/try.sh WORD ..
said=$(mktemp) || exit 2
trap 'rm -f "$said"' EXIT
cd "$(dirname "$0")/../crates/apetool" || exit 2
rt try -- "$@" 2>"$said"
ended=$?
if [ "$ended" != 0 ]; then grep '^apetool: ' "$said" >&2 || cat "$said" >&2; fi
exit "$ended"
