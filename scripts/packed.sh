#!/usr/bin/env bash
# Packs the program, unpacks it, and shows that the packed one gives the same bytes and lines as the built one over the rows of
# scripts/rows.txt, links itself to the same bytes again, and runs in each shell. Usage: scripts/packed.sh [APETOOL]
# shellcheck source=scripts/lib.sh
. "$(dirname "$0")/lib.sh"

for tool in gcc rt python3 tar; do
    if ! is_there "$tool"; then
        skip 'all' "there is no $tool"
        finish
    fi
done
if [ ! -f "${apetool%/*}/apetool.o" ]; then
    # rt ci gives a program that an earlier run built without its object.
    skip 'all' 'there is no apetool.o beside the program; scripts/build.sh makes it'
    finish
fi
export TMPDIR=$work/tmp
mkdir "$TMPDIR" "$work/out" "$work/row"
check 'an archive is made' "$root/scripts/pack.sh" "$work/out"
check 'it is unpacked' tar -xzf "$work"/out/apetool-*.tar.gz -C "$work"
packed=$(echo "$work"/apetool-*/bin/apetool)
check 'apetool, apecc, the manual page, the stub and the version are in it' \
    ls "${packed%/*}/apecc" "${packed%/*/*}"/share/{man/man1/apetool.1,apetool/examples/start.S,apetool/version}

# A row's program is started by Python, which starts no file without a format.
printf '#!/bin/sh\nexec sh "%s" "$@"\n' "$packed" >"$work/apetool"
chmod +x "$work/apetool"
same_over_rows() {
    python3 "$root/scripts/rows.py" "$work/apetool" "$root/scripts/rows.txt" "$work/row" >"$work/rows"
    tail -n 1 "$work/rows" | grep -q '^[1-9][0-9]* passed, 0 failed' || {
        tail -n 20 "$work/rows"
        return 1
    }
}
check 'over the rows it gives the bytes and lines that are wanted of the built one' same_over_rows
rm -f "$TMPDIR"/ape.*

rm -rf "$work/elf"
check 'its ELF program is installed' "$root/scripts/install.sh" --elf "$work/elf"
check 'the built program links it to the packed file' "$apetool" link --systems linux -o "$work/first" "$work/elf/bin/apetool"
check 'these are the same bytes' cmp "$work/first" "$packed"
for shell in dash bash zsh mksh 'busybox sh'; do
    if is_there "${shell%% *}"; then
        # shellcheck disable=SC2086 # the shell may be two words
        check "$shell: it links itself" $shell "$packed" link --systems linux -o "$work/again" "$work/elf/bin/apetool"
        check "$shell: to the same bytes" cmp "$work/again" "$packed"
    else
        skip "$shell" 'it is not there'
    fi
done
check 'the packed apecc makes a program' "${packed%/*}/apecc" -o "$work/hello" "$root/examples/threads.c"
check 'its folder is removed' test -z "$(find "$TMPDIR" -name 'apecc*')"
finish
