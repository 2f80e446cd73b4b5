# What the scripts of tests share: how they count, and where their program and files are. It is sourced by bash, with the
# path of the built apetool as its argument, if there is one.
# shellcheck shell=bash

export LC_ALL=C
root=$(cd "$(dirname "${BASH_SOURCE[0]}")/.." && pwd)
name=$(basename "$0")
apetool=$(realpath -m "${1:-$root/crates/apetool/out/apetool}")
passed=0
failed=0
skipped=0

work=$(mktemp -d) || exit 2
trap 'rm -rf "$work"' EXIT

if [ ! -x "$apetool" ]; then
    echo "$name: there is no $apetool; scripts/build.sh builds it"
    echo '0 passed, 1 failed, 0 skipped'
    exit 1
fi

# Says whether a command ends with status 0, and counts it.
check() { # WHAT COMMAND..
    local what=$1
    shift
    if "$@"; then
        passed=$((passed + 1))
        echo "ok: $what"
    else
        failed=$((failed + 1))
        echo "FAILED: $what"
    fi
}

skip() { # WHAT WHY
    skipped=$((skipped + 1))
    echo "skipped: $1: $2"
}

# Ends the script: its last line has the counts, and its status isn't 0 where a check failed.
finish() {
    echo "$passed passed, $failed failed, $skipped skipped"
    exit $((failed > 0))
}

is_there() { # TOOL
    command -v "$1" >/dev/null 2>&1
}

link() { # OUT IN
    "$apetool" link --systems linux -o "$1" "$2"
}

# Whether the report on a file has its size, and the plans that load and map print of it.
reports() { # FILE
    local reading plan
    "$apetool" inspect "$1" >"$work/report" && [ "$(head -n 1 "$work/report")" = "size $(stat -c %s "$1")" ] || return 1
    for reading in 'ape-62 load' 'ape-183 load --machine aarch64' 'pe map --as pe'; do
        # shellcheck disable=SC2086 # they are words
        plan=$("$apetool" ${reading#* } "$1" 2>/dev/null)
        [ "$plan" = "$(awk -v name="${reading%% *}" '$1 == "owner" { exit } $1 == "reading" { on = $2 == name; next } on' \
            "$work/report")" ] || return 1
    done
}

# Sets $took to the microseconds that a command takes, and fails as it does. The clock is that of bash 5.
time_of() { # COMMAND..
    local begun=${EPOCHREALTIME/./}
    "$@" || return 1
    # shellcheck disable=SC2034 # the scripts that call it read it
    took=$((${EPOCHREALTIME/./} - begun))
}

# A number in so many bytes, the lowest first.
number() { # BYTES VALUE
    local i text='' value=$2
    for ((i = 0; i < $1; i++)); do
        text+=$(printf '\\x%02x' $((value & 255)))
        value=$((value >> 8))
    done
    printf '%b' "$text"
}

# The headers of a static x86-64 ELF program: 120 bytes, with one load of so many bytes, which stand behind them.
elf_headers() { # SIZE
    local address=$((0x400078))
    printf '\177ELF\002\001\001' && number 9 0
    number 2 2 && number 2 62 && number 4 1
    number 8 "$address" && number 8 64 && number 8 0 && number 4 0
    number 2 64 && number 2 56 && number 2 1 && number 6 0
    number 4 1 && number 4 5 && number 8 120
    number 8 "$address" && number 8 "$address"
    number 8 "$1" && number 8 "$1" && number 8 4096
}
