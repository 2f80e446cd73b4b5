#!/usr/bin/env bash
# Checks docs/apetool.1: mandoc warns of nothing, and its synopsis has, command by command, the options of the program's definition of
# words, crates/ap_words/specs/Tables.antt.
# Usage: scripts/manual.sh
# shellcheck disable=SC2034 # finish and check are those of lib.sh, which wants a program
export LC_ALL=C
root=$(cd "$(dirname "$0")/.." && pwd)
# shellcheck source=scripts/lib.sh
. "$root/scripts/lib.sh" /bin/sh
page=$root/docs/apetool.1
tables=$root/crates/ap_words/specs/Tables.antt

lints() {
    [ -z "$(mandoc -T lint -W warning "$page")" ]
}

if is_there mandoc; then
    check 'mandoc warns of nothing' lints
else
    skip 'mandoc warns of nothing' 'there is no mandoc'
fi

# The options of a command in the synopsis, sorted.
told() { # COMMAND
    awk -v command="$1" '
        /^\.Sh/ { inside = $2 == "SYNOPSIS" }
        !inside { next }
        $1 == ".Nm" { this = "" }
        $1 == ".Cm" { this = $2 }
        this == command { for (i = 1; i < NF; i++) if ($i == ".Fl" || $i == "Fl") print "-" $(i + 1) }
    ' "$page" | sort
}

# The options of a command in the definition, sorted.
defined() { # COMMAND
    awk -v command="$1" '
        $1 == "rules_of" && $2 != ":" { inside = tolower($2) == command }
        $1 != "rules_of" && !/^ / { inside = 0 }
        inside {
            if (/out_rule/) print "-o"
            rest = $0
            while (match(rest, /(option|needed|flag)_rule \(codes "[^"]*"/)) {
                word = substr(rest, RSTART, RLENGTH)
                rest = substr(rest, RSTART + RLENGTH)
                sub(/.*codes "/, "", word)
                sub(/"$/, "", word)
                print "--" word
            }
        }
    ' "$tables" | sort
}

is_same() { # COMMAND
    if [ "$(told "$1")" != "$(defined "$1")" ]; then
        diff <(told "$1") <(defined "$1")
        return 1
    fi
}

commands=$(awk '/^\.Sh/ { inside = $2 == "SYNOPSIS" } inside && $1 == ".Cm" { print $2 }' "$page")
for command in $commands; do
    check "$command: its options are those of the definition" is_same "$command"
done
finish
