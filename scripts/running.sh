# What the scripts share that run linked programs on x86-64 Linux. It is sourced by bash, behind lib.sh.
# shellcheck shell=bash disable=SC2154

words=('' one 'two words' "it's" '"double"' '$HOME `id`' $'two\nlines' '*' -n --)
shells=() # those that start a linked file, as far as they are here

tmp=$work/tmp # what a run has as TMPDIR, or 'none' where it has none

# Runs a command with lines to read and a variable of its own, and keeps what it prints and its status. The copies that the
# script of a linked file leaves in $work/tmp stay until the next run. The command has the process number by which a shell
# names its copy.
run() { # COMMAND..
    rm -rf "$work/tmp" && mkdir "$work/tmp"
    {
        (
            if [ "$tmp" = none ]; then unset TMPDIR; else export TMPDIR=$tmp; fi
            export GREETING='good day'
            [ "$(type -t "$1")" = function ] || exec "$@"
            "$@"
        ) <"$work/lines" >"$work/printed" 2>"$work/errors" &
        copy=ape.$!
        wait "$!"
        status=$?
    } 2>/dev/null # where bash tells that a signal ended the command
    case $tmp in none | '') rm -f "/tmp/$copy" ;; esac
}

ends() { # STATUS COMMAND..
    run "${@:2}"
    [ "$status" = "$1" ] && [ ! -s "$work/printed" ]
}

# A folder of commands that answer for others: NAME, and the lines of its script.
fake() { # FOLDER NAME LINE..
    mkdir -p "$1"
    printf '%s\n' '#!/bin/sh' "${@:3}" >"$1/$2"
    chmod 755 "$1/$2"
}

# Whether a command prints and ends as another program does with the same words.
is_same() { # PROGRAM COMMAND.. (the last words are those of the program)
    same_as "$1" -- "${@:2}"
}

same_as() { # STARTER.. PROGRAM -- COMMAND..
    local starter=()
    while [ "$1" != -- ]; do
        starter+=("$1")
        shift
    done
    shift
    run "${starter[@]}" "${words[@]}"
    local wanted=$status
    mv "$work/printed" "$work/wanted"
    run "$@"
    [ "$status" = "$wanted" ] && [ -s "$work/wanted" ] && cmp -s "$work/printed" "$work/wanted" && [ ! -s "$work/errors" ]
}

# Whether each shell runs a linked file as the program runs by itself.
same_in_shells() { # PROGRAM FILE
    local shell command
    for shell in "${shells[@]}"; do
        read -ra command <<<"$shell"
        is_same "$1" "${command[@]}" "$2" "${words[@]}" || {
            echo "$shell: status $status, $(head -c 200 "$work/errors")"
            return 1
        }
    done
}

# Makes a program, where its tools are there and make one that may run here.
made() { # NAME TOOLS COMMAND..
    local tool
    for tool in $2; do
        is_there "$tool" || { skip "$1" "there is no $tool" && return 1; }
    done
    "${@:3}" >"$work/said" 2>&1 || { skip "$1" "$2: $(head -n 1 "$work/said" | head -c 100)" && return 1; }
}

# The name of a tool among some that are the same, or of the first where none is there.
first_there() { # TOOL..
    local tool
    for tool; do
        is_there "$tool" && echo "$tool" && return
    done
    echo "$1"
}

# What the kernel tells a linked program of the program header table: 'none', 'own' or 'other', or nothing where there is no
# gcc to ask by. A program of glibc takes its own where none is told.
told() { # [SHELL..]
    if [ ! -f "$work/probe" ]; then
        { gcc -O -static -nostdlib -o "$work/probe.elf" "$root/scripts/probe.c" && link "$work/probe" "$work/probe.elf"; } \
            >"$work/said" 2>&1 || return
    fi
    [ $# != 0 ] || set -- sh
    run "$@" "$work/probe"
    sed -n 's/^AT_PHDR 0x[0-9a-f]* \([a-z]*\), .*/\1/p' "$work/printed"
}

begin_running() {
    local shell
    if [ "$(uname -s) $(uname -m)" != 'Linux x86_64' ]; then
        skip 'all' 'the programs are made for x86-64 Linux'
        finish
    fi
    if is_there ape; then
        skip 'all' 'the script of a linked file hands it to the command ape, which is here'
        finish
    fi
    for shell in dash bash 'busybox sh' zsh mksh; do
        if is_there "${shell%% *}"; then shells+=("$shell"); else skip "$shell" 'it is missing'; fi
    done
    printf 'first\nlast\n' >"$work/lines"
    # shellcheck disable=SC2034 # for who sources this
    qemu=$(first_there qemu-aarch64-static qemu-aarch64)
}

# The versions of the Debian packages that have these tools, where that can be told.
tell_versions() { # PACKAGE..
    echo "with: $(uname -sr), $(dpkg-query -W -f '${db:Status-Status} ${Package} ${Version}\n' "$@" 2>/dev/null |
        sed -n 's/^installed //p' | paste -sd , | sed 's/,/, /g')"
}
