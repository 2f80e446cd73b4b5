#!/usr/bin/env bash
# Tries what the program does with the machine's files: the outputs, the inputs that are outputs by another name, and what
# is printed.
# Usage: scripts/files.sh [APETOOL]
# shellcheck source=scripts/lib.sh
. "$(dirname "$0")/lib.sh"

ends() { # STATUS COMMAND..
    "${@:2}" >"$work/printed" 2>"$work/errors"
    [ $? = "$1" ]
}

# Whether a command ends with this status, and leaves in its folder the files that were there, with their bytes.
ends_and_keeps() { # STATUS COMMAND..
    rm -rf "$work/before"
    cp -a . "$work/before"
    ends "$@" && diff -r "$work/before" . >"$work/differences"
}

not() { # COMMAND..
    ! "$@"
}

is_linked() { # FILE
    [ -f "$1" ] && cmp -s "$1" "$work/linked"
}

holds() { # FILE TEXT
    printf %s "$2" | cmp -s - "$1"
}

mode_of() { # FILE
    stat -c %a "$1"
}

count_of() { # the files of this folder
    find . -mindepth 1 | wc -l
}

# A new folder with the input.
begin() { # NAME
    mkdir "$work/$1"
    cd "$work/$1" || exit 2
    cp "$work/program" in
}

elf_headers 5000 >"$work/program"
head -c 5000 /dev/zero | tr '\0' x >>"$work/program"
cd "$work" || exit 2
check 'an input is linked' link linked program
check 'the linked file is the block and the area' [ "$(stat -c %s linked)" = $((16384 + 8192)) ]
check 'its area holds the load' cmp -s -n 5000 <(tail -c +$((16384 + 121)) linked) <(tail -c +121 program)

begin modes
printf 'old' >out
chmod 600 out
ln out other
(umask 077 && link out in)
check 'an old file is replaced by the linked one' is_linked out
check 'the linked file may be run by all, whatever the umask' [ "$(mode_of out)" = 755 ]
check 'the old file keeps its other links' holds other old
check 'nothing else is left' [ "$(count_of)" = 3 ]

begin neighbours
printf 'mine' >.ape0
check 'a file whose name is that of the unfinished one is kept' ends 0 link out in
check 'it holds what it held' holds .ape0 mine
check 'the linked file stands beside it' is_linked out
longest=$(printf '%0255d' 0)
check 'a name of 255 bytes is taken' ends 0 link "$longest" in
check 'the linked file stands under it' is_linked "$longest"
check 'a name of 256 bytes ends with 4' ends_and_keeps 4 link "0$longest" in

begin spelled
check 'the input may be the output by another spelling' ends 0 link ./in in
check 'then it is the linked file' is_linked in
begin hard
ln in out
check 'the input may be the output by a hard link' ends 0 link out in
check 'the output is the linked file' is_linked out
check 'the input is as it was' cmp -s in "$work/program"
begin symbolic
ln -s in out
check 'the input may be the output by a symbolic link' ends 0 link out in
check 'then it is the linked file' is_linked in
check 'the link stays' [ "$(readlink out)" = in ]
begin dangling
ln -s file out
check 'the output may be a symbolic link to nothing' ends 0 link out in
check 'what it names is the linked file' is_linked file
begin named
check 'the input as the output by the same name is a fault of usage' ends_and_keeps 2 link in in
printf 'old' >out
check 'so is a word that is no text' ends_and_keeps 2 link $'out\377' in

begin refused
printf 'old' >out
: >empty
check 'a rule that is broken ends with 1 and keeps the old file' ends_and_keeps 1 link out empty
check 'a missing input ends with 3 and keeps the old file' ends_and_keeps 3 link out missing
check 'a missing input starts nothing' ends_and_keeps 3 link new missing
mkdir folder
check 'a folder as the input ends with 3' ends_and_keeps 3 link new folder
check 'a folder as the output ends with 4' ends_and_keeps 4 link folder in
check 'an output in a missing folder ends with 4' ends_and_keeps 4 link nowhere/new in
check 'an output below a file ends with 4' ends_and_keeps 4 link out/new in

# Root may do all, so it gives the program to nobody.
begin permitted
other=()
[ "$(id -u)" != 0 ] || other=(setpriv --reuid=65534 --regid=65534 --clear-groups --)
cp "$apetool" "$work/apetool" && chmod 711 "$work"
link_as_other() { # OUT IN
    "${other[@]}" "$work/apetool" link --systems linux -o "$1" "$2"
}
if "${other[@]}" test -x "$work/apetool" 2>"$work/errors"; then
    mkdir open closed
    chmod 777 open
    chmod 555 closed
    check 'an input that may be read is linked' ends 0 link_as_other open/out in
    chmod 000 in
    check 'an input that may not be read ends with 3' ends 3 link_as_other open/new in
    check 'a folder that may not be written ends with 4' ends 4 link_as_other closed/new "$work/program"
    check 'nothing is left in either' [ "$(find open closed -type f)" = open/out ]
else
    skip 'what may not be read or written' 'root may do all here'
fi

# A limit on the size of files is met in mid-write, as a full disk would be.
begin limited
printf 'old' >out
limited() {
    (trap '' XFSZ && ulimit -f 8 && link "$1" in)
}
check 'a write that fails ends with 4 and keeps the old file' ends_and_keeps 4 limited out
check 'a write that fails leaves no new file' ends_and_keeps 4 limited new
signalled() {
    (ulimit -f 8 && exec "$apetool" link --systems linux -o out in)
}
check 'the signal of that limit ends the program with 153' ends 153 signalled
check 'no line of the program is printed' not grep -q apetool: "$work/errors"
check 'the old file is kept' holds out old
check 'the new file is left beside it' [ -n "$(find . -name '.ape[0-9]*')" ]

begin devices
check 'a device takes the linked file' ends 0 link /dev/null in
check 'it stays a device' [ -c /dev/null ]
if [ -c /dev/full ]; then
    check 'a full device ends with 4' ends_and_keeps 4 link /dev/full in
    check 'it stays a device as well' [ -c /dev/full ]
else
    skip 'a full device' 'there is no /dev/full'
fi
mkfifo pipe
timeout 60 cat pipe >piped &
check 'a pipe takes the linked file' ends 0 link pipe in
wait "$!"
check 'it is what comes out of the pipe' is_linked piped
check 'it stays a pipe' [ -p pipe ]

begin shown
shows() { # STATUS TEXT LINE COMMAND..
    ends "$1" "${@:4}" && holds "$work/printed" "$2" && holds "$work/errors" "$3"
}
plan() { # BACKED PLACE
    printf 'entry 0000000000400078\n0000000000400000 0000000000002000 %s %s r-x' "$1" "$2"
}
check 'map prints the plan of the input' \
    shows 0 "$(plan 0000000000001400 0000000000000000)"$'\n' '' "$apetool" map --as elf in
check 'load prints that of the linked file' \
    shows 0 "$(plan 0000000000002000 0000000000004000)"$'\n' '' "$apetool" load "$work/linked"
check 'load --dump prints it as well' \
    shows 0 "$(plan 0000000000002000 0000000000004000)"$'\n' '' "$apetool" load --dump image "$work/linked"
check 'and writes 48 bytes, and those of the load'\''s two pages' [ "$(stat -c %s image)" = $((48 + 8192)) ]
check 'the load stands among them' cmp -s -n 5000 <(tail -c +$((48 + 121)) image) <(tail -c +121 in)
check 'a file of another format ends with 1, and a line says why' \
    shows 1 '' $'apetool: ape NoMagic item 0 value 0\n' "$apetool" load in
check 'a missing file ends with 3' shows 3 '' $'apetool: cannot read\n' "$apetool" load missing
if [ -c /dev/full ]; then
    load_to_full() {
        "$apetool" load "$work/linked" >/dev/full
    }
    check 'a plan that cannot be printed ends with 4' shows 4 '' $'apetool: cannot print\n' load_to_full
    load_with_full_errors() {
        "$apetool" load missing 2>/dev/full
    }
    check 'a line that cannot be printed changes no status' shows 3 '' '' load_with_full_errors
fi

begin opened
if is_there strace && strace -o /dev/null true 2>"$work/errors"; then
    opens() { # NAME
        grep -cE "^open.*\"([^\"]*/)?$1\"" trace
    }
    strace -e trace=open,openat,openat2 -o trace "$apetool" link --systems linux -o out in
    check 'the input is opened once' [ "$(opens in)" = 1 ]
    check 'the new file is opened once' [ "$(opens '\.ape[0-9]+')" = 1 ]
    # Both inputs are replaced while they are read: each opening by name would find the other file.
    elf_headers 5000 | sed 's/\x3e\x00/\xb7\x00/' >other
    head -c 5000 /dev/zero | tr '\0' y >>other
    if "$apetool" link --systems linux -o both in other 2>errors; then
        strace -e trace=open,openat,openat2 -o trace "$apetool" link --systems linux -o again in other
        check 'of two inputs the first is opened once' [ "$(opens in)" = 1 ]
        check 'and so is the second' [ "$(opens other)" = 1 ]
        cp in kept
        cp other kept_other
        # A delay of 20 ms a read leaves time to rename other files over both.
        strace -e trace=pread64 -e inject=pread64:delay_enter=20000 -o trace \
            "$apetool" link --systems linux -o replaced in other 2>errors &
        linking=$!
        sleep 0.2
        head -c 9000 /dev/zero >new && mv new in
        head -c 9000 /dev/zero >new && mv new other
        wait "$linking"
        check 'inputs that are replaced during the link are read to their end' cmp -s both replaced
    else
        skip 'two inputs' "the second one isn't taken: $(head -n 1 errors)"
    fi
else
    skip 'how often a file is opened' 'strace is missing, or may not trace here'
fi
cd / && finish
