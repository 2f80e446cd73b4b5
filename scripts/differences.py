"""Texts that shells take in ways of their own: what the text means, and what shells do that differ.

Each has a line in docs/RUNS.md (What a script means, and what shells do).
"""

SHELLS = ["dash", "bash", "busybox sh", "zsh", "mksh"]


def all_of(outcome):
    return dict.fromkeys(SHELLS, outcome)


DIFFERENCES = [
    # a redirection that fails
    ("true <./missing\nexit\n", "exits 1", {"dash": "exits 2"}),
    (": <./missing\nexit 3\n", "exits 1", {"dash": "exits 2", "bash": "exits 3", "zsh": "exits 3"}),
    ("exec <./missing\nexit 3\n", "exits 1", {"dash": "exits 2", "bash": "exits 3", "zsh": "exits 3"}),
    ("exit 4 <./missing\nexit 3\n", "exits 1", {"dash": "exits 2", "bash": "exits 3", "zsh": "exits 3"}),
    (">./d/f\nexit\n", "exits 0", {"dash": "exits 2", "bash": "exits 1", "busybox sh": "exits 1", "zsh": "exits 1", "mksh": "exits 1"}),
    # assignments in front of a command
    ('x=1 :\nexec ape "$x"\n', "execs ape|word 1", {"bash": "execs ape|word", "zsh": "execs ape|word"}),
    ('x=1 exec\nexec ape "$x"\n', "execs ape|word 1", {"bash": "execs ape|word"}),
    # names that a shell has for itself
    ('status=1\nexec ape "$status"\n', "execs ape|word 1", {"zsh": "exits 1"}),
    ('_=1\nexec ape "$_"\n', "execs ape|word 1", {"bash": "execs ape|word", "zsh": "execs ape|word"}),
    # words
    ("exec ape a{b,c}\n", "execs ape|word a{b,c}", dict.fromkeys(("bash", "zsh", "mksh"), "execs ape|word ab|word ac")),
    ("exec ape =true\n", "execs ape|word =true", {"zsh": "exits 1"}),
    # NUL
    ("x=\"$(printf 'a\\0b')\"\nexec ape \"$x\"\n", "execs ape|word a\\000b", all_of("execs ape|word ab") | {"zsh": "execs ape|word a"}),
    (": 'a\0b'\nexit 3\n", "exits 3", {"bash": "exits 126"}),
    # exit and exec
    ("exit 256\n", "exits 2", all_of("exits 0")),
    ("exit a\n", "exits 2", {"zsh": "exits 0", "mksh": "exits 1"}),
    ("exit ''\n", "exits 2", {"zsh": "exits 0", "mksh": "exits 1"}),
    ("exit -1\n", "exits 2", {"bash": "exits 255", "zsh": "exits 255", "mksh": "exits 255"}),
    ("exit +1\n", "exits 2", all_of("exits 1") | {"busybox sh": "exits 2"}),
    ("exit 1 2\nexit 3\n", "exits 2", all_of("exits 1") | {"bash": "exits 3", "zsh": "exits 3"}),
    ("x=$(\"exit\" 3)\nexit\n", "exits 127", all_of("exits 3")),
    ("exec uname a\n", "exits 127", all_of("execs TOOLS/uname|word a")),
    ("exec '' a\n", "exits 127", all_of("exits 126") | {"bash": "exits 127"}),
    # commands
    ("x=$(command -v missing)\nexit\n", "exits 1", {"dash": "exits 127", "busybox sh": "exits 127"}),
    ("[ a ]\n", "exits 2", all_of("exits 0")),
    ("command true\n", "exits 1", all_of("exits 0") | {"zsh": "exits 127"}),
    ("test a = a\n", "exits 127", all_of("exits 0")),
    ("'' a\n", "exits 127", {"zsh": "exits 126", "mksh": "exits 126"}),
    ("/dev/null\n", "exits 127", all_of("exits 126")),
    ('exec ape "$(command -v cp)"\n', "execs ape|word cp", all_of("execs ape|word TOOLS/cp")),
    ("uname -a >/dev/null\n", "exits 1", all_of("exits 0")),
    ('cp -f "$0" ./a\n', "exits 1", all_of("exits 0")),
    ('chmod 0700 "$0"\n', "exits 1", all_of("exits 0")),
    ("printf 'a%%b' >./a\n", "exits 1", all_of("exits 0")),
    ("printf '\\400' >./a\n", "exits 1", all_of("exits 0")),
    ("printf 'a' b >./a\n", "exits 1", all_of("exits 0")),
    ("printf >./a\n", "exits 1", dict.fromkeys(("dash", "bash", "busybox sh"), "exits 2")),
    ('dd if="$0" of=./a bs=1 skip=0 count=1 2>/dev/null\n', "exits 1", all_of("exits 0")),
    # what is read
    ("in a\nexit\n", "exits 127", all_of("exits 2") | {"zsh": "exits 127", "mksh": "exits 1"}),
    ("exit 3; )\n", "exits 3", all_of("exits 2") | {"zsh": "exits 1", "mksh": "exits 1"}),
]
