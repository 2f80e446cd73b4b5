"""Texts of the shell subset that shells take alike: some that are written out, and random ones, by a seed."""

import random


class Writer:
    """Writes random texts of the subset, of what the shells are expected to take alike."""

    def __init__(self, seed):
        self.random = random.Random(seed)

    def pick(self, *choices):
        return self.random.choice(choices)

    def some(self, most, make):
        return "".join(make() for _ in range(self.random.randint(0, most)))

    # ---- words

    def plain(self):
        return "w" + self.some(4, lambda: self.pick(*"abz019._/:+,@%-]#"))

    def variable(self):
        return self.pick("x", "y", "z", "long_1")

    def printing(self):
        name = self.variable()
        return self.pick(
            f"printf '{self.octal()}'",
            f'printf "a${name}"',
            "uname -s",
            "uname -m ",
            " command -v true",
            "command -v missing",
            "false",
            f'{name}=5 printf "${name}" 2>/dev/null',
        )

    def octal(self):
        return self.some(4, lambda: self.pick(*"aB #\"$", r"\012", r"\0101", r"\7", r"\101", r"\12b", r"\08"))

    def inside(self):
        name = self.variable()
        return self.pick(
            self.plain(),
            f"${name}",
            f"${{{name}}}",
            f"${{{name}:-{self.pick('', 'w', 'a b', '(:')}}}",
            f"$({self.printing()})",
            *[r"\$", r"\"", r"\\", r"\`", r"\a"],
            *" '#~*\n(;|",
        )

    def quoted(self):
        return '"' + self.some(3, self.inside) + '"'

    def single(self):
        return "'" + self.pick("", "a b", "$x", "#", "\n", '"', "\\") + "'"

    def word(self):
        return self.pick(self.plain(), self.single(), self.quoted(), self.plain() + self.quoted(), self.quoted() + self.single())

    def file(self):
        return self.pick("./a", "./b", '"./c d"', "'./c d'")

    # ---- commands

    def assignment(self):
        value = self.pick(self.word(), self.quoted(), f"${self.variable()}", f"$({self.printing()})", "", "$0", "!#{")
        return f"{self.variable()}={value}"

    def test(self):
        a, b = (self.pick(self.quoted(), self.plain()) for _ in range(2))
        return f"[ {self.pick(f'{a} = {b}', f'{a} != {b}', f'-n {a}', f'-z {a}')} ]"

    def dd(self):
        block, skip, count = (self.random.randint(least, 3) for least in (1, 0, 0))
        return f"dd if={self.file()} of={self.file()} bs={block} skip={skip} count={count} conv=notrunc 2>/dev/null"

    def here(self):
        self.waiting.append(self.pick("E", "a b", "$x", "E"))
        return f"{self.pick(':', 'true')} <<'{self.waiting[-1]}' {self.word()}"

    def simple(self):
        return self.pick(
            self.assignment,
            lambda: f"{self.assignment()} {self.assignment()}",
            self.test,
            lambda: self.pick("true", "false", ":"),
            lambda: f": {self.word()} {self.word()}",
            lambda: f"printf '{self.octal()}' {self.pick('>', '1<>', '>/dev/null >')}{self.file()}",
            lambda: f"cp {self.file()} {self.file()} 2>/dev/null",
            lambda: f'cp "$0" {self.file()}',
            lambda: f"chmod {self.pick('700', '600', '500')} {self.file()} 2>/dev/null",
            self.dd,
            lambda: f"{self.assignment()} true {self.word()}",
            lambda: f">{self.file()} {self.assignment()}",
            self.here,
        )()

    def newline(self):
        bodies = "".join(f"a ' $(\n {word}\n{word}\n" for word in self.waiting)
        self.waiting = []
        return "\n" + bodies

    def command(self, depth):
        if depth == 0 or self.random.random() < 0.75:
            return self.simple()
        text = f"if {self.item(depth - 1)}{self.end()}then {self.lines(depth - 1)}"
        if self.random.random() < 0.5:
            text += f"else{self.newline()}{self.lines(depth - 1)}"
        return text + "fi"

    def item(self, depth):
        text = self.command(depth)
        while self.random.random() < 0.3:
            text += self.pick(" && ", " || ", "&&", "||")
            if self.random.random() < 0.2:
                text += f" # and{self.newline()}\n"
            text += self.command(depth)
        return text

    def end(self):
        kind = self.random.randint(0, 3)
        if kind == 0:
            return "; "
        return (" # it's" if kind == 1 else "") + self.newline()

    def lines(self, depth):
        text = ""
        for _ in range(self.random.randint(1, 4)):
            text += self.item(depth) + self.end()
        return text

    def text(self):
        self.waiting = []
        text = self.lines(2) + self.lines(2)
        if self.waiting:
            text += ":" + self.newline()
        shown = " ".join(f'"${name}"' for name in ("x", "y", "z", "long_1"))
        return text + self.pick(f"exec ape {shown}\n", f"exec ape {shown}\n", "exit\n", "", "exit 7", "", "exec ./a w\n")


# What is told of each of these is what every shell does.
TEXTS = [
    "",
    "exit\n",
    "false\nexit\n",
    "true\r\n",
    "exit 7\n)\n",
    "exit 7 # c\n)\n",
    "x=1 exit 5\n)\n",
    '"exit" 3\n',
    "exit 007\n",
    "exec missing\n",
    "exec ./missing\n",
    "exec /dev/null\n",
    'cp "$0" ./a\nchmod 600 ./a\nexec ./a\n',
    'cp "$0" ./a\nexec ./a "$@" b "" \'c d\'\n',
    ': ; exec ape "$0"\n',
    "./missing\n",
    "missing a\n",
    "[ a\n",
    "[ a = b\n",
    "[ '(' = ')' ]\n",
    "[ '!' = '!' ]\n",
    "[ '' = a ]\n",
    "[ -z = ]\n",
    "[ -n '' ]\n",
    "true || false && false\n",
    "false && false || exit 4\n",
    "false ||\n\n # c\n exit 4\n",
    "if false; then :; fi\nexit\n",
    "if false; then :\nfi || exit 5\nfalse\n",
    "if true; then\n" * 64 + "exit 7\n" + "fi\n" * 64,
    ": <<'E'\nEx\nE\nexit 7\n",
    ": <<'E' 'a\nb'\nx\nE\nexit 3\n",
    ": <<'E'\nx\nE",
    ": <<'E'; : <<'F'\na\nE\nb\nF\nexit 3\n",
    ": <<'E'\na\0b\nE\nexit 3\n",
    "x={ y=!a z=#b\nexit 3\n",
    "exec ape a^b x%y @ + '!' != a#b ]\n",
    'x="\\a\\$\\\\\\`\\""\nexec ape "$x" \'\\a\'\n',
    "x=$(printf 'a\\012\\012')\nexec ape \"$x\" \"${x}b\" \"$xb\" \"${y:-w}\"\n",
    "x=$(false)\n",
    "x=$(false) y=$(true)\n",
    'x=1\nx=2 true\nexec ape "$x"\n',
    "x=1\nx=2 printf \"$x\" >./a\n",
    'x=1 y=$x$x\nexec ape "$y" "$(x=3 printf "$x")"\n',
    "printf 'ab\\0c\\08\\1777' >./a\n",
    "printf 'abc' >./a\nprintf 'd' 1<>./a\n",
    "printf 'abc' >./a\nprintf 'd' >./a\n",
    "printf 'a' >./a 2>&1\n",
    "printf 'x' 2>./a >&2\n",
    "printf 'x' >&2 2>./a\n",
    "printf 'abcdef' >./a\ndd if=./a of=./a bs=2 skip=1 count=9 conv=notrunc 2>/dev/null\n",
    "printf 'abcdef' >./a\ndd if=./a of=./a bs=4 skip=1 count=1 conv=notrunc 2>/dev/null\n",
    "printf 'abc' >./a\ndd skip=001 count=2 conv=notrunc bs=1 of=./b if=./a 2>/dev/null\n",
    "printf 'abc' >./a\ndd if=./a of=./b bs=1 skip=3 count=1 conv=notrunc 2>/dev/null\n",
    "cp ./missing ./a 2>/dev/null || chmod 700 ./missing 2>/dev/null || exit 9\n",
    'cp "$0" "$0" 2>/dev/null\n',
    "cp /dev/null ./a && printf 'x' >/dev/null\n",
]
