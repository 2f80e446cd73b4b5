"""Runs the rows of a file over the built program, as scripts/rows.txt says at its top.

Usage: rows.py APETOOL ROWS FOLDER. The folder is empty, and is left so.
"""

import os
import re
import shlex
import shutil
import subprocess
import sys

LARGE = 1 << 27  # longer files of zeros are holes
ESCAPES = {"n": "\n", "0": "\0", "\\": "\\", '"': '"'}


class Rows:
    """What the lines of a file of rows have named so far, and how many rows passed and failed."""

    def __init__(self, apetool, folder):
        self.apetool = apetool
        self.folder = folder
        self.named = {}
        self.texts = {}
        self.words = []
        self.files = {}
        self.passed = 0
        self.failed = 0

    def read(self, lines):
        at = 0
        while at < len(lines):
            head = lines[at].rstrip("\n")
            below = at + 1
            while below < len(lines) and lines[below].startswith("    "):
                below += 1
            if head.strip() and not head.startswith("#"):
                indented = [line[4:].rstrip("\n") for line in lines[at + 1 : below]]
                try:
                    self.take(head, indented)
                except (ValueError, KeyError, IndexError) as why:
                    self.failed += 1
                    print(f"FAILED: line {at + 1} is no row: {head}: {why!r}")
            at = below

    def take(self, head, below):
        first, _, rest = head.partition(" ")
        if " => " in head:
            self.run(head, below)
        elif first == "file":
            name, _, parts = rest.partition(" is ")
            made = self.made(parts) if parts else b""
            self.named[name] = made + b"".join(written(line) for line in below)
        elif first == "text":
            name, _, text = rest.partition(" is ")
            self.texts[name] = text
        elif first == "words":
            self.words = shlex.split(rest)
        elif first == "files":
            self.files = self.made_all(rest)
        else:
            raise ValueError("it begins with none of file, text, words and files, and has no =>")

    def made_all(self, text):
        """The files of `NAME = FILE; NAME = FILE`, or of one FILE, whose name is `in`."""
        files = {}
        for part in text.split("; "):
            name, equals, made = part.partition(" = ")
            if equals and re.fullmatch(r"[a-z.]+", name):
                files[name] = self.made(made)
            else:
                files["in"] = self.made(part)
        return files

    def made(self, text):
        """The bytes of a file with its edits, or the number of its zeros where it is a large one."""
        base, *edits = split(text)
        if base.startswith("zeros "):
            count = number(base[6:])
            if count > LARGE:
                return count
            made = bytearray(count)
        else:
            made = bytearray(self.named[base])
        for edit in edits:
            self.edit(made, edit)
        return bytes(made)

    def edit(self, made, text):
        if found := re.fullmatch(r"to (.+)", text):
            length = number(found[1])
            del made[length:]
            made.extend(bytes(length - len(made)))
        elif found := re.fullmatch(r"(load|entry) (.+)", text):
            numbers = [number(word) for word in found[2].split()]
            if found[1] == "load":
                numbers.insert(0, 1)
            count = int.from_bytes(made[56:58], "little")
            put(made, 64 + 56 * count, header(numbers))
            put(made, 56, (count + 1).to_bytes(2, "little"))
        elif found := re.fullmatch(r"numbers @(\S+) = (\S+) (\S+)", text):
            at, count, value = [number(word) for word in found.groups()]
            put(made, at, value.to_bytes(8, "little") * count)
        elif found := re.fullmatch(r"stairs (\S+) (\S+) (\S+) (\S+)", text):
            count, address, step, size = [number(word) for word in found.groups()]
            for i in range(count):
                self.edit(made, f"load 5 4096 {address + i * step} {size} {size} 4096")
        else:
            at, part = self.place(text)
            put(made, at, part)

    def place(self, text):
        """The place and the bytes of `u16 @18 = 183`, `text @9 = "a"`, `fill @9 = 3 "a"` or `bytes @9 = NAME`."""
        found = re.fullmatch(r"(u8|u16|u32|u64|text|fill|bytes) @(\S+) = (.+)", text)
        if not found:
            raise ValueError(f"what is {text}?")
        kind, at, value = found[1], number(found[2]), found[3]
        if kind == "text":
            return at, quoted(value)
        if kind == "fill":
            count, _, filler = value.partition(" ")
            return at, quoted(filler) * number(count)
        if kind == "bytes":
            return at, self.named[value]
        return at, number(value).to_bytes(int(kind[1:]) // 8, "little")

    def run(self, head, below):
        given, _, wanted = head.rpartition(" => ")
        if given.startswith("$"):
            words, files = shlex.split(given[1:]), self.files
        else:
            words, files = self.words, self.made_all(given)
        status, _, line = wanted.partition(" ")
        line = self.texts.get(line, line)
        for name, content in files.items():
            self.write(name, content)
        for part in commands(words):
            ran = subprocess.run([self.apetool, *part], cwd=self.folder, capture_output=True, timeout=60)
            if ran.returncode != 0:
                break
        faults = []
        printed = "".join(text[2:] + "\n" for text in below if text.startswith("| "))
        err = f"apetool: {line}\n" if line else ""
        for what, found, want in [
            ("the status", ran.returncode, int(status)),
            ("what is printed", ran.stdout, printed.encode()),
            ("standard error", ran.stderr, err.encode()),
        ]:
            if found != want:
                faults.append(f"{what} is {found!r}")
        outputs = {}
        for text in below:
            if not text.startswith("| "):
                name, _, fact = text.partition(" ")
                outputs.setdefault(name, []).append(fact)
        faults += self.left(files, outputs)
        shutil.rmtree(self.folder)
        os.mkdir(self.folder)
        if faults:
            self.failed += 1
            print(f"FAILED: {' '.join(words)}: {head}: {'; '.join(faults)}")
        else:
            self.passed += 1

    def write(self, name, content):
        with open(os.path.join(self.folder, name), "wb") as file:
            if isinstance(content, int):
                file.truncate(content)
            else:
                file.write(content)

    def left(self, files, outputs):
        """What is wrong with the files that a run left: those that it was given, the outputs, and no others."""
        faults = []
        names = set(os.listdir(self.folder))
        for name in sorted(names - set(files) - set(outputs)):
            faults.append(f"there is a file {name}")
        for name, content in files.items():
            if name not in outputs and not isinstance(content, int) and self.bytes_of(name) != content:
                faults.append(f"{name} has changed")
        for name, facts in outputs.items():
            bytes_left = self.bytes_of(name)
            if bytes_left is None:
                faults.append(f"there is no file {name}")
                continue
            faults += [f"{name} is not so: {fact}" for fact in facts if not self.holds(bytes_left, fact)]
        return faults

    def bytes_of(self, name):
        try:
            with open(os.path.join(self.folder, name), "rb") as file:
                return file.read()
        except OSError:
            return None

    def holds(self, content, fact):
        if fact.startswith("is "):
            return content == self.made(fact[3:])
        if found := re.fullmatch(r"has (.+) bytes", fact):
            return len(content) == number(found[1])
        at, part = self.place(fact)
        return content[at : at + len(part)] == part


def split(text):
    """The parts between commas, but for those in quotes."""
    return re.findall(r'(?:[^,"]|"(?:\\.|[^"\\])*")+', text.replace(", ", ","))


def commands(words):
    """The commands of words between `&&`."""
    parts = [[]]
    for word in words:
        if word == "&&":
            parts.append([])
        else:
            parts[-1].append(word)
    return parts


def number(text):
    """A sum or difference of numbers and powers, as 2^30 + 1."""
    total = 0
    for sign, base, power in re.findall(r"([+-]?) ?(0x[0-9a-f]+|[0-9]+)(?:\^([0-9]+))?", text):
        value = int(base, 0) ** int(power or 1)
        total += -value if sign == "-" else value
    return total


def quoted(text):
    found = re.fullmatch(r'"((?:\\.|[^"\\])*)"', text)
    return re.sub(r"\\(.)", lambda m: ESCAPES[m[1]], found[1]).encode("latin-1")


def written(line):
    """A line of a file's bytes: text behind a bar, or bytes in hexadecimal digits, with a comment."""
    if line.startswith("| ") or line == "|":
        return line[2:].encode() + b"\n"
    return bytes.fromhex(line.partition("#")[0])


def header(numbers):
    """A program header: its type, flags, place in the file, address, sizes in the file and in memory, and alignment."""
    kind, flags, offset, address, filesz, memsz, align = numbers
    fields = [(kind, 4), (flags, 4), (offset, 8), (address, 8), (0, 8), (filesz, 8), (memsz, 8), (align, 8)]
    return b"".join(value.to_bytes(size, "little") for value, size in fields)


def put(made, at, part):
    """Writes bytes from a place on, and lengthens the file where they pass its end."""
    made.extend(bytes(max(0, at + len(part) - len(made))))
    made[at : at + len(part)] = part


def main():
    apetool, path, folder = sys.argv[1:]
    rows = Rows(apetool, folder)
    with open(path, encoding="utf-8") as file:
        rows.read(file.readlines())
    print(f"{rows.passed} passed, {rows.failed} failed, 0 skipped")
    return int(rows.failed > 0)


if __name__ == "__main__":
    sys.exit(main())
