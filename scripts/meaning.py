"""Compares what `apetool script` tells of scripts with what shells do: the status or what is executed, and the files.

Usage: meaning.py APETOOL EXECS ROWS FOLDER SHELL.. (EXECS is execs.c as a library, ROWS is scripts/rows.txt, FOLDER is empty, a
SHELL is words, as `busybox sh`)

The texts are those of texts.py, random ones among them, the scripts of linked files, and those of differences.py. A shell runs
in a folder in which nothing but the script is, and execs.c tells what it would execute.
"""

import itertools
import os
import re
import shutil
import stat
import subprocess
import sys

from differences import DIFFERENCES
from rows import Rows
from texts import TEXTS, Writer

SEED = 2026
COUNT = 100  # random texts
LIMIT = 60  # seconds
NAMES = ["./a", "./b", "./c d"]  # of the files that texts make
UTILITIES = ["uname", "cp", "chmod", "dd", "printf"]
HOST = ("Linux", "x86_64", True)
HOSTS = [  # the answers of `uname -s` and `uname -m`, and whether there is a command `ape`
    ("Linux", "x86_64", False),
    ("FreeBSD", "amd64", False),
    ("NetBSD", "aarch64", False),
    ("Linux", "arm64", False),
    ("Darwin", "arm64", False),
    ("Darwin", "x86_64", False),
    ("Linux", "riscv64", False),
    ("NetBSD", "x86_64", True),
]
UNIX = ["linux", "freebsd", "netbsd", "mac"]
PROGRAMS = {"x86-64": "S", "aarch64": "OTHER"}  # files of scripts/rows.txt


class Run:
    """How a shell ran a script: its end as `apetool script` tells it, and by name the bytes and modes of the files then."""

    def __init__(self, outcome, files):
        self.outcome = outcome
        self.files = files

    def bytes(self):
        return {name: content for name, (content, _) in self.files.items()}

    def starts(self, name):
        """Whether a file may be executed, or None where it isn't there."""
        return bool(self.files[name][1] & stat.S_IXUSR) if name in self.files else None


class Meaning:
    def __init__(self, apetool, execs, folder, shells):
        self.apetool = apetool
        self.execs = execs
        self.shells = {shell: [shutil.which(shell.split()[0]), *shell.split()[1:]] for shell in shells}
        self.tools = os.path.join(folder, "tools")
        self.ape = os.path.join(folder, "ape")
        self.place = os.path.join(folder, "place")
        self.other = os.path.join(folder, "other")
        self.passed = 0
        self.failed = 0
        for path in [self.tools, self.ape, self.place, self.other]:
            os.mkdir(path)
        for tool in UTILITIES:
            os.symlink(shutil.which(tool), os.path.join(self.tools, tool))
        os.symlink(shutil.which("false"), os.path.join(self.ape, "ape"))

    # ---- scripts

    def told(self, text, host):
        """How a script ends, by `apetool script`: what it prints, or its line on standard error."""
        self.write(text)
        system, machine, ape = host
        ran = self.apetool_on("script", "--system", system, "--machine", machine, *(["--ape"] if ape else []), "./t")
        return ran.stderr.decode() or ran.stdout.decode()

    def is_there(self, text, host, name):
        """Whether a file may be executed behind a script, or None where it isn't there, by `apetool script`."""
        told = self.told(text + f"\nexec '{name}'\n".encode(), host)
        return {"exits 127\n": None, "exits 126\n": False}.get(told, True)

    def run(self, shell, text, host):
        self.write(text)
        record = os.path.join(self.other, "record")
        system, machine, ape = host
        environment = {
            "PATH": self.tools + (":" + self.ape if ape else ""),
            "LD_PRELOAD": self.execs,
            "EXECS_OUT": record,
            "EXECS_SYSTEM": system,
            "EXECS_MACHINE": machine,
        }
        streams = dict.fromkeys(["stdin", "stdout", "stderr"], subprocess.DEVNULL)
        command = [*self.shells[shell], "./t"]
        with subprocess.Popen(command, cwd=self.place, env=environment, umask=0o077, **streams) as process:
            status = process.wait(timeout=LIMIT)
        files = {"./" + name: read(os.path.join(self.place, name)) for name in os.listdir(self.place)}
        if not os.path.exists(record):
            return Run(f"exits {status}\n", files)
        path, *words = read(record)[0].split(b"\0")[:-1]
        os.remove(record)
        copy = f"/tmp/ape.{process.pid}"
        if path.decode() == copy:
            files["copy"] = read(copy)
            os.remove(copy)
        executed = path.replace(copy.encode(), b"/tmp/ape.1")
        executed = executed.replace(os.path.join(self.ape, "ape").encode(), b"ape").replace(self.place.encode(), b".")
        lines = [f"execs {shown(executed)}\n", *(f"word {shown(word)}\n" for word in words)]
        return Run("".join(lines), files)

    def write(self, text):
        """Makes the script, and removes all other files."""
        for name in os.listdir(self.place):
            os.remove(os.path.join(self.place, name))
        path = os.path.join(self.place, "t")
        with open(path, "wb") as file:
            file.write(text)
        os.chmod(path, 0o700)

    def apetool_on(self, *words):
        return subprocess.run([self.apetool, *words], cwd=self.place, capture_output=True, timeout=LIMIT, check=False)

    # ---- what is compared

    def tell(self, what, text, faults):
        if not faults:
            self.passed += 1
            print(f"ok: {what}")
            return
        self.failed += 1
        print(f"FAILED: {what}: {text!r}")
        for fault in faults:
            print(f"    {fault}")

    def alike(self, what, text, host):
        """Compares a script with what each shell does, and answers how one of them ran it."""
        told = self.told(text, host)
        runs = {shell: self.run(shell, text, host) for shell in self.shells}
        faults = [f"{shell}: {run.outcome!r}, told {told!r}" for shell, run in runs.items() if run.outcome != told]
        if self.told(text + b"\nexit 77\n", host) == "exits 77\n":  # it goes on to its end
            for name in NAMES:
                there = self.is_there(text, host, name)
                faults += [f"{shell}: {name}, told {there}" for shell, run in runs.items() if run.starts(name) != there]
        one = next(iter(runs.values()))
        faults += [f"{shell} leaves other bytes" for shell, run in runs.items() if run.bytes() != one.bytes()]
        self.tell(what, text, faults)
        return one

    def differ(self, text, wanted, others):
        """Compares a script that some shells take in ways of their own."""
        faults = []
        told = on_one_line(self.told(text.encode(), HOST))
        if told != wanted:
            faults.append(f"told {told!r}, wanted {wanted!r}")
        for shell in self.shells:
            found = on_one_line(self.run(shell, text.encode(), HOST).outcome).replace(self.tools, "TOOLS")
            if found != others.get(shell, wanted):
                faults.append(f"{shell}: {found!r}, wanted {others.get(shell, wanted)!r}")
        self.tell(f"shells differ as it is told: {text!r}", text, faults)

    def linked(self, systems, machines, files, hosts):
        """Compares the script of a linked file; and its copy, by what is mapped of the one and of the other."""
        inputs = []
        for machine in machines:
            inputs.append(os.path.join(self.other, machine))
            with open(inputs[-1], "wb") as file:
                file.write(files[PROGRAMS[machine]])
        path = os.path.join(self.other, "linked")
        ran = self.apetool_on("link", "--systems", systems, "-o", path, *inputs)
        name = f"linked for {systems}, {' and '.join(machines)}"
        if ran.returncode:
            self.tell(name, b"", [ran.stderr.decode()])
            return
        for system, machine, ape in hosts:
            run = self.alike(f"{name}: {system} {machine}", read(path)[0], (system, machine, ape))
            if "copy" not in run.files:
                continue
            copy = run.files["copy"][0]
            if system == "Darwin":
                self.moved(name, read(path)[0], copy)
            else:
                self.copied(name, path, copy, "x86-64" if machine in ["x86_64", "amd64"] else "aarch64")

    def copied(self, name, path, copy, machine):
        """Whether a copy with an ELF header is mapped as the linked file is loaded."""
        copied = os.path.join(self.other, "copy")
        with open(copied, "wb") as file:
            file.write(copy)
        loaded = self.apetool_on("load", "--machine", machine, path).stdout
        mapped = self.apetool_on("map", "--as", "elf", "--machine", machine, copied).stdout
        faults = []
        if not loaded or loaded != mapped:
            faults.append("the copy isn't mapped as the linked file is")
        if read(path)[0][64:] != copy[64:]:
            faults.append("the copy isn't the linked file behind its header")
        self.tell(f"{name}: the copy of {machine}", b"", faults)

    def moved(self, name, linked, copy):
        """Whether a copy is a Mach-O file by the header that stands at 8192 of the linked file, and else that file."""
        copied = os.path.join(self.other, "copy")
        with open(copied, "wb") as file:
            file.write(copy)
        end = 32 + int.from_bytes(copy[20:24], "little")
        faults = []
        if copy != linked[8192 : 8192 + end] + linked[end:]:
            faults.append("the copy isn't the linked file with the header over its front")
        if self.apetool_on("map", "--as", "mach", copied).returncode:
            faults.append("the copy isn't taken by map --as mach")
        self.tell(f"{name}: the copy for macOS", b"", faults)


def read(path):
    with open(path, "rb") as file:
        return file.read(), os.stat(path).st_mode


def shown(word):
    """A word as `apetool script` prints it."""
    return "".join(chr(b) if 33 <= b <= 126 and b != 92 else f"\\{b:03o}" for b in word)


def on_one_line(outcome):
    return "|".join(line.rstrip() for line in outcome.splitlines())


def files_of(path):
    """The files that a file of rows names."""
    rows = Rows("", "")
    lines = []
    kept = False
    with open(path, encoding="utf-8") as file:
        for line in file:
            kept = line.startswith("file ") or (kept and line.startswith(("    ", "#")))
            if kept:
                lines.append(line)
    rows.read(lines)
    return rows.named


def system_lists():
    """The systems that make scripts of their own: Windows alone, and some of the others."""
    some = [",".join(names) for count in (1, 2, 3, 4) for names in itertools.combinations(UNIX, count)]
    return ["windows", *some]


def main(apetool, execs, rows, folder, *shells):
    meaning = Meaning(apetool, execs, folder, shells)
    for number, text in enumerate(TEXTS):
        meaning.alike(f"text {number}", text.encode(), HOST)
    writer = Writer(SEED)
    for number in range(COUNT):
        meaning.alike(f"random text {number}", writer.text().encode(), HOST)
    files = files_of(rows)
    for number, systems in enumerate(system_lists()):
        for machines in [["x86-64"], ["aarch64"], ["x86-64", "aarch64"]]:
            if "x86-64" in machines or systems != "windows":
                meaning.linked(systems, machines, files, HOSTS[number % 2 :: 2])
    for machines in [["x86-64"], ["x86-64", "aarch64"], ["aarch64", "x86-64"]]:
        meaning.linked(",".join([*UNIX, "windows"]), machines, files, HOSTS)
    for text, wanted, others in DIFFERENCES:
        meaning.differ(text, wanted, others)
    print(f"{meaning.passed} passed, {meaning.failed} failed, 0 skipped")


if __name__ == "__main__":
    main(*sys.argv[1:])
