"""What python3-pefile sees in Windows files, for scripts/windows.sh.

windows.py told FILE               what the file is, in the lines of scripts/windows.sh
windows.py imports FILE..          its imports, with the place where Windows writes the address of each
windows.py memory APETOOL FILE..   whether `map --as pe` prints the same entry, bytes and permissions as pefile maps
"""

import subprocess
import sys

import pefile

READ, WRITE, EXECUTE = 0x40000000, 0x80000000, 0x20000000


def rights_of(section):
    bits = section.Characteristics
    return "".join(letter if bits & bit else "-" for letter, bit in (("r", READ), ("w", WRITE), ("x", EXECUTE)))


def sections_of(file):
    base = file.OPTIONAL_HEADER.ImageBase
    return [(base + section.VirtualAddress, rights_of(section)) for section in file.sections]


def entry_of(file):
    return file.OPTIONAL_HEADER.ImageBase + file.OPTIONAL_HEADER.AddressOfEntryPoint


def imports_of(file):
    for library in getattr(file, "DIRECTORY_ENTRY_IMPORT", []):
        for function in library.imports:
            name = f"#{function.ordinal}" if function.import_by_ordinal else function.name.decode()
            yield f"import {library.dll.decode()} {name}", function.address


def tell_imports(name):
    file = pefile.PE(name, fast_load=True)
    file.parse_data_directories([pefile.DIRECTORY_ENTRY["IMAGE_DIRECTORY_ENTRY_IMPORT"]])
    for line, slot in imports_of(file):
        print(f"{line} {slot:016x}")


def tell(file):
    print(f"entry {entry_of(file):016x}")
    print(f"base {file.OPTIONAL_HEADER.ImageBase:016x}")
    for start, rights in sections_of(file):
        print(f"section {start:016x} {rights}")
    for line, _ in imports_of(file):
        print(line)


def is_same_memory(apetool, name):
    file = pefile.PE(name, fast_load=True)
    lines = subprocess.run([apetool, "map", "--as", "pe", name], capture_output=True, text=True, check=True).stdout.splitlines()
    regions = [line.split() for line in lines[1:]]
    with open(name, "rb") as opened:
        content = opened.read()
    base = file.OPTIONAL_HEADER.ImageBase
    memory = bytearray()
    for start, span, backed, at, _ in regions:
        span, backed, at = int(span, 16), int(backed, 16), int(at, 16)
        if int(start, 16) != base + len(memory):
            return False
        memory += content[at:at + backed].ljust(span, b"\0")
    told = bytearray(file.get_memory_mapped_image()[:len(memory)].ljust(len(memory), b"\0"))
    # pefile goes on with the file's bytes behind the headers. They are as many as the file says.
    headers = file.OPTIONAL_HEADER.SizeOfHeaders
    behind = slice(headers, int(regions[0][1], 16))
    told[behind] = bytes(behind.stop - headers)
    return (
        lines[0] == f"entry {entry_of(file):016x}"
        and [(int(region[0], 16), region[4]) for region in regions[1:]] == sections_of(file)
        and memory == told
    )


def main():
    command, name, *others = sys.argv[1:]
    if command == "told":
        tell(pefile.PE(name))
    elif command == "imports":
        for other in [name, *others]:
            tell_imports(other)
    else:
        differ = [other for other in others if not is_same_memory(name, other)]
        for other in differ:
            print(f"{other}: pefile maps something else")
        sys.exit(bool(differ))


main()
