"""Prints what macholib reads of a Mach-O program as `apetool map --as mach` prints its plan. Usage: macos.py FILE"""

import struct
import sys

from macholib.MachO import MachO
from macholib.mach_o import LC_SEGMENT_64, LC_UNIXTHREAD

READ, WRITE, EXECUTE = 1, 2, 4
POINTER = 8 * 16  # of the thread's registers, of 8 bytes each, the instruction pointer


def main(path):
    (header,) = MachO(path).headers
    regions = []
    for load, command, data in header.commands:
        if load.cmd == LC_UNIXTHREAD:
            print(f"entry {struct.unpack_from('<Q', data, POINTER)[0]:016x}")
        elif load.cmd == LC_SEGMENT_64 and command.initprot & (READ | WRITE | EXECUTE):
            rights = "".join(
                letter if command.initprot & bit else "-" for letter, bit in [("r", READ), ("w", WRITE), ("x", EXECUTE)]
            )
            size, place = command.filesize, command.fileoff if command.filesize else 0
            regions.append(f"{command.vmaddr:016x} {command.vmsize:016x} {size:016x} {place:016x} {rights}")
    print("\n".join(regions))


if __name__ == "__main__":
    main(sys.argv[1])
