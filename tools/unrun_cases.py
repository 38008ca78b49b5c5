#!/usr/bin/env python3
"""Makes the map of the programs `unrun` and `unrun_cases`.

    python3 tools/unrun_cases.py        writes crates/unrun/data/map and crates/unrun_cases/stdin, the same bytes

A map's file is 8,192 bytes, a bit for each address, the lowest first, and then the number of ones in four bytes, little-endian. Which addresses are
set is below; the lines that the programs are to print were worked by hand from this list (docs/CASES.md).
"""
from pathlib import Path

# Where an instruction began: at both ends; in the routine of docs/CASES.md at $F200, with jumps into operands at F207, F213, F215 and F21A; four in a row.
RAN = """
0000 0001 0007 0008
F200 F202 F204 F207 F209 F20B F20D F20E F210 F213 F215 F218 F21A
F300 F301 F302 F303
FFFE FFFF
"""


def map_file(addresses):
    bits = bytearray(8192)
    for address in addresses:
        bits[address // 8] |= 1 << address % 8
    return bytes(bits) + len(addresses).to_bytes(4, "little")


if __name__ == "__main__":
    crates = Path(__file__).resolve().parent.parent / "crates"
    made = map_file({int(word, 16) for word in RAN.split()})
    for name in ("unrun/data/map", "unrun_cases/stdin"):
        (crates / name).write_bytes(made)
