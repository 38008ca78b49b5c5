#!/usr/bin/env python3
"""Makes crates/replay/stdin, the cases of the program `replay`, of single instructions seen on an independent emulator.

    python3 tools/vectors.py hd6803.txt hd6803-daa.txt > crates/replay/stdin

A line of the text files is one case: OP|PC A B X SP CC before|accesses in order|PC A B X SP CC after|cycles, then w where the
instruction waits. An access is R or W, address:value; opcode and operand fetches are among them.

The cases stand one after the other, words with the high byte first:

    bytes 0 to 8    PC A B X SP CC before
    bytes 9 to 17   PC A B X SP CC after
    byte 18         cycles
    byte 19         1 where the instruction waits, else 0
    byte 20         number of cells
    then each cell  address (2 bytes), the byte before, the byte after

A cell is an address that was accessed. One that was only written holds before the complement of what is written, so that a write
that is left out shows.
"""
import sys


def registers(text):
    return b"".join(bytes.fromhex(register) for register in text.split())


def cells(text):
    before, after = {}, {}
    for access in text.split():
        kind, at, value = access[0], int(access[1:5], 16), int(access[6:], 16)
        if kind == "R" and after.get(at, value) != value:
            raise ValueError(f"{access} is not what was there")
        before.setdefault(at, value if kind == "R" else 255 - value)
        after[at] = value
    return b"".join(at.to_bytes(2, "big") + bytes([before[at], after[at]]) for at in before)


def case(line):
    _, before, accesses, after, cycles = line.split("|")
    memory = cells(accesses)
    waits = cycles.endswith("w")
    return registers(before) + registers(after) + bytes([int(cycles.rstrip("w")), waits, len(memory) // 4]) + memory


for name in sys.argv[1:]:
    with open(name) as lines:
        for line in lines:
            if not line.startswith("#"):
                sys.stdout.buffer.write(case(line.strip()))
