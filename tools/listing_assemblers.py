#!/usr/bin/env python3
"""Puts listings through two assemblers of other hands, Debian's dasm and crasm, and compares the bytes.

    python3 tools/listing_assemblers.py [RANGES [SEED]]     prints for each assembler the opcodes or ranges, the bytes and how many ranges differ

Needs dasm and crasm (apt-get install dasm crasm), and lister built (`sh tools/launch.sh lister`). Status 1 where a range differs. From each line of a listing columns 15
on are taken, behind a prelude that names the processor, FCB and the first address. First every opcode once; then so many random ranges of random
images (300). Two things are known to differ, so a random image is mended before: an extended operand below $0100 of an opcode that has a direct twin,
which both assemblers shorten, gets the high byte 01; a branch across $FFFF gets the offset FE. The last lines count what both make of those.
"""
import pathlib
import random
import subprocess
import sys
import tempfile

ROOT = pathlib.Path(__file__).resolve().parent.parent
WORDS = subprocess.run(["sh", ROOT / "tools/launch.sh", "--words"], check=True, capture_output=True, text=True).stdout.split()
FOLDER = tempfile.TemporaryDirectory()
ROOM = pathlib.Path(FOLDER.name)
PRELUDE = {
    "dasm": " processor 6803\n mac FCB\n dc.b {1}\n endm\n org $%04X\n",
    "crasm": " cpu 6803\n output scode\nFCB macro\n db \\1\n endm\n * = $%04X\n",
}


def listed(image, first, last):
    (ROOM / "image").write_bytes(image)
    call = [*WORDS, ROOT / "target/bin/lister", ROOM / "image", f"{first:X}", f"{last:X}"]
    return subprocess.run(call, check=True, capture_output=True, text=True).stdout.splitlines()


def dasm(text):
    (ROOM / "d.asm").write_text(text)
    ran = subprocess.run(["dasm", "d.asm", "-f3", "-od.bin"], cwd=ROOM, capture_output=True)
    return (ROOM / "d.bin").read_bytes() if ran.returncode == 0 else b""


def crasm(text):
    """The data of the S records, one after the other."""
    (ROOM / "c.asm").write_text(text)
    (ROOM / "c.s").unlink(missing_ok=True)
    subprocess.run(["crasm", "-o", "c.s", "c.asm"], cwd=ROOM, capture_output=True)
    if not (ROOM / "c.s").exists():
        return b""
    records = [bytes.fromhex(r[2:]) for r in (ROOM / "c.s").read_text().split() if r.startswith("S1")]
    return b"".join(r[3:-1] for r in records)


ASSEMBLERS = {"dasm": dasm, "crasm": crasm}


def assembled(name, first, lines):
    return ASSEMBLERS[name](PRELUDE[name] % first + "".join(line[14:] + "\n" for line in lines))


def has_twin(op):
    return op >= 0xF0 or 0xB0 <= op <= 0xBF


def is_branch(op):
    return 0x20 <= op <= 0x2F or op == 0x8D


def mended(image, lines):
    for line in lines:
        at = int(line[:4], 16)
        code = bytes.fromhex(line[6:14])
        if len(code) == 3 and has_twin(code[0]) and code[1] == 0:
            image[at + 1] = 0x01
        if len(code) == 2 and is_branch(code[0]) and not 0 <= at + 2 + code[1] - 256 * (code[1] > 127) < 65536:
            image[at + 1] = 0xFE
    return image


def every_opcode():
    """Every opcode at $4000, as the lister has its length, with the operand bytes 12 34, a branch with 10."""
    image, at, codes = bytearray(65536), 0x4000, 0
    for op in range(256):
        image[at:at + 3] = bytes([op, 0x10 if is_branch(op) else 0x12, 0x34])
        line = listed(image, at, at + 2)[0]
        codes += line[16:19] != "FCB"
        at += len(line[6:14].split())
    return image, 0x4000, at - 1, codes


def shortened():
    """How many extended opcodes with a direct twin come out shorter with the operand $0012; whether a branch from $FFFE to $0000 does not come out."""
    counts = {name: 0 for name in ASSEMBLERS}
    twins = [op for op in range(256) if has_twin(op)]
    for op in twins:
        image = bytearray(65536)
        image[0x4000:0x4003] = bytes([op, 0x00, 0x12])
        lines = listed(image, 0x4000, 0x4002)
        for name in ASSEMBLERS:
            counts[name] += len(assembled(name, 0x4000, lines)) == 2
    image = bytearray(65536)
    image[0xFFFE:] = b"\x20\x00"
    lines = listed(image, 0xFFFE, 0xFFFF)
    for name in ASSEMBLERS:
        back = "comes" if assembled(name, 0xFFFE, lines) == b"\x20\x00" else "does not come"
        print(f"{name}: {counts[name]} of {len(twins)} extended operands below $0100 shortened; a branch across $FFFF {back} back")


def main():
    ranges = int(sys.argv[1]) if sys.argv[1:] else 300
    chance = random.Random(int(sys.argv[2]) if sys.argv[2:] else 6803)
    image, first, last, codes = every_opcode()
    lines = listed(image, first, last)
    bad = 0
    for name in ASSEMBLERS:
        differ = assembled(name, first, lines) != image[first:last + 1]
        bad += differ
        print(f"{name}: {codes} opcodes in {len(lines)} lines, {last + 1 - first} bytes, differing {int(differ)}")
    total, differing = 0, {name: 0 for name in ASSEMBLERS}
    for _ in range(ranges):
        image = bytearray(chance.randbytes(65536))
        first = chance.choice([chance.randrange(65536), 65535 - chance.randrange(300)])
        last = min(65535, first + chance.choice([chance.randrange(8), chance.randrange(4096)]))
        image = mended(image, listed(image, first, last))
        lines = listed(image, first, last)
        total += last + 1 - first
        for name in ASSEMBLERS:
            differing[name] += assembled(name, first, lines) != image[first:last + 1]
    for name, count in differing.items():
        bad += count
        print(f"{name}: {ranges} random ranges, {total} bytes, differing {count}")
    shortened()
    sys.exit(bad > 0)


if __name__ == "__main__":
    main()
