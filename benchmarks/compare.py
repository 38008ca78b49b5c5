#!/usr/bin/env python3
"""Holds the bench program against the plain C emulator: random inputs, and their lines byte by byte.

    python3 benchmarks/compare.py [COUNT [SEED]]

tools/launch.sh builds bench and bench_cases first (`sh tools/launch.sh NAME </dev/null`). The inputs go to bench_cases in batches (its answers are those of
bench, by the same call), every fiftieth also to bench itself. A difference is printed with both lines, and its input is kept in
target/benchmarks/; the last line says how many were compared and how many differ.
"""
import pathlib
import random
import subprocess
import sys

ROOT = pathlib.Path(__file__).resolve().parent.parent
WORK = ROOT / "target/benchmarks"
BATCH = 65536
UNDEFINED = bytes.fromhex("0002031213141518 1A1C1D1E1F 4142454B4E 515255 5B5E 6162656B 7172757B 878FC7CDCF")
DEFINED = [op for op in range(256) if op not in UNDEFINED]
ONE_BYTE = [op for op in DEFINED if op < 0x20 or 0x30 <= op < 0x60]
RARE = (0x39, 0x3B, 0x3E, 0x35, 0x9D, 0x9E, 0xAE, 0xBE)  # RTS, RTI, WAI, TXS, JSR to the registers, LDS
RETURNS = (0x39, 0x3B)  # RTS, RTI: as an item whose target is found later, a return through the compare register
REGISTERS = [0x00, 0x01, 0x02, 0x03, 0x08, 0x09, 0x0A, 0x0B, 0x0C, 0x0D, 0x0E, 0x10, 0x11, 0x12, 0x13, 0x14]
TIMED = [0x02, 0x03, 0x03, 0x07, 0x08, 0x08, 0x08, 0x09, 0x09, 0x09, 0x0A, 0x0A, 0x0A, 0x0B, 0x0B, 0x0C, 0x0D]  # where the cycle of an access can show


def little(n, width):
    return n.to_bytes(width, "little")


def big(n):
    return (n & 0xFFFF).to_bytes(2, "big")


def load(at, data):
    return little(4 + len(data), 2) + little(9, 2) + little(at, 2) + data


def run_record(limit, read_only):
    return little(10, 2) + little(10, 2) + little(limit, 4) + little(read_only, 4)


class Code:
    """Random code around the address $pppp, so that a stack full of the byte p leads back into it."""

    def __init__(self, r, limit, read_only):
        self.r = r
        self.limit = limit
        self.read_only = read_only
        self.page = r.choice([0x20, 0x30, 0x40, 0x57, 0x8B, 0x9B, 0xC6, 0xE0, 0xF0])
        self.start = self.page * 257 - r.choice([0, 1, 100, 200])
        self.size = r.choice([100, 300, 600, 1500])
        self.wild = r.choice([0, 0, 0, 0.01, 0.1])  # how much of it leads nowhere
        self.devices = r.choice([0.05, 0.3, 0.7])
        self.daring = r.choice([0, 0, 0.02, 0.2])
        self.on_vectors = False  # whether every vector leads on, to the next instruction
        self.moments = r.choice([0, 0.2, 0.5])
        self.low = r.choice([0, 0.1, 0.9])  # how often the stack is in the registers, where the code goes anywhere

    def inside(self):
        return self.start + self.r.randrange(self.size)

    def place(self):
        """An address that an operand may well have."""
        r = self.r
        return r.choice([
            r.choice(REGISTERS), r.choice(REGISTERS), r.randrange(0x20), r.randrange(0x80, 0x100), r.randrange(0x80, 0x100),
            r.choice([0x1F, 0x20, 0x7F, 0x80, 0xFF, 0x100, 0xFFFF, 0]), r.randrange(0x200, 0x300), self.inside(),
            self.read_only + r.choice([-2, -1, 0, 1]), r.randrange(65536)])

    def corner(self):
        return self.r.choice([self.r.randrange(256), self.r.choice([0, 1, 0x0A, 0x0F, 0x10, 0x7F, 0x80, 0x81, 0x90, 0x99, 0x9A, 0xA0, 0xFE, 0xFF])])

    def instruction(self):
        """The bytes of a defined instruction; a jump or branch is its opcode alone, and finds its target later."""
        r = self.r
        op = r.choice(DEFINED)
        if op in RARE and r.random() < 0.8:
            op = r.choice(ONE_BYTE)
        row, low = op >> 4, op & 15
        if row < 2 or 3 <= row < 6:
            return bytes([op])
        if op in (0x6E, 0xAD) and r.random() >= self.wild:
            return op
        if row == 2 or op in (0x8D, 0x7E, 0xBD):
            return bytes([op, r.randrange(256)] + [r.randrange(256)] * (op in (0x7E, 0xBD))) if r.random() < self.wild else op
        if row in (7, 0xB, 0xF):
            return bytes([op]) + big(self.place())
        if op == 0x8E:
            return self.stack() if r.random() < 0.9 else bytes([op]) + big(self.place())
        if row in (8, 0xC) and low in (3, 0xC, 0xE):
            return bytes([op]) + big(r.choice([self.place(), self.inside(), 256 * self.corner() + self.corner()]))
        if row in (8, 0xC):
            return bytes([op, self.corner()])
        if row in (9, 0xD):
            return bytes([op, self.place() & 255])
        return bytes([op, r.choice([0, 1, 8, 0x11, self.corner()])])

    def operation(self):
        """Arithmetic on chosen values, with chosen codes before it."""
        r = self.r
        codes = bytes([0x86, r.randrange(256) | 0x10, 0x06])
        values = bytes([0xCC, self.corner(), self.corner(), 0xCE, self.corner(), self.corner()])
        low = r.choice([0, 1, 2, 4, 5, 6, 8, 9, 10, 11])
        return values + r.choice([
            lambda: bytes([r.choice([0x80, 0xC0]) + low, self.corner()]), lambda: bytes([r.choice([0x83, 0xC3, 0x8C]), self.corner(), self.corner()]),
            lambda: bytes([r.choice([op for op in ONE_BYTE if op < 0x20 or op >= 0x40] + [0x19] * 8 + [0x3D, 0x3A, 0x30])]),
            lambda: codes + bytes([0xCC, self.corner(), self.corner(), r.choice([op for op in ONE_BYTE if op >= 0x40] + [0x19] * 8)]),
            lambda: bytes([r.choice([0x8B, 0x89, 0x80]), self.corner(), 0x19])])()

    def device(self):
        """A few instructions about the timer, the serial interface, the ports or an interrupt."""
        r = self.r
        at = r.choice(REGISTERS)
        store = lambda v, at: bytes([0x86, v & 255, 0x97, at])
        soon = bytes([0xDC, 0x09, 0xC3]) + big(r.randrange(40)) + bytes([0xDD, 0x0B])
        edge = self.read_only + r.choice([-1, 0, 1])
        memory = r.choice([0x04, 0x05, 0x06, 0x07, 0x0B, 0x0C, 0x0F])
        if r.random() < self.daring:
            return r.choice([
                lambda: bytes([0x3E]), lambda: bytes([0x0E, 0x3E]), lambda: bytes([0x8E]) + big(r.randrange(0x20)), lambda: bytes([0x9D, 0x12]),
                lambda: bytes([0x3B]), lambda: 0x7E, lambda: store(0x19, 0x11) + bytes([0x9D, 0x11, 0xD7, 0x13]),
                lambda: bytes([0xCC, 0x39, 0x39, 0xDD, at, 0x9D, at]), lambda: bytes([0xCC, 0x39, 0x39, 0xDD, 0x0B, 0x9D, r.randrange(7, 11)]),
                lambda: bytes([0x86, r.choice([0x86, 0xC3, 0xCC, 0x96, 0xDC, 0xB6, 0x20, 0x8D]), 0x97, 0x07, 0x9D, 0x07])])()
        return r.choice([
            # the timer
            lambda: store(r.randrange(256), 0x08), lambda: store(r.choice([0x08, 0x0C, 0x1C, 0x1F, 0x04, 0x01]), 0x08), lambda: soon,
            lambda: bytes([0x96, 0x08, 0xDC, 0x0B, 0xC3]) + big(r.choice([5, 20, 100, 1000])) + bytes([0xDD, 0x0B]),
            lambda: store(r.randrange(256) | 2, 1) + store(r.randrange(8), 8) + soon + bytes([1] * 9 + [0xD6, 0x03]),
            lambda: bytes([0x97, 0x09]), lambda: bytes([0xDC, 0x08]), lambda: bytes([0x96, 0x08, 0xDC, 0x0D]), lambda: bytes([0x96, 0x08, 0x96, 0x0E]),
            lambda: bytes([0x96, 0x08, 0x97, r.choice([0x0B, 0x0C]), 0xD6, 0x08]), lambda: bytes([0xD7, r.choice([0x0B, 0x0C]), 0x96, 0x08]),
            lambda: bytes([0x97, 0x09, 1, 1, 1]) + store(0x19, 0x08) + bytes([0x9D, 0x08, 0xDC, 0x09]) if self.daring else bytes([0x97, 0x09]),
            lambda: store(0x08, 0x08) + soon + bytes([0x0E, 0x3E]),
            # the serial interface
            lambda: store(r.randrange(256), 0x11), lambda: store(r.choice([0x02, 0x0A, 0x1A, 0x1E, 0x06, 0x18, 0x08, 0x08, 0x0B, 0x09]), 0x11),
            lambda: store(r.choice([0, 0, 1, 2, 3]), 0x10), lambda: store(r.randrange(256), 0x13), lambda: bytes([0x96, 0x11, 0x97, 0x13]),
            lambda: bytes([0x96, 0x11, 0xD6, 0x12, 0x96, 0x11]), lambda: bytes([0xD6, 0x12]), lambda: bytes([0x96, 0x11]),
            lambda: bytes([0x7F, 0, 0x11, 0x97, 0x13]) + store(2, 0x11),
            # ports, RAM control, any register
            lambda: store(r.randrange(256), r.choice([0, 1, 2, 3, 0x14, 0x14])), lambda: store(r.choice([0x00, 0x40, 0x80, 0xC0]), 0x14),
            lambda: bytes([0x96, at]), lambda: bytes([0xD6, r.choice([2, 3, 0x14])]),
            lambda: bytes([r.choice([0x70, 0x73, 0x74, 0x78, 0x7A, 0x7C, 0x7D, 0x7F, 0x7F]), 0, at]),
            lambda: bytes([0xCC, 0x39, 0x39, 0xDD, memory, 0x9D, memory]) if memory < self.read_only else bytes([0xDD, memory]),
            lambda: bytes([0xCE]) + big(at) + bytes([r.choice([0x60, 0x63, 0x64, 0x68, 0x6A, 0x6C, 0x6D, 0x6F]), 0]),
            lambda: bytes([0x8E]) + big(at) + bytes([r.choice([0x36, 0x37, 0x3C, 0x32, 0x33, 0x38])] * r.choice([1, 1, 2]) + [0x8E, 0, 0xF0]),
            lambda: bytes([0xCC, 0, 0xF0, 0xDD, 0x90, 0xCE, 0, 0x50]) + r.choice([bytes([0x9E, 0x90]), bytes([0xAE, 0x40]), bytes([0xBE, 0, 0x90])]),
            lambda: bytes([0xCE, 0, 0xF0, 0x35]), lambda: bytes([0xB7]) + big(edge) + bytes([0xF6]) + big(edge), lambda: bytes([0x0E]), lambda: bytes([0x0F]),
        ])()

    def stack(self):
        r = self.r
        return bytes([0x8E]) + big(r.randrange(5, 0x20) if r.random() < self.low else r.randrange(0x88, 0x100))

    def touch(self, places):
        """An instruction at one of these registers, by any way to it; what it reads may go to RAM."""
        r = self.r
        at = r.choice(places)
        op = r.choice([0x90, 0xD0]) + r.choice([0, 1, 2, 3, 4, 5, 6, 7, 8, 9, 10, 11, 12, 13, 14, 15, 3, 6, 7, 12, 14, 15])
        change = r.choice([0x0, 0x3, 0x4, 0x6, 0x7, 0x8, 0x9, 0xA, 0xC, 0xD, 0xF])
        if op in (0x9D, 0x9E):
            op += 0x40
        push = r.choice([b"\x36", b"\x37", b"\x3C", b"\x8D\x00"] + [b"\x0E\x3E", b"\x3E", b"\x3F"] * (self.low > 0.5))
        way = r.choice([
            bytes([op, at]), bytes([0xCE, 0, 0, op + 0x10, at]), bytes([op + 0x20, 0, at]),
            bytes([0xCE, 0, 0, 0x60 + change, at]), bytes([0x70 + change, 0, at]), bytes([0x8E, 0, at]) + push + self.stack(),
            bytes([0x8E, 0, at - 1, r.choice([0x32, 0x33, 0x38])]) + self.stack(),
            r.choice([bytes([0x9E, at]), bytes([0xCE, 0, 0, 0xAE, at]), bytes([0xBE, 0, at])]) + bytes([0x9F, r.randrange(0x80, 0xF0)]) + self.stack()])
        return way + r.choice([b"", bytes([r.choice([0xDD, 0xDF]), r.randrange(0x80, 0xF0)])])

    def moment(self):
        """Puts the compare register a few counts ahead, or the counter a few before its end, and touches registers about then."""
        r = self.r
        store = lambda v, at: bytes([0x86, v, 0x97, at])
        near = bytes([0xDC, 0x09, 0xC3, 0, r.randrange(7, 26), 0xDD, 0x0B])  # 9 is reached in the last cycle of the STD
        pushed = bytes([0xC6, r.randrange(7, 22), 0xDE, 0x09, 0x3A, 0x8E, 0, r.randrange(0x0B, 0x10), 0x3F if r.random() < self.low / 3 else 0x3C])
        before, places = r.choice([
            (b"", TIMED), (bytes([0x96, 0x08]), TIMED), (store(r.choice([0, 1, 8, 9, 4, 0x0C]), 8), TIMED),
            (store(2, 1) + store(r.randrange(2), 8), [0x02, 0x03, 0x03, 0x08])])
        count = r.randrange(3, 14)
        ahead = r.choice([bytes([0x96, 0x0A, 0x8B, count]), bytes([0xD6, 0x0A, 0xCB, count]), bytes([0xC6, count, 0xDE, 0x09, 0x3A])])
        set_up = r.choice([
            near, near, near + bytes([0x96, 0x08]) + near, near + bytes([0x97, 0x80, 0x96, 0x08]) + near, pushed + self.stack(), bytes([0x97, 0x09]), ahead])
        after = r.choice([b"", b"", bytes([0xD7, 0x0C, 0x96, 0x08, 0x97, r.randrange(0x80, 0xF0)])])
        return before + set_up + bytes([1]) * r.randrange(4) + b"".join(self.touch(places) for _ in range(r.choice([1, 1, 1, 2, 3]))) + after

    def calling(self, here):
        """A call of what follows it, with the stack at a timed register; in a timed program also SWI, or a wait that TOF ends."""
        r = self.r
        low = bytes([0x8E, 0, r.choice(TIMED)])
        if self.on_vectors and r.random() < 0.5:
            low = bytes([0x8E, 0]) + r.choice([bytes([r.randrange(0x08, 0x10), 0x01, 0x3F]), bytes([r.randrange(0x0A, 0x0E), 0x0E, 0x3E])])
            return bytes([0xCC]) + big(here + 16) + bytes([0xDD, 0x94, 0xCC, 0x0C, 0x0C, 0xCE, 0x0C, 0x0C]) + low + self.stack()
        return r.choice([
            low + bytes([0xBD]) + big(here + 6), low + bytes([0xCE]) + big(here + 8) + bytes([0xAD, 0]),
            bytes([0x86, 0x7E, 0x97, 0x90, 0xCC]) + big(here + 14) + bytes([0xDD, 0x91]) + low + bytes([0x9D, 0x90])]) + self.stack()

    def coded(self):
        """Executes the timer: TCSR as an opcode with the counter as its operand, or the counter's two bytes as both; RTS in the compare register ends it."""
        r = self.r
        returns = bytes([0xCC, 0x39, 0x39, 0xDD, 0x0B])
        if self.limit > 70000 and r.random() < 0.5:
            op = r.choice([op for op in DEFINED if op == 0x21 or op >= 0x80 and op not in (0x8D, 0x8E, 0x9D, 0x9E, 0xAD, 0xAE, 0xBD, 0xBE)])
            return returns + bytes([0x96, 0x09, 0x81, op, 0x26, 0xFA, 0x9D, 0x09])
        op = r.choice([0x70, 0x73, 0x74, 0x76, 0x79, 0x7A, 0x7C, 0x7D, 0x7F] + [0x83, 0x8C, 0xC3, 0xCC, 0xCE, 0xB1, 0xB6, 0xB7, 0xF3, 0xF9, 0xFC, 0xFE])
        both = bytes([0xCC, 0xFF, 0xFF, 0xDD, 0x0B, 0x97, 0x09]) + bytes([1]) * 4  # sets TOF and OCF
        return r.choice([both, both, b""]) + returns + bytes([0x86, op & 31, 0x97, 0x08, 0x96, 0x08, 0x81, op, 0x26, 2, 0x9D, 0x08])

    def some(self):
        r = self.r
        if r.random() < self.moments:
            return r.choice([self.moment] * 14 + [self.coded] * 2 + [lambda: r.choice(RETURNS)] + [lambda: 0xBD] * 3)()
        return self.device() if r.random() < self.devices else self.operation() if r.random() < 0.2 else self.instruction()

    def body(self):
        """Code that goes anywhere, and where its instructions begin."""
        r = self.r
        items = [bytes([1]) * (self.page * 257 - self.start)] + [self.stack()] * (self.low > 0)
        while sum(self.width(i) for i in items) < self.size:
            items.append(bytes([r.randrange(256)]) if r.random() < self.wild / 4 else self.some())
        starts, at = [], self.start
        for i in items:
            starts.append(at)
            at += self.width(i)
        out = b""
        for at, i in zip(starts, items):
            out += i if isinstance(i, bytes) else self.aimed(i, at, starts)
        self.size = len(out)
        return out + bytes([0x7E]) + big(r.choice(starts)), starts

    @staticmethod
    def width(item):
        return len(item) if isinstance(item, bytes) else 12 if item in RETURNS else 5 if item in (0x6E, 0xAD) else 3 if item in (0x7E, 0xBD) else 2

    def aimed(self, op, at, starts):
        if op in RETURNS:
            return bytes([0xCC]) + big(self.r.choice(starts)) + bytes([0xDD, 0x0B, 0x8E, 0, 0x0A if op == 0x39 else 0x05, op, 0x8E, 0, 0xF0])
        if op in (0x6E, 0xAD):
            offset = self.r.choice([0, 1, 0x80, 0xFF])
            return bytes([0xCE]) + big(self.r.choice(starts) - offset) + bytes([op, offset])
        if op in (0x7E, 0xBD):
            return bytes([op]) + big(self.r.choice(starts))
        return bytes([op, (self.r.choice([s for s in starts if -128 <= s - at - 2 <= 127]) - at - 2) & 255])

    def probes(self):
        """Looks at what a reset left, in any order."""
        r = self.r
        every = ["9614", "86029701D603", "86FF9700D602", "D7139611", "DC0D", "9612", "DC0B", "DC09", "D70B9608", "DE03", "9D0F", "86029711", "9611"]
        return [bytes.fromhex(one) for one in r.sample(every, r.randrange(6)) if one != "9D0F" or r.random() < self.daring]

    def straight(self, between):
        r = self.r
        self.low = 0
        out = bytes([0x8E]) + big(r.choice([0xFF, 0xF0] + [0x1FF] * (self.read_only > 0x1FF)))
        out += b"".join(probe + between for probe in self.probes())
        out += bytes([0x86, r.choice([0x08, 0x08, 0x18, 0x09, 0x0A]), 0x97, 0x11]) * r.choice([0, 1, 1])
        while len(out) < self.size:
            item = self.some()
            if not isinstance(item, bytes):
                here = self.start + len(out)
                item = bytes([item, 0]) if self.width(item) == 2 else self.aimed(item, 0, [here + 9]) if item in RETURNS else self.calling(here)
            if not (item and item[0] in RARE) or r.random() < self.daring:
                out += item + between
        return out

    def handlers(self):
        """A handler that answers every cause that a program can answer, and for each vector a way into it that is marked in $00F9."""
        at = self.start - 192
        move = bytes([0xDC, 0x0B, 0xC3]) + big(self.r.choice([30, 200, 3000] if self.limit <= 150000 else [2000, 40000, 65535])) + bytes([0xDD, 0x0B])
        answer = bytes([0x96, 0x08]) + move + bytes([0x96, 0x09, 0x96, 0x0D, 0x96, 0x11, 0x97, 0x13, 0x96, 0x12, 0x3B])
        ways = [bytes([0xD6, 0xF9, 0x58, 0xCB, cause, 0xD7, 0xF9, 0x7E]) + big(at) for cause in (1, 3, 5, 7, 11, 13, 17)]
        return load(at, answer.ljust(50, bytes([1])) + b"".join(ways)), [at + 50 + 10 * i for i in range(7)]

    def folded(self):
        """Goes straight on, then folds $00 to $2FF, itself and $80 to $FF of either memory into the registers and waits, so that what it did shows."""
        out = self.straight(b"")
        fold = lambda first, past: bytes([0xCE]) + big(first) + bytes([0xE8, 0, 0x59, 0xA9, 0, 0x49, 8, 0x8C]) + big(past) + bytes([0x26, 0xF4])
        out += bytes([0x0F]) + fold(0, self.r.choice([0x140, 0x300])) + fold(self.start, self.start + len(out))
        clear, set_both = bytes([0x7F, 0, 0x14]), bytes([0x7F, 0, 0x14, 0x73, 0, 0x14])  # CLR $14; then COM $14
        out += b"".join(switch + fold(0x80, 0x100) for switch in self.r.sample([clear, set_both], 2))
        out += bytes([0xDE, 0x80, 0x3E])
        self.size = len(out)
        return out

    def traced(self):
        """Goes straight on, after each instruction folds all registers and codes into $00F8, and at the end waits with that in X."""
        self.size = min(self.size, 600, 40 + self.limit // 10)
        turn = b"".join(bytes([0xE3, i, 0x58, 0x49, 0xC9, 0]) for i in (0, 2, 3))
        fold = bytes.fromhex("36373C073630DCF8") + turn + bytes.fromhex("DDF8320638333239")
        out = self.straight(bytes([0xBD]) + big(self.start - 64)) + bytes([0x0F, 0xDE, 0xF8, 0x3E])
        self.size = len(out)
        return fold, out

    def timed(self):
        """A trace of little else than moments, short enough to come to its end; its vectors lead to where $0094 says."""
        self.size, self.moments, self.devices, self.daring, self.on_vectors = 400, 0.8, 0.05, 0, True
        return self.traced()

    def sender(self):
        """Sends without end, so that the output has no room at last."""
        head = bytes([0x86, self.r.choice([0x02, 0x02, 0x06, 0x0A]), 0x97, 0x11])
        between = bytes(self.r.choice([0x01, 0x08, 0x4C, 0x5A, 0x36, 0x32]) for _ in range(self.r.randrange(20)))
        return head + bytes([0x96, 0x11, 0xD7, 0x13]) + between + bytes([0x7E]) + big(self.start + len(head))

    def waiter(self):
        """Sets the units up in some way, then waits again and again."""
        r = self.r
        set_up = bytes([0x8E, 0x00, 0xF0]) + b"".join(
            bytes([0x86, v, 0x97, at]) for v, at in r.sample([
                (r.choice([0x08, 0x0C, 0x1E, 0x1C, 0x00, 0x04]), 0x08), (r.choice([0x08, 0x18, 0x1A, 0x0A, 0x02, 0x19]), 0x11), (r.randrange(4), 0x10),
                (r.randrange(256), 0x0B), (r.randrange(256), 0x0C), (0x02, 0x01)], r.randrange(1, 7)))
        again = r.choice(["0E3E", "0E3E9611D713", "3E", "0E3ED603"])
        return set_up + bytes.fromhex(again) + bytes([0x7E]) + big(self.start + len(set_up))

    def loads(self):
        r = self.r
        way, starts, data = r.random(), [self.start], b""
        if self.limit > 150000 or way < 0.05:
            code = self.waiter()
        elif self.limit > 40000 and r.random() < 0.3:
            code = self.sender()
        elif way < 0.25:
            code = self.folded()
        elif way < 0.65:
            fold, code = self.timed() if self.limit > 3000 and r.random() < 0.8 else self.traced()
            data += load(self.start - 64, fold)
        else:
            code, starts = self.body()
        data += load(self.start, code)
        if r.random() < 0.9:
            data += load(0x20, bytes([self.page]) * 0xE3 + bytes([0x7E]) + big(self.start))
        if r.random() < 0.2:
            data += load(0x00, bytes(r.choice(DEFINED) for _ in range(r.choice([0x20, 0x80]))))
        if r.random() < 0.1:
            data += load(r.randrange(65000), bytes(r.randrange(256) for _ in range(r.randrange(1, 200))))
        if r.random() < 0.2:
            data += load(0xFF00, bytes(r.choice(DEFINED) for _ in range(200)))
        if r.random() < 0.03:
            return data + load(0xFFF0, bytes(r.randrange(256) for _ in range(16)))
        first = r.randrange(0x20) if r.random() < 0.03 else r.choice([self.start, r.choice(starts)])
        vectors = [r.choice(starts) for _ in range(7)]
        if self.on_vectors:
            vectors = [self.start - 192] * 7
            data += load(self.start - 192, bytes([0x8E, 0x00, 0xF0, 0xDE, 0x94, 0x6E, 0x00])) + load(0x94, big(self.start))
        elif len(starts) == 1 or r.random() < 0.5:
            more, vectors = self.handlers()
            data += more
        return data + load(0xFFF0, b"".join(map(big, vectors)) + big(first))


def record(r, time):
    kind = r.choice([1, 2, 2, 2, 3, 4, 5, 5, 5, 6, 6, 7])
    payload = {
        1: lambda: [r.randrange(256)], 2: lambda: [r.randrange(32)], 3: lambda: [r.random() < 0.8], 4: lambda: [],
        5: lambda: [r.choice([0x39, r.randrange(256)]), r.random() < 0.8], 6: lambda: [], 7: lambda: []}[kind]()
    return little(6 + len(payload), 2) + little(kind, 2) + little(time, 4) + bytes(int(b) for b in payload)


def session(r, limit):
    out, time = [], r.choice([0, 0, r.randrange(50)])
    gap = r.choice([1, 10, 100, 1000, max(1, limit // 10)])
    for _ in range(r.choice([0, 0, 1, 3, 10, 40, 150])):
        out.append(record(r, time))
        time = min(0xFFFFFFFF, time + r.choice([0, r.randrange(gap + 1)]))
    if out and r.random() < 0.15:
        out = spoiled(r, out)
    return b"".join(out)


def spoiled(r, records):
    """A session with one thing wrong, or perhaps wrong."""
    i = r.randrange(len(records))
    one = bytearray(records[i])
    way = r.randrange(8)
    if way == 0:
        one[0:2] = little(r.choice([0, 1, 2, 5, 6, 7, 8, 9, 40, 65535]), 2)
    elif way == 1:
        one[2:4] = little(r.choice([0, 1, 2, 3, 4, 5, 6, 7, 8, 9, 10, 11, 256, 258, 65535]), 2)
    elif way == 2:
        one[4:8] = little(r.choice([0, 1, r.randrange(2 ** 32), 0xFFFFFFFF]), 4)
    elif way == 3:
        one[-1] = r.choice([0, 1, 2, 31, 32, 63, 255])
    elif way == 4:
        one[r.randrange(len(one))] = r.randrange(256)
    elif way == 5:
        one += bytes(r.randrange(256) for _ in range(r.randrange(1, 4)))
    elif way == 6:
        return records[:i] + [bytes(one[:r.randrange(len(one))])]
    else:
        return [bytes(one)] + records
    return records[:i] + [bytes(one)] + records[i + 1:]


def made(r):
    limit = r.randrange(3000000) if r.random() < 0.03 else r.choice(
        [r.randrange(200), r.randrange(3000), r.randrange(20000), r.randrange(20000), r.choice([r.randrange(150000), 150000]) if r.random() < 0.3 else 500])
    read_only = r.choice(
        [65536, 65536, 57344, 0, r.randrange(65537), r.randrange(0x200, 0x300), r.randrange(0x100),
         r.choice([4, 5, 6, 7, 8, 15, 16, 0x20, 0x80, 0x81, 0xA0, 0xC0, 0xFF, 0x100])])
    head = Code(r, limit, read_only).loads()
    p = r.random()
    if p < 0.01:
        read_only = r.choice([65537, 2 ** 32 - 1, 2 ** 31])
    elif p < 0.02:
        limit = r.choice([1000000001, 2 ** 32 - 1])
    if r.random() < 0.03:
        head = bytearray(head)
        for _ in range(r.randrange(1, 4)):
            head[r.choice([0, 1, 2, 3, 4, 5, r.randrange(len(head))])] = r.choice([0, 1, 4, 5, 9, 10, 255, r.randrange(256)])
        head = bytes(head)
    whole = head + run_record(limit, read_only) + session(r, limit)
    p = r.random()
    if p < 0.01:
        whole = whole[:r.randrange(len(whole))]
    elif p < 0.015:
        whole = load(0x4000, bytes(r.choice([16366, 16367, 16340]))) + whole
        whole = whole[:r.choice([16383, 16384, 16385, 20000])]
    return whole[:20000]


def loader():
    """What the bench program's file follows on a command line."""
    return subprocess.run(["sh", str(ROOT / "tools/launch.sh"), "--words"], capture_output=True, text=True, check=True).stdout.splitlines()


def lines(program, data):
    return subprocess.run(program, input=data, capture_output=True, check=True).stdout


def main():
    count = int(sys.argv[1]) if len(sys.argv) > 1 else 2000
    seed = int(sys.argv[2]) if len(sys.argv) > 2 else 1
    WORK.mkdir(parents=True, exist_ok=True)
    plain = [str(WORK / "emulator-here")]
    subprocess.run(["cc", "-std=c11", "-O2", "-o", plain[0], str(ROOT / "benchmarks/emulator.c")], check=True)
    many = loader() + [str(ROOT / "target/bin/bench_cases")]
    one = loader() + [str(ROOT / "target/bin/bench")]
    r = random.Random(seed)
    inputs = [made(r) for _ in range(count)]
    stops, differ, done = {}, 0, 0
    while done < count:
        batch, size = [], 0
        while done + len(batch) < count and size + 2 + len(inputs[done + len(batch)]) <= BATCH:
            size += 2 + len(inputs[done + len(batch)])
            batch.append(inputs[done + len(batch)])
        ours = lines(many, b"".join(little(len(i), 2) + i for i in batch)).splitlines(keepends=True)
        ours += [b""] * (len(batch) - len(ours))
        for k, (data, line) in enumerate(zip(batch, ours)):
            theirs = lines(plain, data)
            stop = b" ".join(line.split()[:2]).decode()
            stops[stop] = stops.get(stop, 0) + 1
            alone = lines(one, data) if (done + k) % 50 == 0 else line
            if alone != line:
                line = alone
            if line != theirs:
                differ += 1
                kept = WORK / f"differ-{seed}-{done + k}.in"
                kept.write_bytes(data)
                print(f"{kept}\n  ours {line.decode().strip()}\n  C    {theirs.decode().strip()}")
        done += len(batch)
    print(" ".join(f"[{k}: {v}]" for k, v in sorted(stops.items())))
    print(f"inputs {done} differ {differ}")


main()
