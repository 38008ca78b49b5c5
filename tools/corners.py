#!/usr/bin/env python3
"""Makes the rows of the program `corners` and the answers that 01 gives, from docs/CASES.md.

    python3 tools/corners.py        writes crates/corners/stdin and crates/corners/stdout

The single rows of the page's tables are taken as they stand. Those of $00 to $1F are worked out here from 01's words on each
register, which the page's table of the registers repeats, and from the cycle of each access in 004's table 12. A row is its
name (24 columns), R, the number of instructions, and the code.
"""
BEFORE = {
    "pc": 0x1000, "a": 0xB6, "b": 0x5D, "cc": 0xD0, "direction1": 0x0F, "latch1": 0x3C, "direction2": 0x13, "latch2": 0x11,
    "tcsr": 0xEA, "tof-armed": 0, "ocf-armed": 0, "icf-armed": 0, "counter": 0x1234, "compare": 0x5678, "level": 1,
    "trcs": 0xF5, "tdre-armed": 0, "orfe-armed": 0, "rdrf-armed": 0, "rate": 9, "transmit": 0x2C, "rame": 1, "standby": 0,
}
DIGITS = {"pc": 4, "counter": 4, "compare": 4, "level": 1, "rame": 1, "standby": 1}
READS = {0x02: 0xAC, 0x0D: 0x9A, 0x0E: 0xBC, 0x12: 0x6B, 0x14: 0x40}
MEMORY = {0x04, 0x05, 0x06, 0x07, 0x0F, 0x20}
BIT = {"tof": ("tcsr", 0x20), "ocf": ("tcsr", 0x40), "icf": ("tcsr", 0x80),
       "tdre": ("trcs", 0x20), "orfe": ("trcs", 0x40), "rdrf": ("trcs", 0x80)}


class Row(dict):
    """All that an answer shows, as of now, and how many of the instruction's cycles have passed."""
    gone = 0

    def come_to(self, cycle):
        """The state that an access in this cycle meets: the cycles before it have passed."""
        while self.gone < cycle - 1:
            self.gone += 1
            self["counter"] = (self["counter"] + 1) % 65536
            if self["counter"] == self["compare"]:
                self["tcsr"] |= 0x40
                self["level"] = self["tcsr"] % 2
            if self["counter"] == 0xFFFF:
                self["tcsr"] |= 0x20


def arm(now, *flags):
    """Reading TCSR or TRCS arms each flag then set; all are."""
    for flag in flags:
        now[flag + "-armed"] = 1


def clear(now, *flags):
    """An armed flag clears, and clearing disarms. An unarmed access leaves the flag."""
    for flag in flags:
        if now[flag + "-armed"]:
            register, bit = BIT[flag]
            now[register] -= bit
            now[flag + "-armed"] = 0


def held(now, at):
    """What an address holds; those not named here read FF."""
    moving = {0x03: 0xBD + 2 * now["level"], 0x08: now["tcsr"], 0x09: now["counter"] // 256, 0x0A: now["counter"] % 256,
              0x0B: now["compare"] // 256, 0x0C: now["compare"] % 256, 0x11: now["trcs"]}
    return at if at in MEMORY else moving.get(at, READS.get(at, 0xFF))


def read(now, cycle, at):
    now.come_to(cycle)
    value = held(now, at)
    if at == 0x08:
        arm(now, "tof", "ocf", "icf")
    if at == 0x09:
        clear(now, "tof")
    if at == 0x0D:
        clear(now, "icf")
    if at == 0x11:
        arm(now, "tdre", "orfe", "rdrf")
    if at == 0x12:
        clear(now, "rdrf", "orfe")
    return value


def write(now, cycle, at, v):
    now.come_to(cycle)
    if at in MEMORY:
        now[f"[{at:04x}]"] = v
    whole = {0x00: "direction1", 0x02: "latch1", 0x13: "transmit"}
    if at in whole:
        now[whole[at]] = v
    if at == 0x01:
        now["direction2"] = v % 32
    if at == 0x03:
        now["latch2"] = v % 32
    if at == 0x08:
        now["tcsr"] = now["tcsr"] // 32 * 32 + v % 32
    if at == 0x09:
        now["counter"] = 0xFFF8
    if at == 0x0B:
        now["compare"] = v * 256 + now["compare"] % 256
        clear(now, "ocf")
    if at == 0x0C:
        now["compare"] = now["compare"] // 256 * 256 + v
        clear(now, "ocf")
    if at == 0x10:
        now["rate"] = v % 16
    if at == 0x11:
        now["trcs"] = now["trcs"] // 32 * 32 + v % 32
    if at == 0x13:
        clear(now, "tdre")
    if at == 0x14:
        now["rame"], now["standby"] = v // 64 % 2, v // 128


def codes(value, top):
    """D0 with N and Z of a value, whose sign bit is top; no value here is 7F plus one."""
    return 0xD0 + 8 * (value >= top) + 4 * (value == 0)


def ldaa(now, at):
    now["a"] = read(now, 3, at)
    now["cc"] = codes(now["a"], 0x80)


def staa(now, at):
    write(now, 3, at, now["a"])
    now["cc"] = codes(now["a"], 0x80)


def inc(now, at):
    v = (read(now, 4, at) + 1) % 256
    write(now, 6, at, v)
    now["cc"] = codes(v, 0x80)


def ldd(now, at):
    now["a"] = read(now, 3, at)
    now["b"] = read(now, 4, at + 1)
    now["cc"] = codes(now["a"] * 256 + now["b"], 0x8000)


def std(now, at):
    write(now, 3, at, now["a"])
    write(now, 4, at + 1, now["b"])
    now["cc"] = codes(now["a"] * 256 + now["b"], 0x8000)


def answer(work, at, length, cycles):
    now = Row(BEFORE)
    work(now, at)
    now.come_to(cycles + 1)
    now["pc"] += length
    changes = [f"{name} {v:0{DIGITS.get(name, 1 if 'armed' in name else 2)}x}" for name, v in now.items() if BEFORE.get(name) != v]
    return " ".join([f"cycles {cycles}"] + changes)


def registers():
    families = [("LDAA", ldaa, "96", 3), ("STAA", staa, "97", 3), ("INC", inc, "7C 00", 6), ("LDD", ldd, "DC", 4), ("STD", std, "DD", 4)]
    for name, work, opcode, cycles in families:
        for at in range(0x20):
            code = f"{opcode} {at:02X}"
            yield f"{name} {at:04X}", "10000", "1", code, answer(work, at, len(code.split()), cycles)


def singles():
    with open("docs/CASES.md") as page:
        for line in page:
            cells = [cell.strip() for cell in line.strip().strip("|").split("|")]
            if len(cells) == 6 and cells[2].isdigit():
                yield cells[:5]


with open("crates/corners/stdin", "w") as rows, open("crates/corners/stdout", "w") as answers:
    for name, start, steps, code, text in [*registers(), *singles()]:
        rows.write(f"{name:24}{start} {steps} {code}\n")
        answers.write(f"{name:24}{text}\n")
