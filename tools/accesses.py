#!/usr/bin/env python3
"""Holds the order of accesses seen on an independent emulator against the table of access cycles.

    python3 tools/accesses.py hd6803.txt hd6803-daa.txt

The files are those that tools/vectors.py reads; a case there has its accesses in order, R or W with address and value. For each
case it looks whether they are as many as the opcode's row of crates/timing/specs/Table.antt has cycles, whether the last cycle
lies within those that the emulator took, and whether they come in the order in which the row is read: the instruction's own
bytes, then the data, high byte first, and pushed low byte first. That emulator's CLR (6F, 7F) does not read; 01's reads first, and
its read is put in. The last line says how many cases there were and how many differ.
"""
import pathlib
import re
import sys

ROOT = pathlib.Path(__file__).resolve().parent.parent / "crates"
ENTRIES = {"internalEntry": "Internal Inherent", "inherentEntry": "{} Inherent", "branchEntry": "Branch Relative", "monadicEntry": "Monadic {}",
           "dyadicEntry": "Dyadic {}", "wideEntry": "Wide {}", "wideStoreEntry": "WideStore {}"}
PLACES = "Inherent AccumulatorA AccumulatorB ImmediateByte ImmediateWord Direct Indexed Extended Relative".split()
FIXED = {"Inherent": [1], "AccumulatorA": [1], "AccumulatorB": [1], "ImmediateByte": [1, 2], "ImmediateWord": [1, 2, 3], "Relative": [1, 2]}


def opcodes():
    """Each opcode's operation and place, by the map."""
    found = []
    text = (ROOT / "opcodes/specs/Opcodes.antt").read_text()
    for row in re.findall(r"^row\w =\n(.*?)∷ \[\]$", text, re.S | re.M):
        for entry in row.split("∷"):
            words = entry.replace("(", " ").replace(")", " ").split()
            place = next((word for word in words if word in PLACES), None)
            if words[0] in ENTRIES:
                named = ENTRIES[words[0]].format(words[1] if words[0] == "inherentEntry" else place)
            else:
                named = " ".join([words[1], place]) if words[0] == "is" else None
            found.append(tuple(named.split()) if named else None)
    return found


def table():
    """Each operation's row: one list, or those of the direct, the indexed and the extended place."""
    text = (ROOT / "timing/specs/Table.antt").read_text()
    stacking = cycles(re.search(r"^stacking rest = (.*) ∷ rest$", text, re.M).group(1))
    rows = {}
    for operation, row in re.findall(r"^accessCycles \(?(\w+).* place = (.*)$", text, re.M):
        if row.startswith("placed"):
            rows[operation] = dict(zip(("Direct", "Indexed", "Extended"), map(cycles, re.findall(r"\([^)]*\)|\[\]", row))), **FIXED)
        elif "stacking" in row:
            rows[operation] = {"Inherent": [1, *stacking, *cycles(row)[1:]]}
        else:
            rows[operation] = {place: cycles(row) for place in ("Inherent", "Relative")}
    return rows


def cycles(text):
    return [int(number) for number in re.findall(r"\d+", text)]


def order(operation, place, pc, sp, seen):
    """The accesses in the order that is meant, R or W and address; what is computed of a register and an offset is taken from what was seen."""
    own = [("R", pc + k) for k in range(1 + {"ImmediateByte": 1, "ImmediateWord": 2, "Direct": 1, "Indexed": 1, "Extended": 2, "Relative": 1}.get(place, 0))]
    data = seen[len(own)][1] if len(seen) > len(own) else 0
    pushed = lambda count: [("W", sp - k) for k in range(count)]
    pulled = lambda count: [("R", sp + 1 + k) for k in range(count)]
    memory = place in ("Direct", "Indexed", "Extended")
    rest = {"Dyadic": [("R", data)] * memory, "Tst": [("R", data)] * memory, "Sta": [("W", data)], "Monadic": [("R", data), ("W", data)] * memory,
            "Wide": [("R", data), ("R", data + 1)] * memory, "WideStore": [("W", data), ("W", data + 1)], "Psh": pushed(1), "Pul": pulled(1),
            "Pshx": pushed(2), "Jsr": pushed(2), "Bsr": pushed(2), "Pulx": pulled(2), "Rts": pulled(2), "Rti": pulled(7), "Wai": pushed(7),
            "Swi": pushed(7) + [("R", 0xFFFA), ("R", 0xFFFB)]}.get(operation, [])
    return [(kind, at % 65536) for kind, at in own + rest]


def main():
    known, rows, cases, differ = opcodes(), table(), 0, 0
    for path in sys.argv[1:]:
        for line in pathlib.Path(path).read_text().splitlines():
            if line.startswith("#") or not line.strip():
                continue
            opcode, before, accesses, _, took = line.split("|")
            operation, place = known[int(opcode, 16)]
            pc, sp = (int(before.split()[k], 16) for k in (0, 4))
            seen = [(access[0], int(access[1:5], 16)) for access in accesses.split()]
            if opcode in ("6F", "7F"):
                seen.insert(-1, ("R", seen[-1][1]))
            listed = rows[operation][place]
            cases += 1
            if len(listed) != len(seen) or listed[-1] > int(took.split()[0].rstrip("w")) or order(operation, place, pc, sp, seen) != seen:
                differ += 1
                print(line, listed, order(operation, place, pc, sp, seen))
    print(f"cases {cases} differ {differ}")


if __name__ == "__main__":
    main()
