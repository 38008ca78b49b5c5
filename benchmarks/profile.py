#!/usr/bin/env python3
"""Where the bench program's instructions go: the share of each function on a workload.

    python3 benchmarks/profile.py [WORKLOAD [BLOCKS]]      straight unless named; also the BLOCKS hottest runs of instructions

benchmarks/measure.sh comes first: it builds the counting plugin and makes the inputs. Start-up cancels: the counts are the
difference of the two run lengths that measure.sh takes. Needs nm and objdump for x86-64 (binutils-x86-64-linux-gnu).
"""
import collections
import os
import pathlib
import platform
import re
import subprocess
import sys

ROOT = pathlib.Path(__file__).resolve().parent.parent
WORK = ROOT / "target/benchmarks"
PROGRAM = ROOT / "target/bin/bench"
PREFIX = "" if platform.machine() == "x86_64" else "x86_64-linux-gnu-"


def run(data):
    """Times each instruction run of the program was executed, by its address in the file and length; and the line's numbers."""
    rows = WORK / "rows"
    own = {**os.environ, "ICOUNT_OUT": str(rows), "EMULATOR": f"qemu-x86_64 -E LD_DEBUG=files -plugin {WORK / 'libicount.so'}"}
    words = subprocess.run(["sh", str(ROOT / "tools/launch.sh"), "--words"], capture_output=True, text=True, env=own, check=True).stdout
    done = subprocess.run([*words.splitlines(), str(PROGRAM)], input=data, capture_output=True, env=own, check=True)
    link = re.search(r"file=\S*bin/bench \[0\];\s+generating link map.*?base: (\S+)", done.stderr.decode(), re.S)
    base = int(link.group(1), 16)
    counts = collections.Counter()
    for line in rows.read_text().splitlines():
        at, length, times = line.split()
        counts[int(at, 16) - base, int(length)] += int(times)
    words = done.stdout.decode().split()
    return counts, {words[i]: words[i + 1] for i in range(0, len(words), 2)}


def symbols():
    out = subprocess.run([PREFIX + "nm", "-S", "--defined-only", str(PROGRAM)], capture_output=True, text=True, check=True).stdout
    found = []
    for line in out.splitlines():
        words = line.split(None, 3)
        if len(words) == 4 and words[2] in "tT":
            found.append((int(words[0], 16), int(words[1], 16), words[3]))
    return found


def main():
    workload = sys.argv[1] if len(sys.argv) > 1 else "straight"
    blocks = int(sys.argv[2]) if len(sys.argv) > 2 else 0
    short, long = 1000000, 3000000 if workload == "waits" else 2000000
    first, line_first = run((WORK / f"{workload}.{short}.in").read_bytes())
    second, line_second = run((WORK / f"{workload}.{long}.in").read_bytes())
    instructions = int(line_second["instr"]) - int(line_first["instr"])
    second.subtract(first)
    functions, table = collections.Counter(), symbols()
    place = lambda at: next((name for start, size, name in table if start <= at < start + size), "elsewhere")
    for (at, length), times in second.items():
        functions[place(at)] += length * times
    total = sum(functions.values())
    print(f"{workload}: {total} executed for {instructions} instructions, {total / instructions:.1f} each")
    for name, n in functions.most_common():
        if n > 0:
            print(f"{100 * n / total:6.2f}% {n / instructions:9.2f}  {name}")
    for (at, length), times in sorted(second.items(), key=lambda i: -i[0][1] * i[1])[:blocks]:
        print(f"\n{at:x} {place(at)}: {length} instructions, {times / instructions:.3f} times each")
        text = subprocess.run([PREFIX + "objdump", "-d", "--no-show-raw-insn", f"--start-address={at}", f"--stop-address={at + 16 * length}", str(PROGRAM)],
                              capture_output=True, text=True, check=True).stdout
        print("\n".join([line for line in text.splitlines() if re.match(r"\s+[0-9a-f]+:\t", line)][:length]))


main()
