#!/usr/bin/env python3
"""Assembles inputs of the bench program from a readable form.

    python3 tools/bench_input.py FILE       writes the input of FILE to standard output
    python3 tools/bench_input.py --all      writes crates/bench/stdin and stdout from bench/example.txt, and
                                            crates/bench_cases/stdin and stdout from bench/cases.txt

A line of an input is a record, or raw bytes; numbers in hexadecimal but for N, R and times, which are decimal:

    load ADDRESS BYTE ..        run N R              port1 TIME BYTE      port2 TIME BYTE      irq1 TIME LEVEL
    nmi TIME                    received TIME BYTE STOP                   idle TIME            reset TIME
    bytes BYTE ..               bytes as they are, for inputs that no record makes
    fill COUNT BYTE             so many bytes, the count in decimal; `load ADDRESS fill COUNT BYTE` loads them

A line that begins with '=' is the line that the program is to print. In bench/cases.txt each input begins with a line
`case NAME`; '#' begins a comment.
"""
import pathlib
import sys

ROOT = pathlib.Path(__file__).resolve().parent.parent
KINDS = {"port1": 1, "port2": 2, "irq1": 3, "nmi": 4, "received": 5, "idle": 6, "reset": 7}


def little(n, width):
    return n.to_bytes(width, "little")


def data(words):
    if words and words[0] == "fill":
        return bytes([int(words[2], 16)]) * int(words[1])
    return bytes(int(w, 16) for w in words)


def record(kind, payload):
    return little(2 + len(payload), 2) + little(kind, 2) + payload


def assembled(line):
    word, *rest = line.split()
    if word == "load":
        return record(9, little(int(rest[0], 16), 2) + data(rest[1:]))
    if word == "run":
        return record(10, little(int(rest[0]), 4) + little(int(rest[1]), 4))
    if word == "bytes":
        return data(rest)
    if word == "fill":
        return data([word] + rest)
    return record(KINDS[word], little(int(rest[0]), 4) + data(rest[1:]))


def read(path):
    """The inputs of a file, each with its line."""
    found = []
    for line in path.read_text().splitlines():
        line = line.split("#")[0].strip()
        if line.startswith("case ") or (line and not found):
            found.append([b"", ""])
        if line.startswith("="):
            found[-1][1] = line[1:].strip() + "\n"
        elif line and not line.startswith("case "):
            found[-1][0] += assembled(line)
    return found


def main():
    if sys.argv[1:] != ["--all"]:
        sys.stdout.buffer.write(read(pathlib.Path(sys.argv[1]))[0][0])
        return
    [(example, line)] = read(ROOT / "bench/example.txt")
    (ROOT / "crates/bench/stdin").write_bytes(example)
    (ROOT / "crates/bench/stdout").write_text(line)
    cases = read(ROOT / "bench/cases.txt")
    (ROOT / "crates/bench_cases/stdin").write_bytes(b"".join(little(len(i), 2) + i for i, _ in cases))
    (ROOT / "crates/bench_cases/stdout").write_text("".join(line for _, line in cases))


if __name__ == "__main__":
    main()
