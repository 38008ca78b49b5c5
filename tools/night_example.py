#!/usr/bin/env python3
"""Makes the example night's files from night/example.txt: crates/night/data/image (65,536 bytes) and crates/night/data/session.

    python3 tools/night_example.py
"""
import pathlib
import sys

ROOT = pathlib.Path(__file__).resolve().parent.parent
sys.path.insert(0, str(ROOT / "tools"))
from bench_input import assembled  # noqa: E402


def main():
    image = bytearray(65536)
    session = b""
    for line in (ROOT / "night/example.txt").read_text().splitlines():
        words = line.split("#")[0].split()
        if not words:
            continue
        if words[0] == "load":
            at = int(words[1], 16)
            code = bytes(int(w, 16) for w in words[2:])
            image[at:at + len(code)] = code
        else:
            session += assembled(" ".join(words))
    data = ROOT / "crates/night/data"
    data.mkdir(exist_ok=True)
    (data / "image").write_bytes(image)
    (data / "session").write_bytes(session)


if __name__ == "__main__":
    main()
