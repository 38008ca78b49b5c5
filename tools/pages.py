#!/usr/bin/env python3
"""Holds README.md and docs/ to the tree: the files that they name must exist, and the declarations and edits that stand beside a
file's or a crate's name, as in `crate`: `name`; and every edit must be named. Each edit's `old:` text must stand once in its file. Below
a file's name, a table whose first column is headed `source` shows lines of that file, one after the other.
python3 tools/pages.py     prints what is missing, and how much; status 1 where something is."""
import glob
import os
import re
import sys

os.chdir(os.path.join(os.path.dirname(os.path.abspath(__file__)), ".."))
missing = []
NAMES = r"((?:\s*(?:,|and|to)?\s*`[^`]+`)+)"
FILE = r"`(?:crates/)?([a-z_]+/(?:specs|proofs|src)/[\w/]+\.(?:antt|rt))`"
SHOWN = r"^\|\s*[Ss]ource\s*\|.*\n\|[-:| ]+\n((?:\|.*\n?)+)"


def declared(path, name):
    word = re.escape(name.split("::")[-1].split("(")[0])
    return re.search(r"(?<![\w-])" + word + r"(?![\w-])", open(path).read())


def look(page):
    text = open(page).read()
    for path in re.findall(FILE, text):
        if not os.path.exists("crates/" + path):
            missing.append(f"{page}: no file {path}")
    for path, names in re.findall(FILE + ":" + NAMES, text):
        for name in re.findall(r"`([^`/ ]+)`", names):
            if os.path.exists("crates/" + path) and not declared("crates/" + path, name):
                missing.append(f"{page}: {path} has no {name}")
    for crate, names in re.findall(r"`([a-z_]+)`:" + NAMES + r"(?!\*)", text):
        for name in re.findall(r"`([^`/ ]+)`(?!\*)", names):
            files = glob.glob(f"crates/{crate}/*/**/*.antt", recursive=True) + glob.glob(f"crates/{crate}/src/*.rt")
            if files and not os.path.exists(f"crates/{crate}/must-fail/{name}.edit") and not any(declared(f, name) for f in files):
                missing.append(f"{page}: {crate} has no {name}")
    for table in re.finditer(SHOWN, text, re.M):
        shows(page, (re.findall(FILE, text[: table.start()]) or [""])[-1], table[1].splitlines())
    return text


def shows(page, path, rows):
    """Source in a table's first column: the file's lines one after the other, but for blank lines and lone braces."""
    if not os.path.isfile("crates/" + path):
        missing.append(f"{page}: source below no file's name")
        return
    lines = [line.strip() for line in open("crates/" + path) if line.strip() not in ("", "{", "}")] + ["its end"]
    rows = [re.sub(r"^\| *`(.*?)` *\|.*", r"\1", row).replace("\\|", "|") for row in rows]
    start = lines.index(rows[0]) if rows[0] in lines else 0
    for row, line in zip(rows, lines[start:]):
        if row != line:
            missing.append(f"{page}: {path} has {line} where it shows {row}")


def applies(edit):
    """The edit's replacements, one after the other as `rt must-fail` makes them."""
    crate, texts, name, old = os.path.dirname(os.path.dirname(edit)), {}, "", ""
    for line in open(edit).read().splitlines():
        word, _, rest = line.partition(": ")
        if word == "file":
            name = rest
            path = f"{crate}/{name}"
            texts.setdefault(name, open(path).read() if os.path.exists(path) else "")
        elif word == "old":
            old = rest
            times = texts.get(name, "").count(old)
            if times != 1:
                missing.append(f"{edit}: its old text is {times} times in {name}: {old.strip()}")
        elif line.startswith("new:"):
            texts[name] = texts.get(name, "").replace(old, line[4:].removeprefix(" "), 1)
    if not old:
        missing.append(f"{edit}: it replaces nothing")


said = "".join(look(page) for page in ["README.md"] + sorted(glob.glob("docs/*.md")))
for edit in sorted(glob.glob("crates/*/must-fail/*.edit")):
    if "`" + os.path.basename(edit)[:-5] + "`" not in said:
        missing.append(f"no page names {edit}")
    applies(edit)
print("\n".join(missing + [f"{len(missing)} missing"]))
sys.exit(1 if missing else 0)
