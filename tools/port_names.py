#!/usr/bin/env python3
"""Respells the repository's own definitions and lemmas as today's Rattle spells its words: in snake case.

usage: python3 tools/port_names.py [FOLDER]     once, at the top of a tree that the kit's port.py has turned

A name is the repository's own where a line of specs/ or of proofs/*.antt declares it. Capitals inside a word and dashes between words become underscores.
Where a lemma would get its function's name, it ends in _lem. What Rattle makes (the names in proofs/F/), functions of src/, exported names, types and strings
stay. It stops where two names would fall together.
"""
import collections
import glob
import os
import re
import sys

NAME = r"[^\s(){}\[\],;:.]+"
DECLARED = re.compile(r"^\s*(?:(?:abbrev|pub|unfoldable) )*(" + NAME + r"(?: " + NAME + r")*) :(?: |$)")
TOKEN = re.compile(r"\.?[A-Za-z_][A-Za-z0-9_'?-]*")
CAPITAL = re.compile(r"(?<=[a-z0-9])([A-Z]+)")


def read(path):
    with open(path, encoding="utf-8") as f:
        return f.read()


def files(root, *patterns):
    found = []
    for p in patterns:
        found += glob.glob(os.path.join(root, "crates", "*", p), recursive=True)
    return sorted(found)


def own(root):
    names = set()
    for path in files(root, "specs/**/*.antt", "proofs/*.antt"):
        for line in read(path).split("\n"):
            m = DECLARED.match(line)
            if m and not line.lstrip().startswith("--"):
                names.update(m.group(1).split())
    return names


def respelled(name):
    return CAPITAL.sub(lambda m: "_" + m.group(1).lower(), name).replace("-", "_")


def rank(name):
    """Who keeps a name that two would have: a definition, which had capitals, before what the kit's script respelled, and a lemma last."""
    return 2 if "-" in name else 0 if CAPITAL.search(name) else 1


def table(names):
    groups = collections.defaultdict(list)
    for n in sorted(names):
        if re.fullmatch(r"[a-z][A-Za-z0-9_'-]*", n):
            groups[respelled(n)].append(n)
    to, together = {}, []
    for m, ns in sorted(groups.items()):
        first, *others = sorted(ns, key=rank)
        to[first] = m
        if others:
            to[others[0]] = m + "_lem"
        if len(others) > 1 or others and m + "_lem" in groups:
            together.append(f"{m}: {', '.join(ns)}")
    return {n: m for n, m in to.items() if n != m}, together


def borrowed(text, crates):
    """The names that a file takes from the library."""
    names = set()
    for m in re.finditer(r"^\s*(?:pub |ghost )?use ([^\s{};]+)\.\{([^}]*)\}", text, re.M):
        parts = m.group(1).split(".")
        if parts[0] != "Rattle" or parts[1] not in crates:
            names.update(re.split(r"[,\s]+", m.group(2)))
    return names


def turn(text, to, comment, made, source):
    """A text respelled. After a dot, where a name may be one that Rattle made of a function's, and in src/ only names with capitals are; in comments names with dashes
    only in backquotes."""

    def named(m, dashes):
        dot, name = ("." if m.group(0)[0] == "." else ""), m.group(0).lstrip(".")
        if not CAPITAL.search(name) and (source or not dashes or dot and made):
            return m.group(0)
        return dot + to.get(name, name)

    out = []
    for line in text.split("\n"):
        at = line.find(comment)
        code, said = (line, "") if at < 0 else (line[:at], line[at:])
        code = TOKEN.sub(lambda m: named(m, True), code)
        said = TOKEN.sub(lambda m: named(m, False), said)
        said = re.sub(r"`([^`]*)`", lambda m: "`" + TOKEN.sub(lambda k: named(k, True), m.group(1)) + "`", said)
        out.append(code + said)
    return "\n".join(out)


def main():
    root = sys.argv[1] if len(sys.argv) > 1 else "."
    to, together = table(own(root))
    if together:
        print("names that would fall together:", *together, sep="\n  ")
        raise SystemExit(1)
    crates = set(os.listdir(os.path.join(root, "crates")))
    changed = 0
    for path in files(root, "specs/**/*.antt", "proofs/**/*.antt", "src/**/*.rt", "must-fail/*.edit"):
        old = read(path)
        inner = os.path.relpath(path, os.path.join(root, "crates")).split(os.sep)
        theirs = borrowed(old, crates)
        new = turn(old, {n: m for n, m in to.items() if n not in theirs}, "--" if path.endswith(".antt") else "//", len(inner) > 3 and inner[1] == "proofs", path.endswith(".rt"))
        if new != old:
            changed += 1
            with open(path, "w", encoding="utf-8") as f:
                f.write(new)
    print(f"{len(to)} names respelled in {changed} files")


main()
