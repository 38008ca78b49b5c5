#!/usr/bin/env python3
"""Draws a night from its wake log: time along the page, a row for each cause with a mark for each entry and a lighter one where the
cause waited behind another, and the waits between entries.
python3 tools/picture.py LOG [CYCLES] > picture.svg     CYCLES is the night's length; without it the page ends with the last entry.
Status 1, with a message and no picture, where LOG is no wake log (the tests of `wakes`) or CYCLES is below its last entry."""
import math
import struct
import sys

CAUSES = ["NMI", "IRQ1", "ICF", "OCF", "TOF", "serial"]
LIMIT = 1048576
PAGE, HEIGHT = 1000, 360
LEFT, TOP, ROW = 72, 70, 37  # the left edge, the first row's line, from row to row
WIDE, COLUMNS = 2, 404  # pixels of a column, and columns
RIGHT = LEFT + WIDE * COLUMNS
RISE, HANG = 22, 10  # the tallest mark of entries, and of waiting behind
WAIT, WAITS = TOP + 6 * ROW + 18, 34  # the line and the height of the waits
AXIS = WAIT + 10
SMALL = ' font-size="12"'


def rows(path):
    """The log's rows as (cycle, cause, mask); ends with a message where no run wrote them."""
    try:
        with open(path, "rb") as file:
            log = file.read(LIMIT + 1)
    except OSError as error:
        sys.exit(f"picture: {path}: {error.strerror}")
    if len(log) > LIMIT or len(log) % 8:
        sys.exit(f"picture: {path} is no wake log: its length is over {LIMIT:,} bytes or no multiple of 8")
    found = []
    for k, (cycle, cause, mask, last) in enumerate(struct.iter_unpack("<IBBH", log)):
        if cause > 5 or mask > 63 or mask % (2 << cause) or last:
            sys.exit(f"picture: {path} is no wake log: no run writes its row {k}")
        found.append((cycle, cause, mask))
    return sorted(found)  # as a run writes them


def column(cycle, cycles):
    return min(cycle * COLUMNS // cycles, COLUMNS - 1)


def counts(entries, cycles):
    """For each cause how many entries a column has, and how often the cause waited behind another."""
    came, waited = [{} for _ in CAUSES], [{} for _ in CAUSES]
    for cycle, cause, mask in entries:
        at = column(cycle, cycles)
        came[cause][at] = came[cause].get(at, 0) + 1
        for k in range(6):
            if mask >> k & 1:
                waited[k][at] = waited[k].get(at, 0) + 1
    return came, waited


def marks(row, line, tallest, most):
    """A path with a mark for each column; `most` in one column is the tallest, each doubling adds the same height."""
    steps = math.log2(most) if most > 1 else 1
    least = tallest / 2 if most > 1 else tallest
    return "".join(
        f"M{LEFT + WIDE * at + WIDE // 2} {line}v{round(least + (tallest - least) * math.log2(n) / steps, 1):g}" for at, n in sorted(row.items()))


def waits(entries, cycles):
    """The longest wait, and the shapes of all: a block from an entry to the next, or the longest of those within a column."""
    gaps = [(a[0], b[0] - a[0]) for a, b in zip(entries, entries[1:])]
    longest = max([gap for _, gap in gaps], default=0)
    heights, path = {}, ""
    for start, gap in gaps:
        first, last = column(start, cycles), column(start + gap, cycles)
        tall = round(WAITS * gap / longest, 1) if longest else 0
        if last - first > 1:
            path += f"M{LEFT + WIDE * first + WIDE} {WAIT}v{-tall:g}H{LEFT + WIDE * last - 1}V{WAIT}z"
        else:
            heights[first] = max(heights.get(first, 0), tall)
    return longest, path + "".join(f"M{LEFT + WIDE * at} {WAIT}v{-tall:g}h{WIDE}V{WAIT}z" for at, tall in sorted(heights.items()))


def ticks(cycles):
    """Whole steps of 1, 2 or 5 times a power of ten, at most six of them."""
    step = next(d * 10**k for k in range(20) for d in (1, 2, 5) if cycles // (d * 10**k) <= 6)
    return range(0, cycles + 1, step)


def text(x, y, words, kind=""):
    return f'<text x="{x}" y="{y}"{kind}>{words}</text>'


def cause_row(k, came, waited, most):
    """A cause's line and marks, and how many they are."""
    line, entries, behind = TOP + ROW * k, sum(came.values()), sum(waited.values())
    out = [
        f'<path d="M{LEFT - 6} {line + 0.5}H{RIGHT + 6}" stroke="#bbb"/>',
        text(LEFT - 14, line + 4, CAUSES[k], ' text-anchor="end"'),
        text(RIGHT + 14, line + (0 if behind else 4), f"{entries:,}"),
    ]
    if entries:
        out.append(f'<path d="{marks(came, line, -RISE, most)}" stroke="#000" stroke-width="3"/>')
    if behind:
        out.append(text(RIGHT + 14, line + 13, f"behind {behind:,}", SMALL + ' fill="#555"'))
        out.append(f'<path d="{marks(waited, line + 1, HANG, most)}" stroke="#888" stroke-width="3"/>')
    return out


def axis(cycles, whole):
    out = [f'<path d="M{LEFT - 6} {AXIS + 0.5}H{RIGHT + 6}" stroke="#000"/>', text(RIGHT + 56, AXIS + 20, "cycles")]
    for tick in ticks(cycles):
        x = f"{LEFT + WIDE * COLUMNS * tick / whole:.1f}"
        out.append(f'<path d="M{x} {AXIS}v6" stroke="#000"/>' + text(x, AXIS + 20, f"{tick:,}", ' text-anchor="middle"'))
    return out


def picture(entries, cycles):
    whole = max(cycles, 1)
    came, waited = counts(entries, whole)
    longest, blocks = waits(entries, whole)
    most = max([n for row in came + waited for n in row.values()], default=1)
    head = f"{len(entries):,} interrupt {'entry' if len(entries) == 1 else 'entries'} up to cycle {cycles:,}"
    each = "; ".join(f"{CAUSES[k]} {sum(came[k].values()):,}, waiting behind another {sum(waited[k].values()):,}" for k in range(6))
    scale = f"A taller mark is more in that time, up to {most:,}." if most > 1 else "A mark for each."
    out = [
        f'<svg xmlns="http://www.w3.org/2000/svg" width="{PAGE}" height="{HEIGHT}" viewBox="0 0 {PAGE} {HEIGHT}"'
        ' role="img" aria-labelledby="title about" font-family="Helvetica, Arial, sans-serif" font-size="13">',
        f'<title id="title">A night\'s wake log: {head}</title>',
        f'<desc id="about">Time runs from left to right. Entries: {each}. The longest wait between two entries, in cycles: {longest:,}.</desc>',
        f'<rect width="{PAGE}" height="{HEIGHT}" fill="#fff"/>',
        text(LEFT, 20, head, ' font-size="15" font-weight="bold"'),
        text(LEFT, 37, f"Above a line: entries. Below it, grey: the cause waited behind another. {scale}", SMALL),
    ]
    for k in range(6):
        out += cause_row(k, came[k], waited[k], most)
    out += [
        text(LEFT - 14, WAIT - 4, "waits", ' text-anchor="end"'),
        text(RIGHT + 14, WAIT - 16, "longest", SMALL) + text(RIGHT + 14, WAIT - 2, f"{longest:,}"),
        f'<path d="{blocks}" fill="#bbb"/>',
    ]
    return "\n".join(out + axis(cycles, whole) + ["</svg>", ""])


if len(sys.argv) not in (2, 3) or len(sys.argv) == 3 and not sys.argv[2].isdecimal():
    sys.exit("usage: python3 tools/picture.py LOG [CYCLES] > picture.svg")
entries = rows(sys.argv[1])
last = entries[-1][0] if entries else 0
cycles = int(sys.argv[2]) if len(sys.argv) == 3 else last
if not last <= cycles < 2**32:
    sys.exit(f"picture: CYCLES is to be from {last:,}, the last entry's cycle, to 4,294,967,295")
sys.stdout.write(picture(entries, cycles))
