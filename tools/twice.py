#!/usr/bin/env python3
"""Lists stretches of code, definitions and proofs that stand in two places.

    tools/twice.py [--least N] [--alike] [--shown N] [FOLDER..]

A stretch is of at least N lines (8 where no other number is given) of `.rt` and `.antt` files below the folders, which
are `crates` where none is named. Blank lines, comments and imports don't count. With --alike names and numbers may
differ from line to line, as long as those of one line stand in one pattern. The longest come first, 20 unless told
otherwise. They are places to look at, and no faults: a contract is often repeated by the function that calls on.
"""

import argparse
import re
from collections import defaultdict
from pathlib import Path

TOP = Path(__file__).resolve().parent.parent
PASSED_OVER = re.compile(r"^\s*(?:$|//|--|#|(?:ghost |pub )?use\b|(?:pub )?mod\b|[{}();,\]]*$)")
NAMES = re.compile(r"[^\W\d][\w']*|\d[\d_]*")
# These words make the shape of a line, and so they stay.
SHAPE = set(
    "fn let mut if else match for in while return struct enum impl trait pub const where self requires ensures ghost "
    "abbrev record data λ".split()
)


def shape_of(line):
    """A line with its names and numbers put aside, each by when it first stands there."""
    met = {}
    return NAMES.sub(lambda found: found[0] if found[0] in SHAPE else f"_{met.setdefault(found[0], len(met))}", line)


class Text:
    """The lines of a file that count: their numbers, and how they are compared."""

    def __init__(self, path, alike):
        self.name = str(path.relative_to(TOP) if TOP in path.parents else path)
        lines = path.read_text(encoding="utf-8").splitlines()
        counted = [(number, line.strip()) for number, line in enumerate(lines, start=1) if not PASSED_OVER.match(line)]
        self.numbers = [number for number, _ in counted]
        self.lines = [shape_of(line) if alike else line for _, line in counted]


def windows(texts, least):
    """The places at which each run of `least` lines begins that begins at more than one."""
    places = defaultdict(list)
    for number, text in enumerate(texts):
        for start in range(len(text.lines) - least + 1):
            places[tuple(text.lines[start : start + least])].append((number, start))
    return [found for found in places.values() if len(found) > 1]


def grown(texts, first, second):
    """The stretch of equal lines, from two places on."""
    (a, i), (b, j), count = first, second, 0
    one, other = texts[a].lines, texts[b].lines
    end = j if a == b else len(one)
    while i + count < min(len(one), end) and j + count < len(other) and one[i + count] == other[j + count]:
        count += 1
    return count


def stretches(texts, least):
    """Each pair of places with equal lines that isn't part of a longer one: the number of lines, and the two places."""
    found, within = [], set()
    pairs = sorted((first, second) for places in windows(texts, least) for first, second in zip(places, places[1:]))
    for first, second in pairs:
        if (first, second) in within:
            continue
        count = grown(texts, first, second)
        if count >= least:
            within.update(((first[0], first[1] + k), (second[0], second[1] + k)) for k in range(count))
            found.append((count, first, second))
    return sorted(found, key=lambda each: (-each[0], each[1:]))


def span(texts, place, count):
    text = texts[place[0]]
    return f"{text.name}:{text.numbers[place[1]]}-{text.numbers[place[1] + count - 1]}"


def main():
    words = argparse.ArgumentParser(description=__doc__, formatter_class=argparse.RawDescriptionHelpFormatter)
    words.add_argument("--least", type=int, default=8)
    words.add_argument("--alike", action="store_true")
    words.add_argument("--shown", type=int, default=20)
    words.add_argument("folders", nargs="*", type=Path, default=[TOP / "crates"])
    given = words.parse_args()
    paths = [path.resolve() for folder in given.folders for path in sorted(folder.rglob("*"))]
    texts = [Text(path, given.alike) for path in paths if path.suffix in (".rt", ".antt") and "out" not in path.parts]
    found = stretches(texts, given.least)
    for count, first, second in found[: given.shown]:
        print(f"{count} lines: {span(texts, first, count)} and {span(texts, second, count)}")
    print(f"{len(found)} stretches of {sum(count for count, _, _ in found)} lines")


if __name__ == "__main__":
    main()
