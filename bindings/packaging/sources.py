#!/usr/bin/env python3
"""The sum over the sources of what is packaged: the code of the crates below `dillmonth` and `world_script`, and the files of `bindings/` but its tests.

    bindings/packaging/sources.py           prints it
    bindings/packaging/sources.py ORIGIN    and tells in a line where ORIGIN, a file of bindings/package, has another one
"""

import hashlib
import sys
from pathlib import Path

TOP = Path(__file__).resolve().parent.parent.parent
PROGRAMS = ("dillmonth", "world_script")
UNPACKED = {"out", "tests", "__pycache__", "run", "targets", "scripts.py"}


def crates():
    """The crates of which the library and the program are made."""
    rows = [line.partition("#")[0].partition(":") for line in (TOP / "crates.txt").read_text(encoding="utf-8").splitlines()]
    below = {name.split()[0]: rest.split() for name, colon, rest in rows if colon}
    found, waiting = set(), list(PROGRAMS)
    while waiting:
        each = waiting.pop()
        if each in below and each not in found:
            found.add(each)
            waiting += below[each]
    return sorted(found)


def files():
    """The sources, in an order of their own."""
    code = [file for crate in crates() for file in (TOP / "crates" / crate / "src").rglob("*.rt")]
    bindings = [file for file in (TOP / "bindings").rglob("*") if file.is_file() and not UNPACKED & set(file.relative_to(TOP / "bindings").parts)]
    return sorted(code + bindings)


def sum_of_sources():
    total = hashlib.sha256()
    for file in files():
        total.update(f"{file.relative_to(TOP)} {file.stat().st_size}\n".encode())
        total.update(file.read_bytes())
    return total.hexdigest()


def is_of(origin):
    """Whether what is packaged is made of the tree's sources."""
    rows = (line.split() for line in Path(origin).read_text(encoding="utf-8").splitlines())
    return ["sources", sum_of_sources()] in rows


def main(words):
    print(sum_of_sources())
    if words and not is_of(words[0]):
        print(f"{words[0]} is of other sources than the tree's")


if __name__ == "__main__":
    main(sys.argv[1:])
