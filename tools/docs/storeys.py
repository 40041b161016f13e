#!/usr/bin/env python3
"""Checks that the crates stand in storeys: that none names a crate further down in crates.txt.

    tools/docs/storeys.py --check    fails where one does, or where ARCHITECTURE's table has other storeys or crates

crates.txt goes from the lowest storey up, and in a storey each crate comes after those that it stands on. So no edge goes up.
"""

import re
import sys

from sources import TOP, read_lines, read_storeys

ROW = re.compile(r"^\| ([\w ]*) ?\| (`\w+`(?:, `\w+`)*) \|")


def edges_up(storeys, stands_on):
    """What is wrong with crates.txt: each crate that stands on a later one."""
    storey = {crate: name for name, crates in storeys for crate in crates}
    place = {crate: number for number, crate in enumerate(stands_on)}
    for crate, below in stands_on.items():
        for each in below:
            if place.get(each, -1) > place[crate]:
                yield f"crates.txt: {crate} ({storey[crate]}) stands on {each} ({storey[each]}), which comes after it"


def storeys_of_table(lines):
    """The storeys of ARCHITECTURE's table from the lowest up, each with its crates."""
    table = []
    for storey, crates in (found.groups() for found in map(ROW.match, lines) if found):
        if storey.strip():
            table.append((storey.strip(), []))
        table[-1][1].extend(re.findall(r"\w+", crates))
    return table[::-1]


def differences(storeys, table):
    """What is wrong with the table."""
    if [name for name, _ in table] != [name for name, _ in storeys]:
        yield f"ARCHITECTURE.md: the storeys of its table are {', '.join(name for name, _ in table)}"
    for name, crates in storeys:
        listed = dict(table).get(name, [])
        if sorted(listed) != sorted(crates):
            yield f"ARCHITECTURE.md: in the storey '{name}' its table has {', '.join(sorted(listed))}"


def main(arguments):
    if arguments != ["--check"]:
        sys.exit(__doc__)
    storeys, stands_on = read_storeys(read_lines(TOP / "crates.txt"))
    page = (TOP / "docs" / "ARCHITECTURE.md").read_text(encoding="utf-8")
    section = page[page.index("\n## The crates") : page.index("\n### Beside the crates")]
    wrong = [*edges_up(storeys, stands_on), *differences(storeys, storeys_of_table(section.splitlines()))]
    for line in wrong:
        print(line)
    sys.exit(bool(wrong))


if __name__ == "__main__":
    main(sys.argv[1:])
