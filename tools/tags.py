#!/usr/bin/env python3
"""Writes the file `tags` at the top, with which editors jump to where a name is made.

    tools/tags.py [FILE]     writes FILE where one is named, and the standard output for `-`

It has the functions, types, constants, variants and modules of `.rt` files, the definitions of `specs/` with their fields,
and the laws of `proofs/`. Vim and Emacs find the file by themselves; most other editors do with a plug-in for ctags.
"""

import re
import sys
from pathlib import Path

TOP = Path(__file__).resolve().parent.parent
RUST = [
    (re.compile(r"^\s*(?:pub(?:\([a-z]+\))? )?(?:const )?(?:unsafe )?fn (\w+)"), "f"),
    (re.compile(r"^\s*(?:pub(?:\([a-z]+\))? )?(?:struct|enum|trait|type) (\w+)"), "t"),
    (re.compile(r"^\s*(?:pub(?:\([a-z]+\))? )?const (\w+)\s*:"), "c"),
    (re.compile(r"^(?:pub )?mod (\w+);"), "m"),
    (re.compile(r"^    ([A-Z]\w*)(?: \{|\(.*\),|,)$"), "v"),
]
TERMS = [
    (re.compile(r"^\s*(?:abbrev |unfoldable )?(?:pub )?(?:record|data) ([^\s:(){}]+)"), "t"),
    (re.compile(r"^\s*(?:abbrev |unfoldable )(?:pub )?([^\s:(){}]+)"), "d"),
    (re.compile(r"^(?:pub )?([a-z_][^\s:(){}.]*)\s*:"), "l"),
    (re.compile(r"^  pub ([^\s:(){}.]+)\s*:"), "p"),
]


def tags_of(path):
    """The tags of a file, each a name, its kind and the number of the line that makes it."""
    patterns = RUST if path.suffix == ".rt" else TERMS
    for number, line in enumerate(path.read_text(encoding="utf-8").splitlines(), start=1):
        matches = ((pattern.match(line), kind) for pattern, kind in patterns)
        found = next(((match.group(1), kind) for match, kind in matches if match), None)
        if found and found[0] not in ("use", "where", "in"):
            yield (*found, number)


def tag_lines(top):
    """The lines of the file, sorted by name as editors want them."""
    lines = set()
    for path in top.glob("crates/**/*"):
        if path.suffix in (".rt", ".antt") and "out" not in path.relative_to(top).parts and path.is_file():
            for name, kind, number in tags_of(path):
                lines.add(f'{name}\t{path.relative_to(top)}\t{number};"\t{kind}\tline:{number}')
    return sorted(lines)


def main(words):
    head = ["!_TAG_FILE_FORMAT\t2\t//", "!_TAG_FILE_SORTED\t1\t//", "!_TAG_FILE_ENCODING\tutf-8\t//"]
    text = "\n".join(head + tag_lines(TOP)) + "\n"
    if words == ["-"]:
        sys.stdout.write(text)
    else:
        Path(words[0] if words else TOP / "tags").write_text(text, encoding="utf-8")


if __name__ == "__main__":
    main(sys.argv[1:])
