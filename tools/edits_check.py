#!/usr/bin/env python3
"""Looks whether each must-fail edit can still be applied.

    tools/edits_check.py [CHECKOUT]     the checkout is that of this script where none is named

An edit is a file of `crates/*/must-fail/` or `crates/*/must-fail-beside-the-gate/`: lines `file: PATH`, each with pairs of lines
`old: TEXT` and `new: TEXT` after it. Each old text has to stand once in the file, as the pairs before it have left it.
It prints each edit that doesn't fit; the last line is `N passed, M failed`. It proves nothing: `rt must-fail` and
`tests/edits` do.
"""

import sys
from pathlib import Path


def fault_of(edit):
    """What keeps an edit from being applied, or None."""
    crate, files, path, old = edit.parent.parent, {}, None, None
    for line in edit.read_text(encoding="utf-8").splitlines():
        word, _, text = line.partition(": ")
        if word == "file":
            path = crate / text
            if not path.is_file():
                return f"there is no file {text}"
            files.setdefault(path, path.read_text(encoding="utf-8"))
        elif word == "old":
            old = text
            count = files[path].count(old) if path else 0
            if count != 1:
                return f"its text stands {count} times: {old.strip()}"
        elif word == "new" and old is not None:
            files[path] = files[path].replace(old, text)
            old = None
    if old is not None:
        return "an old text without a new one"
    changed = any(text != path.read_text(encoding="utf-8") for path, text in files.items())
    return None if changed else "it changes nothing"


def main(words):
    top = Path(words[0]) if words else Path(__file__).resolve().parent.parent
    edits = sorted(path for folder in ("must-fail", "must-fail-beside-the-gate") for path in top.glob(f"crates/*/{folder}/*.edit"))
    faults = [(edit, fault_of(edit)) for edit in edits]
    for edit, fault in faults:
        if fault:
            print(f"{edit.relative_to(top)}: {fault}")
    failed = sum(fault is not None for _, fault in faults)
    print(f"{len(edits) - failed} passed, {failed} failed")
    sys.exit(1 if failed or not edits else 0)


if __name__ == "__main__":
    main(sys.argv[1:])
