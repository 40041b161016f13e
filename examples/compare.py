#!/usr/bin/env python3
"""Where two worlds, or two runs of one script, part: what somebody wants to know whose peers disagree.

    examples/compare.py A B

A and B are either two saved worlds (what `save` answers, with or without `{"world":..}` round it), or two files with a digest a line
(`examples/replay.py --write` makes one; lines of JSON with a key `digest` do too). Of worlds it tells the first field that differs, in the order
counts, gravity, bodies, joints, contacts, totals, and how many differ. Of digests it tells the first that differs: save both worlds after that step,
and compare those. It ends with status 0 where both are the same, and 1 where they differ.
"""

import json
import sys
from pathlib import Path

ORDER = ("version", "step", "call", "gravity", "bodies", "joints", "contacts", "ledger")


def world_in(text):
    """The saved world that a text is, or None."""
    try:
        value = json.loads(text)
    except ValueError:
        return None
    value = value.get("world", value) if isinstance(value, dict) else None
    return value if isinstance(value, dict) and "bodies" in value else None


def digests_in(text):
    """The digest of each line, in lower case."""
    found = []
    for line in text.splitlines():
        if line.strip().startswith("{"):
            digest = json.loads(line).get("digest")
            if digest:
                found.append(digest.lower())
        elif line.strip():
            found.append(line.split()[-1].lower())
    return found


def differences(one, other, place=""):
    """The places at which two values differ, with both values."""
    if isinstance(one, dict) and isinstance(other, dict):
        keys = [key for key in ORDER if key in one or key in other] if not place else []
        keys += sorted((set(one) | set(other)) - set(keys))
        for key in keys:
            yield from differences(one.get(key), other.get(key), f"{place}.{key}" if place else key)
    elif isinstance(one, list) and isinstance(other, list):
        if len(one) != len(other):
            yield f"{place}: how many", len(one), len(other)
        for index, pair in enumerate(zip(one, other)):
            yield from differences(*pair, f"{place}[{index}]")
    elif one != other:
        yield place, one, other


def compare_worlds(one, other):
    found = list(differences(one, other))
    if not found:
        print(f"the same world, after step {one.get('step')}")
        return 0
    place, first, second = found[0]
    print(f"{place} is {json.dumps(first)} in the one and {json.dumps(second)} in the other")
    if len(found) > 1:
        print(f"{len(found) - 1} more differ, the next {found[1][0]}")
    return 1


def compare_digests(one, other):
    for number, pair in enumerate(zip(one, other), 1):
        if pair[0] != pair[1]:
            print(f"digest {number} is the first that differs")
            return 1
    if len(one) != len(other):
        print(f"the same up to digest {min(len(one), len(other))}, where one ends")
        return 1
    print(f"the same {len(one)} digests")
    return 0


def main(words):
    if len(words) != 2:
        sys.exit(__doc__)
    try:
        texts = [Path(word).read_text(encoding="utf-8") for word in words]
        worlds = [world_in(text) for text in texts]
        digests = [[] if world else digests_in(text) for world, text in zip(worlds, texts)]
    except (OSError, ValueError) as error:
        sys.exit(f"the files can't be read: {error}")
    if all(worlds):
        return compare_worlds(*worlds)
    if any(worlds):
        sys.exit("one is a saved world, and the other isn't")
    return compare_digests(*digests)


if __name__ == "__main__":
    sys.exit(main(sys.argv[1:]))
