#!/usr/bin/env python3
"""Replays a script in a world of its own, and checks the digest after each step.

    examples/replay.py SCRIPT DIGESTS         checks: the last line tells how many digests agree, or the first that doesn't
    examples/replay.py --write SCRIPT         writes a digest a line, one for each step of the script
    examples/replay.py --save N SCRIPT        writes the world after step N, to be compared by examples/compare.py

It takes the library that bindings/build makes.
"""

import sys
from pathlib import Path

sys.path.insert(0, str(Path(__file__).resolve().parent.parent / "bindings/python"))
from compare import digests_in  # noqa: E402
from scripts import NotOurs, Player, lines_of  # noqa: E402


def played(script):
    """The player after each step of a script."""
    player = Player()
    player.kinds = {}
    for line in lines_of(script):
        answer = player.answer(line)
        player.note(line, answer)
        if line["do"] == "step" and "refused" not in answer:
            yield player


def check(script, digests):
    wanted = digests_in(Path(digests).read_text(encoding="utf-8"))
    count = 0
    for count, player in enumerate(played(script), 1):
        if count > len(wanted):
            sys.exit(f"there are {len(wanted)} digests, and more steps")
        if player.world.digest().hex() != wanted[count - 1]:
            sys.exit(f"step {count} is the first whose digest differs")
    if count != len(wanted):
        sys.exit(f"there are {len(wanted)} digests, and {count} steps")
    print(f"{count} digests agree")


def run(words):
    if len(words) == 2 and words[0] == "--write":
        for player in played(words[1]):
            print(player.world.digest().hex())
    elif len(words) == 3 and words[0] == "--save":
        for count, player in enumerate(played(words[2]), 1):
            if count == int(words[1]):
                print(player.world.save())
                return
        sys.exit("there are fewer steps")
    elif len(words) == 2:
        check(*words)
    else:
        sys.exit(__doc__)


def main(words):
    try:
        run(words)
    except NotOurs:
        sys.exit("the script has a request that only the program knows")
    except (OSError, ValueError) as error:
        sys.exit(f"the script or the digests can't be read: {error}")


if __name__ == "__main__":
    main(sys.argv[1:])
