#!/usr/bin/env python3
"""Writes what the native program says of each step of a script: the digest of the world, as 64 hexadecimal digits a line.

    bindings/web/digests.py FOLDER SCRIPT..            FOLDER/NAME.digests of each SCRIPT, by the program with the word --extended
    bindings/web/digests.py --library FOLDER SCRIPT..  by the native library that bindings/build makes

The program is crates/world_script/out/world_script, or what the variable WORLD_SCRIPT names.
"""

import json
import os
import subprocess
import sys
from pathlib import Path

TOP = Path(__file__).resolve().parent.parent.parent
PROGRAM = os.environ.get("WORLD_SCRIPT", str(TOP / "crates/world_script/out/world_script"))


def requests_in(script):
    """The lines of a script, without empty ones."""
    return [line for line in Path(script).read_text(encoding="utf-8").splitlines() if line.strip()]


def digests_by_program(script):
    asked = []
    for line in requests_in(script):
        asked.append(line)
        if json.loads(line)["do"] == "step":
            asked.append('{"do":"digest"}')
    run = subprocess.run([PROGRAM, "--extended"], input="\n".join(asked), capture_output=True, text=True, check=True)
    answers = run.stdout.splitlines()
    return [json.loads(answer)["digest"] for line, answer in zip(asked, answers) if line == '{"do":"digest"}']


def digests_by_library(script):
    sys.path.insert(0, str(TOP / "bindings"))
    from scripts import Player

    player = Player()
    for line in map(json.loads, requests_in(script)):
        player.answer(line)
        if line["do"] == "step":
            yield player.world.digest().hex()


def main(words):
    digests_of = digests_by_program
    if words[:1] == ["--library"]:
        digests_of, words = digests_by_library, words[1:]
    if len(words) < 2:
        sys.exit(__doc__)
    folder, *scripts = words
    for script in scripts:
        found = list(digests_of(script))
        Path(folder, f"{Path(script).name}.digests").write_text("".join(f"{each}\n" for each in found), encoding="utf-8")
        print(f"{Path(script).name}: {len(found)} digests")


if __name__ == "__main__":
    main(sys.argv[1:])
