#!/usr/bin/env python3
"""Counts the instructions of steps by copies: tools/plain_rust/instructions.py COPY.. [--scenes NAME,..] [--sizes N,..] [--steps N].

Each COPY is what `convert.py COPY --workers` wrote of a tree, and is built (`cargo build --offline --release`). For each scene of `bench/scenes` it prints the
instructions of a step for each copy, in thousands, and those of the last copy as a part of each other one's. A step is 4 ticks by one worker, and what the
creation of the bodies takes is left out. It needs valgrind. Other work on the machine changes nothing."""

import argparse
import re
import subprocess
import tempfile
from pathlib import Path

HERE = Path(__file__).resolve().parent
SCENES = HERE.parent.parent / "bench" / "scenes"


def count(copy, script):
    """The instructions of a whole run of a script by a copy."""
    lines = subprocess.run([HERE / "compact.py"], stdin=script.open(), capture_output=True, check=True).stdout
    command = ["valgrind", "--tool=callgrind", "--callgrind-out-file=/dev/null", copy / "target/release/drive"]
    said = subprocess.run(command, input=lines, capture_output=True, check=True).stderr.decode()
    return int(re.search(r"Collected : (\d+)", said).group(1))


def main():
    parser = argparse.ArgumentParser(description=__doc__, formatter_class=argparse.RawDescriptionHelpFormatter)
    parser.add_argument("copies", nargs="+", type=Path, metavar="COPY")
    parser.add_argument("--scenes", default="heap,piles,pyramid,wall,net,free,asleep")
    parser.add_argument("--sizes", default="300,2000")
    parser.add_argument("--steps", type=int, default=40)
    given = parser.parse_args()
    with tempfile.TemporaryDirectory() as folder:
        wanted = ["--scenes", given.scenes, "--sizes", given.sizes, "--steps", str(given.steps)]
        subprocess.run([SCENES, folder, *wanted], check=True)
        for scene in given.scenes.split(","):
            for size in given.sizes.split(","):
                whole, made = (Path(folder) / f"{scene}_{size}_{steps}" for steps in (given.steps, 0))
                counts = [(count(copy, whole) - count(copy, made)) / given.steps / 1000 for copy in given.copies]
                parts = [counts[-1] / each for each in counts[:-1]]
                print(f"{scene}, {size}:", *(f"{each:,.0f}" for each in counts), *(f"{part:.3f}" for part in parts), flush=True)


if __name__ == "__main__":
    main()
