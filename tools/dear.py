#!/usr/bin/env python3
"""Checks a crate in one piece, as the gate does, and lists which of its functions take the prover longest.

    tools/dear.py CRATE [--tests] [--only PATH].. [--shown N]

`--tests` takes the crate with its tests. `--only` takes a function, or all of a module, with those that they call. It
shows 20 functions where N doesn't say otherwise, each with its seconds of a processor. The crates below have to be
proved: run `tools/prove.py CRATE` first, or let it run to its first error.

It calls functions within the kit's command `rt`, and may need a change where another kit has other ones. It reads the
time of a process from `/proc`.
"""

import argparse
import os
import subprocess
import sys
from pathlib import Path

sys.dont_write_bytecode = True
sys.path.insert(0, str(Path(__file__).resolve().parent))
from prove import HERE, load_rt

TICKS = os.sysconf("SC_CLK_TCK")


def seconds_of(process):
    """The seconds of a processor that a process has taken."""
    fields = Path(f"/proc/{process.pid}/stat").read_text().rpartition(")")[2].split()
    return (int(fields[11]) + int(fields[12])) / TICKS


def check(rt, crate, words):
    """Checks the crate. Answers each line with the seconds since the one before, and whether it ended well."""
    os.chdir(crate.folder)
    command = [rt.rtlib.RATTLE, "check", *words]
    process = subprocess.Popen(command, stdout=subprocess.PIPE, stderr=subprocess.STDOUT, text=True, errors="replace")
    lines, before = [], 0.0
    for line in process.stdout:
        now = seconds_of(process)
        lines.append((now - before, line.rstrip("\n")))
        before = now
    return lines, process.wait() == 0


def main():
    parser = argparse.ArgumentParser(description=__doc__, formatter_class=argparse.RawDescriptionHelpFormatter)
    parser.add_argument("crate")
    parser.add_argument("--tests", action="store_true")
    parser.add_argument("--only", action="append", default=[], metavar="PATH")
    parser.add_argument("--shown", type=int, default=20, metavar="N")
    given = parser.parse_args()
    sys.argv[1:] = ["help"]
    rt = load_rt(HERE)
    crate = next((it for it in rt.rtlib.crates_below(str(HERE)) if it.name == given.crate), None)
    if crate is None:
        sys.exit(f"no such crate: {given.crate}")
    flags = ["--jobs", "1", "--progress", *(word for path in given.only for word in ("--only", path))]
    lines, is_well = check(rt, crate, crate.words(flags, tests=given.tests, keeps=False))
    checked = [(seconds, line.split()[1].rstrip(",")) for seconds, line in lines if line.startswith("checked ")]
    if not is_well or not checked:
        print("\n".join(line for _, line in lines[-20:]))
    # (what comes before the first function reads the libraries)
    first, rest = checked[:1], sorted(checked[1:], reverse=True)
    for seconds, name in rest[: given.shown]:
        print(f"{seconds:8.1f} {name}")
    print(f"{sum(seconds for seconds, _ in rest):8.1f} all {len(rest)} but the first, which with the libraries took {sum(it for it, _ in first):.1f}")
    sys.exit(not is_well)


if __name__ == "__main__":
    main()
