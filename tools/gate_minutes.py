#!/usr/bin/env python3
"""Runs the gate, and writes into docs/GATE.md what it took.

    tools/gate_minutes.py [COMMAND..]     the command is .ci/run where none is given

It looks each second at the kit's processes below the command. Each has a crate's name among its words, so that processor
time and memory fall to crates: a `build` is a proof, with what compiles it. A `check` is one of the edits, or the proof that they begin with;
of a crate without edits in the gate it is the proof. Run it in a clean checkout, with nothing kept, on a machine that does
nothing else. It ends as the command does.
"""

import os
import re
import subprocess
import sys
import time
from pathlib import Path

TOP = Path(__file__).resolve().parent.parent
PAGE = TOP / "docs" / "GATE.md"
BEGIN, END = "<!-- minutes: by tools/gate_minutes.py -->\n", "<!-- end of the minutes -->\n"
TICKS = os.sysconf("SC_CLK_TCK")
# Crates below this many minutes share a row.
LEAST = 2


def words_of(process):
    """The words of a process, or none where it has ended."""
    try:
        return Path(f"/proc/{process}/cmdline").read_bytes().decode(errors="replace").split("\0")
    except OSError:
        return []


def is_below(process, above):
    """Whether a process is one that another has started, or one that those have."""
    while process not in ("", "0", "1", above):
        try:
            process = Path(f"/proc/{process}/stat").read_text().rsplit(") ", 1)[1].split()[1]
        except (OSError, IndexError):
            return False
    return process == above


def use_of(process):
    """The processor seconds and the gigabytes that a process has used, or none."""
    try:
        fields = Path(f"/proc/{process}/stat").read_text().rsplit(") ", 1)[1].split()
        memory = re.search(r"^VmHWM:\s+(\d+)", Path(f"/proc/{process}/status").read_text(), re.M)
    except (OSError, IndexError):
        return None
    return sum(map(int, fields[11:15])) / TICKS, int(memory.group(1)) / 2**20 if memory else 0


def task_of(words):
    """The crate that a process of the kit works for, and whether it tries edits."""
    if "--crate-name" not in words[:-1] or not words[0].rpartition("/")[2].startswith("rattle"):
        return None
    crate = words[words.index("--crate-name") + 1]
    return crate, words[1] == "check" and (TOP / "crates" / crate / "must-fail").is_dir()


def watch(command):
    """Runs the command. Answers its status, its minutes, its processor minutes, and the use of each process by its task."""
    begun = time.monotonic()
    used = {}
    running = subprocess.Popen(command, cwd=TOP)
    while running.poll() is None:
        for process in filter(str.isdigit, os.listdir("/proc")):
            task = task_of(words_of(process))
            use = task and is_below(process, str(running.pid)) and use_of(process)
            if use:
                used[process, task] = use
        time.sleep(1)
    times = os.times()
    return running.returncode, (time.monotonic() - begun) / 60, (times.children_user + times.children_system) / 60, used


def rows_of(used):
    """For each crate the minutes of its proof, those of its edits, and the most memory of a process, the dearest first."""
    crates = {}
    for (_, (crate, edits)), (seconds, memory) in used.items():
        row = crates.setdefault(crate, [0, 0, 0])
        row[1 if edits else 0] += seconds / 60
        row[2] = max(row[2], memory)
    return sorted(crates.items(), key=lambda row: -row[1][0] - row[1][1])


def table_of(minutes, processor_minutes, used):
    """What GATE says."""
    rows = rows_of(used)
    processors = os.cpu_count()
    yield f"On {processors} processors the whole gate took {minutes:.0f} minutes by the clock, and {processor_minutes:.0f} of a processor."
    yield ""
    yield "| Crate | Its proof, minutes of a processor | Its edits | Most memory, GB |"
    yield "|---|---|---|---|"
    for crate, (proof, edits, memory) in rows:
        if proof + edits >= LEAST:
            yield f"| `{crate}` | {proof:.1f} | {edits:.1f} | {memory:.1f} |"
    few = [row for _, row in rows if row[0] + row[1] < LEAST]
    if few:
        yield f"| {len(few)} others | {sum(row[0] for row in few):.1f} | {sum(row[1] for row in few):.1f} | {max(row[2] for row in few):.1f} |"
    yield f"| all | {sum(row[0] for _, row in rows):.0f} | {sum(row[1] for _, row in rows):.0f} | {max(row[2] for _, row in rows):.1f} |"


def main(command):
    if command[:1] in (["-h"], ["--help"]):
        sys.exit(__doc__)
    status, minutes, processor_minutes, used = watch(command or [str(TOP / ".ci" / "run")])
    text = "\n".join(table_of(minutes, processor_minutes, used)) + "\n"
    page = PAGE.read_text(encoding="utf-8")
    before, rest = page.split(BEGIN)
    PAGE.write_text(before + BEGIN + text + END + rest.split(END)[1], encoding="utf-8")
    print(text)
    sys.exit(status)


if __name__ == "__main__":
    main(sys.argv[1:])
