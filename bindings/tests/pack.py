#!/usr/bin/env python3
"""Packs scripts of world_script as calls, for drive.c: pack.py TO FILE..

A file that has FILE.stdout beside it is played without the lines that the program calls bad. Scripts with a crowd are passed over. The layout of a record is
in drive.c.
"""

import json
import struct
import sys
from pathlib import Path

sys.path.insert(0, str(Path(__file__).resolve().parent.parent))
import scripts  # noqa: E402

NEW, COMMAND, LOAD, RAY, REGION, SHOW, SAVE, LOOK, TRY_COPY = range(9)


def record(op, payload=b""):
    return struct.pack("<II", op, len(payload)) + payload


def records(line):
    do, shapes = line["do"], []
    command = scripts.command_of(line, shapes)
    if command is not None:
        command.shapes_from = 0
        return record(COMMAND, bytes(command) + b"".join(bytes(shape) for shape in shapes))
    if do == "load":
        return record(LOAD, json.dumps(line["world"]).encode())
    if do == "ray":
        return record(RAY, struct.pack("<4q", *line["from"], *line["along"]))
    if do == "region":
        return record(REGION, struct.pack("<4q", *line["lo"], *line["hi"]))
    if do == "show":
        handle = scripts.handle_of(line["body"])
        return record(SHOW, struct.pack("<II", handle.slot, handle.generation))
    return record(SAVE if do == "save" else LOOK)


def main():
    over = packed = calls = 0
    with open(sys.argv[1], "wb") as out:
        for path in sys.argv[2:]:
            try:
                lines = scripts.lines_and_answers(path)[0] if Path(path + ".stdout").exists() else scripts.lines_of(path)
                text = b"".join(records(line) for line in lines)
            except scripts.NotOurs:
                over += 1
                continue
            name = "/".join(Path(path).parts[-2:])
            out.write(record(NEW, name.encode()) + text + record(TRY_COPY))
            packed, calls = packed + 1, calls + len(lines)
    print(f"{packed} scripts with {calls} lines packed, {over} passed over")


main()
