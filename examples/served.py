#!/usr/bin/env python3
"""Drives `world_script` as a game does that keeps it beside itself: over pipes, a request at a time.

    examples/served.py [PROGRAM]

PROGRAM is the built program, crates/world_script/out/world_script if it is left out. A circle falls for a while; each
request waits for its answer before the next is sent, and a refusal and a bad line are looked at too. The last line is
'N passed, M failed'; the status is 1 where something failed.
"""
import json
import sys

from world import PROGRAM, World

PATIENCE = 10.0  # seconds until an answer has to be there

# A saved world of which the second slot of joints has no generation that it may have.
NO_GENERATION = {
    "version": 2,
    "gravity": [0, 0],
    "call": 0,
    "step": 0,
    "bodies": [],
    "joints": [{"generation": 1}, {"generation": 0}],
    "contacts": [],
    "ledger": {cause: ["0", "0"] for cause in ("clamp", "command", "departed", "gravity", "immovable", "rest")},
}


def falls(program):
    """A circle falls, and each answer comes before the next request goes out."""
    world = World(program, patience=PATIENCE)
    yield world.ask(do="gravity", by=[0, -157]) == {"done": True}
    circle = {"circle": [0, 0], "radius": 65536}
    made = world.ask(do="create", kind="dynamic", mass=256, inertia=0, at=[0, 0], shapes=[circle])
    yield made == {"body": "0.1"}
    for step in range(1, 101):
        yield world.ask(do="step", ticks=4)["step"] == step
        yield world.ask(do="show", body=made["body"])["at"][1] < 0
    yield world.end() == (0, b"", "")


def in_pieces(program):
    """A request that comes in two pieces keeps back no answer to the one before it."""
    world = World(program, patience=PATIENCE)
    world.send(b'{"do":"ledger"}\n{"do":"gravity",')
    yield json.loads(world.answer())["total"] == ["0", "0"]
    world.send(b'"by":[0,0]}\n')
    yield world.answer() == b'{"done":true}'
    yield world.end() == (0, b"", "")


def explains(program):
    """A refusal and a bad line are told in words."""
    world = World(program, "--explain", patience=PATIENCE)
    yield world.ask(do="step", ticks=9) == {"refused": 5}
    yield world.ask(do="load", world=NO_GENERATION) == {"clause": 3, "refused": 12}
    steps = [{"do": "step", "ticks": ticks} for ticks in (1, 9, 8)]
    yield world.ask(do="crowd", each=steps, times=2)["journal"] == 4
    yield world.ask(do="crowd", each=steps[:1], times=2)["journal"] == 2
    world.send(b'{"do":"step","ticks":"4"}\n')
    yield world.answer() == b'{"bad":5}'
    status, _, said = world.end()
    yield status == 1
    yield said.splitlines() == [
        "line 1: refused 5: ticks: a number outside its limit",
        "line 2: refused 12: world: the saved world breaks clause 3, first at joints[1].generation",
        "line 3: each: 2 of 6 calls were refused",
        "line 5: ticks: not a whole number of 64 bits",
    ]


def goes_on(program):
    """A bad line is passed by where that is asked for, and the program's status tells of it."""
    world = World(program, "--go-on", patience=PATIENCE)
    world.send(b'{"do":"jump"}\n')
    yield world.answer() == b'{"bad":1}'
    yield world.ask(do="step", ticks=1)["step"] == 1
    yield world.end() == (1, b"", "line 1: do: no request has this name\n")


def main():
    program = sys.argv[1] if len(sys.argv) > 1 else PROGRAM
    passed = failed = 0
    for scene in (falls, in_pieces, explains, goes_on):
        try:
            for good in scene(program):
                passed, failed = passed + good, failed + (not good)
        except (OSError, EOFError, ValueError) as error:
            print(f"{scene.__name__}: {error}")
            failed += 1
    print(f"{passed} passed, {failed} failed")
    return 1 if failed else 0


if __name__ == "__main__":
    sys.exit(main())
