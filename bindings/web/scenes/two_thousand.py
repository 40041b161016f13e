#!/usr/bin/env python3
"""Writes the scene of two thousand capsules. They sleep in forty piles, each in a tray, and a ball falls on one pile after another.

    bindings/web/scenes/two_thousand.py > SCRIPT
"""

import json

METRE = 1 << 20
STOREYS, TRAYS, STEPS = 4, 10, 900
ROWS = (10, 9, 8, 7, 6, 5, 4, 1)
HALF, RADIUS = int(0.15 * METRE), int(0.1 * METRE)
WIDTH, HEIGHT = 2 * (HALF + RADIUS) + 2000, 2 * RADIUS
TRAY, STOREY = int(6.4 * METRE), 8 * METRE  # from tray to tray, and from storey to storey
MASS = 22  # of a capsule: 256 a square metre
INERTIA = MASS * (HALF + RADIUS) ** 2 // 3
BALL, BALL_MASS, FALL = int(0.45 * METRE), 160, int(5.5 * METRE)
FIRST_BALL, EACH_BALL = 40, 42  # steps


def tray(at):
    side, slant, height = TRAY // 2 - METRE // 4, METRE // 4, 5 * METRE // 4
    pieces = [[-side, 0], [side, 0]], [[-side - slant, height], [-side, 0]], [[side, 0], [side + slant, height]]
    return {"do": "create", "kind": "static", "at": at, "shapes": [{"segment": piece, "friction": 160} for piece in pieces]}


def mover(at, mass, inertia, shape):
    return {"do": "create", "kind": "dynamic", "mass": mass, "inertia": inertia, "at": at, "shapes": [shape]}


def pile(at):
    shape = {"capsule": [[-HALF, 0], [HALF, 0]], "radius": RADIUS, "friction": 160}
    for row, count in enumerate(ROWS):
        for place in range(count):
            x = at[0] + (2 * place - count + 1) * WIDTH // 2
            yield mover([x, at[1] + RADIUS + row * HEIGHT], MASS, INERTIA, shape)


def ball(number, at):
    shape = {"circle": [0, 0], "radius": BALL, "friction": 200, "restitution": 0}
    aside = (number * 7 % 5 - 2) * METRE // 3
    return mover([at[0] + aside, at[1] + FALL], BALL_MASS, BALL_MASS * BALL * BALL // 2, shape)


def requests():
    step = {"do": "step", "ticks": 4}
    places = [[(2 * number - TRAYS + 1) * TRAY // 2, storey * STOREY] for storey in range(STOREYS) for number in range(TRAYS)]
    yield {"do": "gravity", "by": [0, -157]}
    for place in places:
        yield tray(place)
        yield from pile(place)
    yield step  # what touches is one island from here on
    for number in range(len(places)):
        yield {"do": "sleep", "body": f"{number * (sum(ROWS) + 1) + 1}.1"}
    for count in range(1, STEPS):
        number, rest = divmod(count - FIRST_BALL, EACH_BALL)
        if rest == 0 and 0 <= number < len(places):
            yield ball(number, places[number * 13 % len(places)])
        yield step


if __name__ == "__main__":
    for request in requests():
        print(json.dumps(request, separators=(",", ":")))
