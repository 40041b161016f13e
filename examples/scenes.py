#!/usr/bin/env python3
"""Writes the scripts of the scenes of docs/GALLERY.md into this folder.

    examples/scenes.py

Lengths are metres in this file and u in the scripts, at 256 ticks a second.
"""
import json
import math
import os

HERE = os.path.dirname(os.path.abspath(__file__))
METRE = 1 << 20
UNIT = 1 << 30
GRAVITY = {"do": "gravity", "by": [0, -157]}


def u(metres):
    return round(metres * METRE)


def place(x, y):
    return [u(x), u(y)]


def facing(degrees):
    angle = math.radians(degrees)
    return [round(UNIT * math.cos(angle)), round(UNIT * math.sin(angle))]


def wall(first, second, **surface):
    """A static segment between two places."""
    return {"do": "create", "kind": "static", "at": [0, 0], "shapes": [{"segment": [place(*first), place(*second)], **surface}]}


def post(x, y, radius, **surface):
    return {"do": "create", "kind": "static", "at": place(x, y), "shapes": [{"circle": [0, 0], "radius": u(radius), **surface}]}


def ball(x, y, radius, mass, **surface):
    """A disc of even density: its inertia is half of mass times radius squared."""
    shape = {"circle": [0, 0], "radius": u(radius), **surface}
    inertia = mass * u(radius) ** 2 // 2
    return {"do": "create", "kind": "dynamic", "mass": mass, "inertia": inertia, "at": place(x, y), "shapes": [shape]}


def bar(x, y, length, radius, mass, degrees=0, **surface):
    """A capsule along its x-axis, with about the inertia of a thin rod of its whole length."""
    half = length / 2
    shape = {"capsule": [place(-half, 0), place(half, 0)], "radius": u(radius), **surface}
    inertia = mass * u(length + 2 * radius) ** 2 // 12
    made = {"do": "create", "kind": "dynamic", "mass": mass, "inertia": inertia, "at": place(x, y)}
    return {**made, "facing": facing(degrees), "shapes": [shape]}


def steps(count, ticks):
    return [{"do": "step", "ticks": ticks}] * count


def bouncing_balls():
    """Five balls of rising restitution, let go side by side above one floor; a tick a step, so that they bounce."""
    yield GRAVITY
    yield wall((-6, 0), (6, 0), restitution=0)
    for index in range(5):
        yield ball(2 * index - 4, 4, 0.5, 256, restitution=64 * index)
    yield from steps(600, 1)


def capsule_wall():
    """A wall of lying capsules, and a heavy ball that is thrown at it."""
    rough = {"friction": 160}
    yield GRAVITY
    yield wall((-12, 0), (12, 0), **rough)
    for row in range(6):
        for column in range(4):
            x = 1.3 * column + (0.65 if row % 2 else 0)
            yield bar(x, 0.2 + 0.4 * row, 0.8, 0.2, 256, **rough)
    yield ball(-6, 1.2, 0.6, 4096, **rough)
    yield {"do": "push", "body": "25.1", "by": [4096 * u(10) // 256, 4096 * u(2) // 256]}
    yield from steps(300, 2)


def pinball():
    """A table with posts that throw back and two slanting bars, and nine balls that come down over it."""
    lively = {"restitution": 230}
    yield GRAVITY
    corners = [(-4, 9), (-4, 3), (-1, 0.5), (1, 0.5), (4, 3), (4, 9)]
    for first, second in zip(corners, corners[1:]):
        yield wall(first, second, restitution=128)
    for x, y in [(-2, 6), (0, 6.8), (2, 6), (-1, 4.6), (1, 4.6)]:
        yield post(x, y, 0.35, **lively)
    for x, degrees in [(-2.4, -20), (2.4, 20)]:
        slanting = {"capsule": [place(-0.6, 0), place(0.6, 0)], "radius": u(0.12), **lively}
        yield {"do": "create", "kind": "static", "at": place(x, 3.4), "facing": facing(degrees), "shapes": [slanting]}
    for index in range(9):
        yield ball(-2.1 + 0.55 * index, 8.4 + 0.25 * (index % 3), 0.2, 64, restitution=160)
    yield from steps(700, 1)


def joint(first, second, length, start=(0, 0), end=(0, 0)):
    """Holds a point of the body in one slot at a distance from a point of the body in another."""
    points = {"from": place(*start), "to": place(*end)}
    return {"do": "joint", "a": f"{first}.1", "b": f"{second}.1", **points, "length": u(length)}


def pendulums():
    """Three discs on joints of half a metre, one and two, let go at 40 degrees; a tick a step, as joints want it."""
    yield GRAVITY
    angle = math.radians(40)
    for index, length in enumerate((0.5, 1, 2)):
        x = 2 * index
        yield post(x, 0, 0.05)
        yield ball(x + length * math.sin(angle), -length * math.cos(angle), 0.15, 64)
        yield joint(2 * index, 2 * index + 1, length)
    yield from steps(600, 1)


def bridge():
    """Four planks on five joints between two posts, and a ball that falls on them."""
    planks, half, radius, gap = 4, 0.4, 0.1, 0.1
    end = half + radius
    span = 2 * end + gap
    rough = {"friction": 160}
    yield GRAVITY
    yield post(0, 0, 0.05)
    for index in range(planks):
        yield bar(index * span + gap + end, 0, 2 * half, radius, 256, **rough)
    yield post(planks * span + gap, 0, 0.05)
    for index in range(planks + 1):
        first, second = (0 if index == 0 else end, 0), (0 if index == planks else -end, 0)
        yield joint(index, index + 1, gap + 0.01, first, second)
    yield ball(2.25, 1.2, 0.3, 128, **rough)
    yield from steps(600, 1)


def moving_platform():
    """A platform that goes to the right and back again, with two capsules on it."""
    rough = {"friction": 200}
    platform = {"capsule": [place(-1, 0), place(1, 0)], "radius": u(0.15), **rough}
    yield GRAVITY
    yield wall((-3, 0), (6, 0), **rough)
    yield {"do": "create", "kind": "kinematic", "at": place(0, 1), "velocity": [u(1) // 256, 0], "shapes": [platform]}
    yield bar(-0.4, 1.3, 0.4, 0.15, 256, **rough)
    yield bar(0.4, 1.3, 0.4, 0.15, 256, **rough)
    yield from steps(512, 1)
    yield {"do": "set_velocity", "body": "1.1", "velocity": [-u(1) // 256, 0], "spin": 0}
    yield from steps(256, 1)
    yield {"do": "set_velocity", "body": "1.1", "velocity": [0, 0], "spin": 0}
    yield from steps(132, 1)


def main():
    for scene in (bouncing_balls, capsule_wall, pinball, pendulums, bridge, moving_platform):
        with open(os.path.join(HERE, scene.__name__), "w") as script:
            for request in scene():
                script.write(json.dumps(request, separators=(",", ":")) + "\n")


if __name__ == "__main__":
    main()
