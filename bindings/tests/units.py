#!/usr/bin/env python3
"""The lines of units.c, by the owner for Python; and a test that numbers don't wrap, ids can be keys, and masses are those that the formulas of
`plain_world/Presets` have as fractions."""

import math
import pickle
import sys
from fractions import Fraction
from pathlib import Path

sys.path.insert(0, str(Path(__file__).resolve().parent.parent / "python"))
from dillmonth import (METRE, NOBODY, RATE, Body, Command, Do, Handle, Refused, Status, Vec, at, capsule, capsule_mass, circle, circle_mass,  # noqa: E402
                       degrees, gravity, kilograms, metres, push_of, share, speed, spin, ticks, velocity)


def print_units(value):
    print(*at(value, -value), *degrees(value * 9.25), *gravity(value / 7, -value), *push_of(201, value, value / 3, 120), speed(value), speed(value, 60),
          spin(value, 256), kilograms(value), share(value), ticks(value, RATE))


def mass_or_none(call, *sizes):
    try:
        return call(*sizes)
    except Refused as refused:
        assert refused.status == Status.OUT_OF_RANGE
        return 0, 0


def within(mass, inertia):
    """What the definitions say of a mass and an inertia, each to the nearest whole number."""
    mass = math.floor(mass + Fraction(1, 2))
    inertia = math.floor(inertia(mass) + Fraction(1, 2))
    return (mass, inertia) if 1 <= mass <= 2**20 and inertia <= 2**60 else (0, 0)


def by_definition(h, r, density):
    pi = Fraction(355, 113)
    disc = within(density * pi * r * r / 2**40, lambda m: Fraction(m * r * r, 2))
    return disc, within(density * (4 * r * h + pi * r * r) / 2**40, lambda m: m * (8 * h * (h * h + 3 * r * r) + 3 * pi * r * (r * r + 2 * h * h)) / (6 * (4 * h + pi * r)))


def print_masses(half, radius, density):
    found = mass_or_none(circle_mass, radius, density), mass_or_none(capsule_mass, half, radius, density)
    if max(half, radius) <= 2**24 and radius > 0:
        assert found == by_definition(half, radius, density)
    print(*found[0], *found[1])


def raises(error, call):
    try:
        call()
    except error:
        return True
    return False


def test_values():
    command = Command(kind=Do.STEP)
    assert raises(OverflowError, lambda: Vec(2**63, 0)) and raises(OverflowError, lambda: circle(2**64 + 5)) and raises(TypeError, lambda: circle(0.5))
    assert raises(OverflowError, lambda: setattr(command, "ticks", 2**64 + 1)) and raises(OverflowError, lambda: Body.dynamic((0, 0), 2**63, 1))
    assert Handle(1, 1) == Handle(1, 1) != Handle(1, 2) and {Handle(1, 1): 7}[Handle(1, 1)] == 7 and Handle(1, 1) in [Handle(1, 1)]
    assert pickle.loads(pickle.dumps(Vec(3, -4))) == Vec(3, -4) and tuple(Vec(3, -4)) == (3, -4) and str(Refused(11)) == "11"


def main():
    test_values()
    for i in range(-200, 201):
        print_units(i * 0.37)
    seed = 1
    for _ in range(300):
        sizes = []
        for _ in range(3):
            seed = seed * 48271 % 2147483647
            sizes.append(seed >> (seed % 3 * 3 + 7))
        print_masses(sizes[0], sizes[1], sizes[2] >> 6)
    print_masses(METRE // 2, METRE // 8, 256)
    print_masses(METRE // 2, METRE // 2, 256)
    print_masses((1 << 24) + 1, METRE, 256)
    print_masses(METRE, -1, 256)
    shape, body = capsule(at(-1, 0), at(1, 0), metres(0.25)), Body.kinematic(at(2, 3), velocity(1, 0))
    print(shape.form, shape.group, shape.second.x, shape.radius, shape.category, shape.mask)
    print(body.kind, *body.facing, body.velocity.x)
    handle = Handle(7, 9)
    print(handle.packed(), int(Handle.unpacked(handle.packed()) == handle != NOBODY))


main()
