"""A game's loop over a world, in Python: it prints what the program falling_game prints.

    python3 bindings/python/falling_game.py
"""

import sys
from pathlib import Path

sys.path.insert(0, str(Path(__file__).resolve().parent))
from dillmonth import (METRE, Body, Refused, Set, Status, World, at, capsule, capsule_mass, circle, circle_mass, gravity, segment, share,  # noqa: E402
                       velocity)

HALF = METRE // 2
CENTIMETRE = METRE // 100
SLOPE = (1030792151, -300647711)


def make_scene(world):
    """The bodies by name."""
    rough = share(0.5)
    bar = capsule(at(-0.5, 0), at(0.5, 0), HALF // 4, friction=rough)
    movers = {
        "the ball": (Body.dynamic(at(-5, 4), *circle_mass(HALF)), circle(HALF, friction=rough)),
        "the stick": (Body.dynamic(at(3, 3), *capsule_mass(HALF, HALF // 4)), bar),
        "the coin": (Body.dynamic(at(0, 0.125), *circle_mass(HALF // 4)), circle(HALF // 4)),
    }
    for name, (body, _) in movers.items():
        print(f"{name} has the mass {body.mass} and the inertia {body.inertia}")
    scene = {
        "the floor": (Body.static(), segment(at(-8, 0), at(8, 0), friction=rough)),
        "the ramp": (Body.static(at(-4, 2), SLOPE), segment(at(-2, 0), at(2, 0), friction=rough)),
        **movers,
        "the lift": (Body.kinematic(at(0, 6), velocity(1, 0)), bar),
    }
    return {name: world.create_body(body, [shape]) for name, (body, shape) in scene.items()}


def whole(number, unit):
    """The quotient, rounded towards zero."""
    return number // unit if number >= 0 else -(-number // unit)


def main():
    world = World(gravity(0, -9.81))
    cast = make_scene(world)
    names = {handle.slot: name for name, handle in cast.items()}
    for frame in range(1, 241):
        if frame in (20, 200):
            try:
                world.push(cast["the coin"], (20000, 40000))
                print(f"{frame}: the coin is kicked")
            except Refused as refused:
                if refused.status != Status.STALE_HANDLE:
                    raise
                print(f"{frame}: there is no coin to kick")
        world.step(4)
        taken = False
        for pair in world.begun():
            met = names[pair.first.slot], names[pair.second.slot]
            print(f"{frame}: {met[0]} meets {met[1]}")
            taken = taken or set(met) == {"the ball", "the coin"}
        if taken:
            world.destroy_body(cast["the coin"])
            if world.body(cast["the coin"]) is None:
                print(f"{frame}: the coin is taken")
        if frame % 40 == 0:
            print(f"{frame}:")
            for pose in world.poses():
                if world.body(pose.handle).set != Set.STATIC:
                    print(f"   {names[pose.handle.slot]} is at {whole(pose.at.x, CENTIMETRE)}, {whole(pose.at.y, CENTIMETRE)} cm")


main()
