"""What is to be expected of joints: a pendulum, ropes, bridges. For bench/expectations."""
import math
import os
import sys

sys.path.append(os.path.join(os.path.dirname(os.path.dirname(os.path.abspath(__file__))), "examples"))
from world import World  # noqa: E402

from expected_worlds import (  # noqa: E402
    METRE, TICKS, WEIGHT, a_step, capsule, disc, gravity, joint, post, push, run, seldom, speed, table, u,
)

ROPE_MASS = 64
LINK = METRE // 2
PLANK_MASS = 256


def pendulum(program, degrees, rate, ticks):
    """A disc on a joint of 1 m, let go at this angle: the largest angle to the vertical in each ten of 60 seconds, in degrees."""
    angle = math.radians(degrees)
    made = [post(0, 0), disc(u(math.sin(angle)), -u(math.cos(angle)), METRE // 10), joint(0, 1, METRE)]
    shown = run(program, made, [1], rate, ticks, 60)[1:]
    angles = [abs(math.degrees(math.atan2(one["at"][0], -one["at"][1]))) for (one,) in shown]
    share = len(angles) // 6
    return [max(angles[k * share:(k + 1) * share]) for k in range(6)]


def pendulums(program):
    def cell(degrees, ticks):
        return lambda rate: f"{pendulum(program, degrees, rate, ticks)[-1]:.1f}°"

    rows = [(f"10°, {a_step(ticks)}", cell(10, ticks)) for ticks in TICKS]
    rows += [(f"{degrees}°, 1 tick a step", cell(degrees, 1)) for degrees in (60, 90)]
    table("A pendulum of 1 m: the largest angle in the last ten of sixty seconds", "Let go at", rows)
    growth = ", ".join(f"{angle:.1f}" for angle in pendulum(program, 10, 240, 4))
    print(f"\nFrom 10 degrees at 240 ticks a second and 4 a step, in each ten seconds: {growth}")


def hanging(links):
    """The places of a rope's ends and discs, in balance: its slope changes by the same at each disc."""
    def along(bend):
        slopes = [bend * (k - (links - 1) / 2) for k in range(links)]
        return [(LINK / math.hypot(1, slope), LINK * slope / math.hypot(1, slope)) for slope in slopes]

    low, high = 0.0, 64.0
    while high - low > 1e-12:
        bend = (low + high) / 2
        if sum(x for x, _ in along(bend)) > 0.9 * links * LINK:
            low = bend
        else:
            high = bend
    places = [(0.0, 0.0)]
    for x, y in along(low):
        places.append((places[-1][0] + x, places[-1][1] + y))
    return [(round(x), round(y)) for x, y in places]


def rope(links):
    places = hanging(links)
    made = [post(*places[0]), *(disc(x, y, METRE // 10, ROPE_MASS) for x, y in places[1:-1]), post(*places[-1])]
    return made + [joint(k, k + 1, LINK) for k in range(links)]


def height_of_energy(shown, rate):
    """The energy of place and of motion of a rope's discs, as metres of height for each."""
    heights = [one["at"][1] / METRE + speed(one, ROPE_MASS, rate) ** 2 / (2 * WEIGHT) for one in shown]
    return sum(heights) / len(heights)


def gain(moments, rate):
    heights = [height_of_energy(shown, rate) for shown in moments]
    asleep = moments[-1][0]["set"].startswith("sleeping")
    return f"{max(heights) - heights[0]:.2f} m" + (", asleep" if asleep else "")


def free_rope(program, links, pushed, rate, ticks):
    made = rope(links)
    if pushed:
        made.append(push(links // 2, ROPE_MASS, (0.5, 0), rate))
    return gain(run(program, made, range(1, links), rate, ticks, 30, seldom(rate, ticks)), rate)


def braked_rope(program, links, rate, ticks):
    """As before, but each step begins with a push against each disc's momentum, of an eighth of it."""
    world = World(program)
    shows = [{"do": "show", "body": f"{slot}.1"} for slot in range(1, links)]
    world.ask_all([gravity(rate), *rope(links)])
    moments = [world.ask_all(shows)]
    for _ in range(rate * 30 // ticks):
        brakes = [{"do": "push", "body": show["body"], "by": [-part // 8 for part in one["p"]]} for show, one in zip(shows, moments[-1])]
        moments.append(world.ask_all([*brakes, {"do": "step", "ticks": ticks}, *shows])[-len(shows):])
    world.end()
    return gain(moments, rate)


def ropes(program):
    def free(links, pushed, ticks):
        return lambda rate: free_rope(program, links, pushed, rate, ticks)

    def braked(links, ticks):
        return lambda rate: braked_rope(program, links, rate, ticks)

    rows = []
    for links in (4, 8, 16):
        for pushed in (False, True):
            name = f"{links} links, {'pushed once' if pushed else 'left alone'}"
            rows += [(f"{name}, {a_step(ticks)}", free(links, pushed, ticks)) for ticks in (1, 4)]
    rows += [(f"16 links, slowed each step, {a_step(ticks)}", braked(16, ticks)) for ticks in (1, 4)]
    table("Ropes between two posts: the most energy that a disc gains in 30 seconds, as height", "Rope", rows)


def bridge(program, planks, rate, ticks):
    """The fastest plank in the last two of 30 seconds, of a bridge that begins straight. Its joints are 2 mm longer than its gaps."""
    half, radius, gap = METRE * 2 // 5, METRE // 10, METRE // 10
    end = half + radius
    span = 2 * end + gap
    made = [post(0, 0)]
    made += [capsule(k * span + gap + end, 0, half, radius, PLANK_MASS) for k in range(planks)]
    made.append(post(planks * span + gap, 0))
    for k in range(planks + 1):
        first, second = [0 if k == 0 else end, 0], [0 if k == planks else -end, 0]
        made.append(joint(k, k + 1, gap + METRE // 500, first, second))
    moments = run(program, made, range(1, planks + 1), rate, ticks, 30, seldom(rate, ticks))
    fastest = max(speed(one, PLANK_MASS, rate) for shown in moments[-30:] for one in shown)
    asleep = moments[-1][0]["set"].startswith("sleeping")
    return f"{fastest:.2f} m/s" + (", asleep" if asleep else "")


def bridges(program):
    def cell(planks, ticks):
        return lambda rate: bridge(program, planks, rate, ticks)

    rows = [(f"{planks} planks, {a_step(ticks)}", cell(planks, ticks)) for planks in (4, 8, 20) for ticks in (1, 4)]
    table("Bridges of planks of 1 m: the fastest plank after half a minute", "Bridge", rows)
