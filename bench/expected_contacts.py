"""What is to be expected of contacts: stacks, heavy on light, the seams of a floor, meetings in the air. For bench/expectations."""
import math

from expected_worlds import METRE, TICKS, a_step, capsule, disc, floor, push, run, segment, seldom, speed, table, u

RADIUS = METRE // 2
APART = 64 * METRE


def rests(shown, masses, rate):
    """Whether each of these bodies is slower than 1 mm/s."""
    return all(speed(one, mass, rate) < 0.001 for one, mass in zip(shown, masses))


def column(program, masses, rate, ticks, seconds):
    """Discs exactly above one another."""
    floors = floor(0, 0)
    made = floors + [disc(0, RADIUS + k * 2 * RADIUS, RADIUS, mass) for k, mass in enumerate(masses)]
    return run(program, made, range(len(floors), len(made)), rate, ticks, seconds, seldom(rate, ticks))


def deepest(shown):
    """The deepest overlap of a column, in mm."""
    heights = [one["at"][1] for one in shown]
    below = [0] + [height + RADIUS for height in heights[:-1]]
    return max(low - (height - RADIUS) for low, height in zip(below, heights)) * 1000 / METRE


def stack(program, count, rate, ticks):
    moments = column(program, [256] * count, rate, ticks, 10)
    if rests(moments[-1], [256] * count, rate):
        return f"rest, {deepest(moments[-1]):.1f} mm"
    top = max(shown[-1]["at"][1] for shown in moments) / METRE - (count - 0.5)
    return f"no rest, top up by {top:.2f} m"


def stacks(program):
    def cell(count, ticks):
        return lambda rate: stack(program, count, rate, ticks)

    rows = [(f"{count} balls, {a_step(ticks)}", cell(count, ticks)) for count in (2, 5, 10) for ticks in TICKS]
    rows += [(f"{count} balls, {a_step(ticks)}", cell(count, ticks)) for count in (20, 40) for ticks in (1, 4)]
    table("Stacks after ten seconds, with the deepest overlap", "Stack", rows)


def heavy_on_light(program, factor, rate, ticks):
    masses = [16, 16 * factor]
    moments = column(program, masses, rate, ticks, 5)
    up = max(shown[k]["at"][1] - RADIUS * (2 * k + 1) for shown in moments for k in range(2)) / METRE
    if rests(moments[-1], masses, rate):
        return f"rest, {deepest(moments[-1]):.1f} mm"
    if min(one["at"][1] for one in moments[-1]) < 0:
        return "through the floor"
    return f"no rest, up by {up:.2f} m"


def heavy(program):
    def cell(factor, ticks):
        return lambda rate: heavy_on_light(program, factor, rate, ticks)

    rows = [(f"{factor:,} times, {a_step(ticks)}", cell(factor, ticks)) for factor in (1, 10, 100, 1000) for ticks in (1, 4)]
    table("Heavy on light for five seconds", "The upper has the lower's mass", rows)


def seam(program, make, depth, joined, rate, ticks):
    """How far one of eight bodies rises in a second that slide at 5 m/s over a floor; they begin so deep in it, within a step."""
    made, pushes = [], []
    for k in range(8):
        y = 8 * k * METRE
        made += [segment(-(1 << 24), y), segment(1 << 24, y)] if joined else [segment(0, y)]
        start = -METRE - u(5 * ticks / rate) * k // 8
        made.append(make(start, y - depth * METRE // 1000))
        pushes.append(push(len(made) - 1, 256, (5, 0), rate))
    slots = [slot for slot, body in enumerate(made) if body["kind"] == "dynamic"]
    moments = run(program, made + pushes, slots, rate, ticks, 1)
    return f"{max(one['at'][1] - first['at'][1] for shown in moments for one, first in zip(shown, moments[0])) * 1000 / METRE:.1f} mm"


def seams(program):
    radius, bar = METRE * 3 // 10, METRE // 5
    bodies = (
        ("disc of 0.3 m", lambda x, y: disc(x, y + radius, radius)),
        ("lying capsule of 0.2 m", lambda x, y: capsule(x, y + bar, METRE // 2, bar)),
    )

    def cell(make, depth, joined, ticks):
        return lambda rate: seam(program, make, depth, joined, rate, ticks)

    rows = []
    for name, make in bodies:
        rows += [(f"{name}, {depth} mm deep, {a_step(ticks)}", cell(make, depth, True, ticks)) for depth in (1, 5) for ticks in (1, 4)]
        rows.append((f"{name}, 5 mm deep, no seam, 1 tick a step", cell(make, 5, False, 1)))
    table("Over the seam of two segments at 5 m/s: how far the body rises", "Body", rows)


def energy(shown, inertia, rate):
    """Of motion and of turning, in mass times (m/s)^2 / 2."""
    turning = sum(int(one["l"]) ** 2 / inertia for one in shown) * (rate / METRE) ** 2
    return sum(speed(one, 256, rate) ** 2 for one in shown) * 256 + turning


def turning(shown, middle, rate):
    """Angular momentum about a place on the line y = 0, in mass times m^2/s."""
    moments = (int(one["l"]) + (one["at"][0] - middle) * one["p"][1] - one["at"][1] * one["p"][0] for one in shown)
    return sum(moments) * rate / METRE / METRE


def meetings(program, make, surface, rate, ticks):
    """64 pairs that fly at one another at 4 m/s. Of those that meet, the energy afterwards in parts of that before, and the change
    of angular momentum in parts of what a body's momentum makes at a metre."""
    made, pushes = [], []
    for k in range(64):
        offset, angle = u(0.1 * (k % 8)), math.pi * (k // 8) / 8
        made += [make(k * APART - METRE, offset, angle, surface), make(k * APART + METRE, 0, 2 * angle + 1, surface)]
        pushes += [push(2 * k, 256, (2, 0), rate), push(2 * k + 1, 256, (-2, 0), rate)]
    floating = [{"do": "gravity", "by": [0, 0]}]
    moments = run(program, made + pushes + floating, range(128), rate, ticks, 1, every=rate)
    seen = []
    for k in range(64):
        before, after = (shown[2 * k:2 * k + 2] for shown in (moments[0], moments[-1]))
        if before[0]["p"] == after[0]["p"]:
            continue  # They have missed one another.
        kept = energy(after, made[2 * k]["inertia"], rate) / energy(before, made[2 * k]["inertia"], rate)
        seen.append((kept, abs(turning(after, k * APART, rate) - turning(before, k * APART, rate)) / (256 * 2)))
    return seen


def in_the_air(program):
    bodies = (
        ("discs", lambda x, y, angle, surface: disc(x, y, RADIUS, **surface)),
        ("capsules", lambda x, y, angle, surface: capsule(x, y, METRE // 2, METRE // 5, angle=angle, **surface)),
    )
    surfaces = (
        ("restitution 1, no friction", {"restitution": 256, "friction": 0}),
        ("restitution ½, friction ½", {"restitution": 128, "friction": 128}),
        ("restitution 0, friction ½", {"restitution": 0, "friction": 128}),
    )

    def cell(make, surface, ticks, which, form):
        return lambda rate: form(max(one[which] for one in meetings(program, make, surface, rate, ticks)))

    for which, title, form in (
        (0, "Meetings in the air: the most energy afterwards, in parts of that before", lambda part: f"{part:.3f}"),
        (1, "Meetings in the air: the greatest change of angular momentum, in parts of a body's momentum times a metre", lambda part: f"{part:.4f}"),
    ):
        rows = []
        for name, make in bodies:
            for text, surface in surfaces:
                rows += [(f"{name}, {text}, {a_step(ticks)}", cell(make, surface, ticks, which, form)) for ticks in (1, 4)]
        table(title, "Two", rows)
