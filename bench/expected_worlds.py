"""Makes worlds in metres and runs them by the built program. For bench/expectations."""
import json
import math
import subprocess
import sys

METRE = 1 << 20
UNIT = 1 << 30
REACH = 1 << 24
RATES = (60, 120, 240, 256)
TICKS = (1, 2, 4, 8)
WEIGHT = 9.80665
FLOOR = 128  # the friction of floors and discs, in 256ths


def u(metres):
    return round(metres * METRE)


def gravity(rate):
    return {"do": "gravity", "by": [0, -u(WEIGHT / rate / rate)]}


def segment(x, y=0, restitution=0):
    """A static segment of 32 m that lies flat, round a place."""
    shape = {"segment": [[-REACH, 0], [REACH, 0]], "restitution": restitution, "friction": FLOOR}
    return {"do": "create", "kind": "static", "at": [x, y], "shapes": [shape]}


def floor(restitution, width):
    """Segments side by side, from 32 m before the origin to 16 m or more beyond the width."""
    return [segment(x, restitution=restitution) for x in range(-REACH, width + REACH, 2 * REACH)]


def post(x, y):
    return {"do": "create", "kind": "static", "at": [x, y], "shapes": [{"circle": [0, 0], "radius": METRE // 20}]}


def disc(x, y, radius, mass=256, **surface):
    """A disc of even density; its place and its radius in u."""
    shape = {"circle": [0, 0], "radius": radius, "friction": FLOOR, **surface}
    return {"do": "create", "kind": "dynamic", "mass": mass, "inertia": mass * radius * radius // 2, "at": [x, y], "shapes": [shape]}


def capsule(x, y, half, radius, mass=256, angle=0.0, **surface):
    """A capsule of even density whose core is twice `half` long; lengths in u, the angle in radians."""
    box, ends, core = 4 * half * radius, math.pi * radius * radius, 2 * half
    moment = box * (core * core + 4 * radius * radius) / 12
    moment += ends * (radius * radius / 2 + core * core / 4 + 4 * core * radius / (3 * math.pi))
    shape = {"capsule": [[-half, 0], [half, 0]], "radius": radius, "friction": FLOOR, **surface}
    made = {"do": "create", "kind": "dynamic", "mass": mass, "inertia": round(mass * moment / (box + ends)), "at": [x, y]}
    return {**made, "facing": [round(UNIT * math.cos(angle)), round(UNIT * math.sin(angle))], "shapes": [shape]}


def joint(first, second, length, start=(0, 0), end=(0, 0)):
    """Holds a point of the body in one slot at a distance from a point of the body in another."""
    return {"do": "joint", "a": f"{first}.1", "b": f"{second}.1", "from": list(start), "to": list(end), "length": length}


def push(slot, mass, metres, rate):
    """Changes the velocity of a body by so many metres a second, in x and in y."""
    return {"do": "push", "body": f"{slot}.1", "by": [round(mass * part * METRE / rate) for part in metres]}


def line(request):
    return json.dumps(request, separators=(",", ":")) + "\n"


def answers(program, asked):
    done = subprocess.run([program], input="".join(map(line, asked)), capture_output=True, text=True)
    if done.returncode:
        sys.exit(f"the program ended with {done.returncode}: {done.stderr[-200:]}")
    return [json.loads(answer) for answer in done.stdout.splitlines()]


def run(program, made, slots, rate, ticks, seconds, every=1):
    """What is shown of the bodies in these slots: a list at the start, after each so many steps, and at the end."""
    steps = rate * seconds // ticks
    shows = [{"do": "show", "body": f"{slot}.1"} for slot in slots]
    asked = [gravity(rate), *made, *shows]
    for step in range(1, steps + 1):
        asked.append({"do": "step", "ticks": ticks})
        if step % every == 0 or step == steps:
            asked += shows
    shown = [answer for answer in answers(program, asked) if "at" in answer]
    return [shown[k:k + len(slots)] for k in range(0, len(shown), len(slots))]


def seldom(rate, ticks):
    """After how many steps about a fifteenth of a second has passed."""
    return max(1, rate // ticks // 15)


def speed(shown, mass, rate):
    """In metres a second."""
    return math.hypot(*shown["p"]) / mass * rate / METRE


def table(title, first, rows):
    """Prints a table of Markdown: a row for each name, with what it is at each of the ticks a second."""
    print(f"\n{title}\n")
    print(f"| {first} | " + " | ".join(f"{rate} ticks a second" for rate in RATES) + " |")
    print("|---" * (len(RATES) + 1) + "|")
    for name, cell in rows:
        print(f"| {name} | " + " | ".join(cell(rate) for rate in RATES) + " |", flush=True)


def a_step(ticks):
    return f"{ticks} tick{'s' if ticks > 1 else ''} a step"
