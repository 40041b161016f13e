#!/usr/bin/env python3
"""Turns worlds into pictures (SVG), by the answers of `world_script` alone.

    examples/pictures.py                              all pictures of docs/GALLERY.md, into docs/pictures
    examples/pictures.py SCRIPT STEP[,STEP..] FOLDER  the world of a script after these of its steps

The program is crates/world_script/out/world_script, or what the variable WORLD_SCRIPT names. The script goes to it with a `save`
after each step that is wanted, so a script may load worlds and have crowds. Movers are filled and have a line that
shows their facing; sleepers are paler; what is carried along is green, what stands grey. A brown line is a joint. A red
dot marks where two shapes touch that touched when the step began.
"""
import json
import math
import os
import subprocess
import sys

TOP = os.path.dirname(os.path.dirname(os.path.abspath(__file__)))
PROGRAM = os.environ.get("WORLD_SCRIPT", os.path.join(TOP, "crates/world_script/out/world_script"))
METRE = 1 << 20
UNIT = 1 << 30
PIXELS = 40  # a metre
GALLERY = {
    "bouncing_balls": [1, 230, 400, 600],
    "capsule_wall": [1, 75, 110, 300],
    "pinball": [1, 150, 350, 700],
    "pendulums": [1, 130, 260, 600],
    "bridge": [1, 60, 200, 600],
    "moving_platform": [1, 256, 512, 900],
}
FILLS = {"dynamic": "#7aa6d8", "asleep": "#d5e3f2", "kinematic": "#9cc79c", "static": "#b8b8b8", "disabled": "none"}


class Body:
    """A body of a saved world, in metres."""

    def __init__(self, saved):
        self.shapes = saved["shapes"]
        self.at = tuple(part / METRE for part in saved["at"])
        self.facing = tuple(part / UNIT for part in saved["facing"])
        self.enabled = saved["enabled"]
        self.fill = FILLS[fill_name(saved)]
        self.turns = saved["kind"] != "static"

    def in_world(self, point):
        (x, y), (c, s) = (part / METRE for part in point), self.facing
        return (self.at[0] + c * x - s * y, self.at[1] + s * x + c * y)

    def core(self, index):
        """The ends of a shape's core in the world, and its radius, in metres."""
        shape = self.shapes[index]
        if "circle" in shape:
            centre = self.in_world(shape["circle"])
            return centre, centre, shape["radius"] / METRE
        first, second = shape.get("capsule") or shape["segment"]
        return self.in_world(first), self.in_world(second), shape.get("radius", 0) / METRE


def fill_name(saved):
    if not saved["enabled"]:
        return "disabled"
    return "asleep" if saved["asleep"] else saved["kind"]


class Scene:
    """The bodies, the joints and the touching shapes of a saved world."""

    def __init__(self, world):
        slots = enumerate(world["bodies"])
        self.bodies = {slot: Body(entry["body"]) for slot, entry in slots if "body" in entry}
        self.joints = [entry["joint"] for entry in world["joints"] if "joint" in entry]
        self.touching = [(contact["a"], contact["b"]) for contact in world["contacts"] if contact["touching"]]

    def contact_points(self):
        for (slot, index), (other, place) in self.touching:
            yield touching_point(self.bodies[slot].core(index), self.bodies[other].core(place))

    def joint_lines(self):
        """The two points that each joint holds, where both its bodies are enabled."""
        for joint in self.joints:
            first, second = (self.bodies[int(joint[end].split(".")[0])] for end in "ab")
            if first.enabled and second.enabled:
                yield first.in_world(joint["from"]), second.in_world(joint["to"])


def nearest_on(core, point):
    (ax, ay), (bx, by), _ = core
    length = (bx - ax) ** 2 + (by - ay) ** 2
    along = ((point[0] - ax) * (bx - ax) + (point[1] - ay) * (by - ay)) / length if length else 0.0
    along = min(1.0, max(0.0, along))
    return (ax + along * (bx - ax), ay + along * (by - ay))


def touching_point(one, other):
    """Halfway between the two surfaces, where the cores are nearest to one another."""
    pairs = [(end, nearest_on(other, end)) for end in one[:2]] + [(nearest_on(one, end), end) for end in other[:2]]
    first, second = min(pairs, key=lambda pair: math.dist(*pair))
    apart = math.dist(first, second) or 1.0
    share = (one[2] + (apart - one[2] - other[2]) / 2) / apart
    return tuple(a + share * (b - a) for a, b in zip(first, second))


def shape_lines(body, index):
    """A shape as SVG, in metres with y upward."""
    (ax, ay), (bx, by), radius = body.core(index)
    fill = body.fill
    if "segment" in body.shapes[index]:
        yield f'<line x1="{ax:.4f}" y1="{ay:.4f}" x2="{bx:.4f}" y2="{by:.4f}" stroke="#555" stroke-width="0.05"/>'
        return
    edge = 'stroke="#333" stroke-width="0.02"'
    if "circle" in body.shapes[index]:
        yield f'<circle cx="{ax:.4f}" cy="{ay:.4f}" r="{radius:.4f}" fill="{fill}" {edge}/>'
    else:
        angle = math.degrees(math.atan2(by - ay, bx - ax))
        length = math.dist((ax, ay), (bx, by)) + 2 * radius
        box = f'x="{-radius:.4f}" y="{-radius:.4f}" width="{length:.4f}" height="{2 * radius:.4f}" rx="{radius:.4f}"'
        yield f'<rect {box} transform="translate({ax:.4f} {ay:.4f}) rotate({angle:.3f})" fill="{fill}" {edge}/>'
    if body.turns:
        (x, y), (c, s) = ((ax + bx) / 2, (ay + by) / 2), body.facing
        yield f'<line x1="{x:.4f}" y1="{y:.4f}" x2="{x + radius * c:.4f}" y2="{y + radius * s:.4f}" {edge}/>'


def drawn(scene, frame):
    """The scene as an SVG text. The frame is (left, bottom, right, top), in metres."""
    left, bottom, right, top = frame
    wide, high = right - left, top - bottom
    size = f'width="{wide * PIXELS:.0f}" height="{high * PIXELS:.0f}" viewBox="0 0 {wide:.4f} {high:.4f}"'
    lines = [f'<svg xmlns="http://www.w3.org/2000/svg" {size}>', '<rect width="100%" height="100%" fill="white"/>']
    lines.append(f'<g transform="translate({-left:.4f} {top:.4f}) scale(1 -1)">')
    for body in scene.bodies.values():
        for index in range(len(body.shapes)):
            lines.extend(shape_lines(body, index))
    for (ax, ay), (bx, by) in scene.joint_lines():
        lines.append(f'<line x1="{ax:.4f}" y1="{ay:.4f}" x2="{bx:.4f}" y2="{by:.4f}" stroke="#9a5b1e" stroke-width="0.03"/>')
    for x, y in scene.contact_points():
        lines.append(f'<circle cx="{x:.4f}" cy="{y:.4f}" r="0.05" fill="#d02020"/>')
    return "\n".join(lines + ["</g>", "</svg>", ""])


def bounds(scene):
    """The smallest frame with all shapes, and half a metre of margin."""
    boxes = [body.core(index) for body in scene.bodies.values() for index in range(len(body.shapes))]
    xs = [end[0] + side * core[2] for core in boxes for end in core[:2] for side in (-1, 1)]
    ys = [end[1] + side * core[2] for core in boxes for end in core[:2] for side in (-1, 1)]
    return [min(xs) - 0.5, min(ys) - 0.5, max(xs) + 0.5, max(ys) + 0.5]


def saved_worlds(script, wanted):
    """Runs a script, and yields each wanted step with the world after it, which `save` answers."""
    with open(script) as lines:
        requests = [line.strip() for line in lines if line.strip()]
    asked, step, marks = [], 0, []
    for request in requests:
        asked.append(request)
        if json.loads(request)["do"] == "step":
            step += 1
            if step in wanted:
                marks.append((step, len(asked)))
                asked.append('{"do":"save"}')
    run = subprocess.run([PROGRAM], input="\n".join(asked), capture_output=True, text=True, check=True)
    answers = run.stdout.splitlines()
    for step, place in marks:
        yield step, json.loads(answers[place])["world"]


def pictures(script, wanted, folder):
    """Writes NAME_STEP.svg for each wanted step of a script, all in one frame."""
    frame = None
    os.makedirs(folder, exist_ok=True)
    for step, world in saved_worlds(script, wanted):
        scene = Scene(world)
        frame = frame or bounds(scene)
        name = os.path.join(folder, f"{os.path.basename(script)}_{step}.svg")
        with open(name, "w") as picture:
            picture.write(drawn(scene, frame))
        print(os.path.relpath(name))


def main(words):
    if not os.path.exists(PROGRAM):
        sys.exit("there is no built program: `cd crates/world_script && rt run` builds it")
    if words:
        script, wanted, folder = words
        pictures(script, [int(step) for step in wanted.split(",")], folder)
        return
    for name, wanted in GALLERY.items():
        pictures(os.path.join(TOP, "examples", name), wanted, os.path.join(TOP, "docs/pictures"))


if __name__ == "__main__":
    main(sys.argv[1:])
