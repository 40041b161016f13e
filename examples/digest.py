#!/usr/bin/env python3
"""The digest of a saved world, worked out from docs/WORLD.md (section 16) and from nothing else.

    examples/digest.py FILE..      a saved world a file, as `save` answers it, with or without {"world":..} round it

It prints 64 hexadecimal digits for each. The library and the program answer the same for the world that was saved.
"""

import hashlib
import json
import sys
from math import isqrt
from pathlib import Path

FACTOR = 11400714819323198485
WORD = (1 << 64) - 1


class Sums:
    """Four sums, of which the first takes the next word and becomes the last."""

    def __init__(self):
        self.sums = [1, 2, 3, 4]

    def take(self, *words):
        for word in words:
            first, *others = self.sums
            product = (first ^ (int(word) & WORD)) * FACTOR & WORD
            self.sums = others + [(product << 32 | product >> 32) & WORD]

    def wide(self, *numbers):
        for number in numbers:
            self.take(number, int(number) >> 64)

    def digest(self):
        return hashlib.sha256(b"".join(total.to_bytes(8, "little") for total in self.sums)).hexdigest()


FORMS = ("circle", "capsule", "segment")


def take_shape(sums, shape):
    form = next(number for number, name in enumerate(FORMS) if name in shape)
    ends = [shape["circle"]] * 2 if form == 0 else shape[FORMS[form]]
    sums.take(form, *ends[0], *ends[1], shape.get("radius", 0), shape["friction"], shape["restitution"])
    sums.take(shape["category"], shape["mask"], shape["group"])


def take_body(sums, body):
    sums.take(*body["p"])
    sums.wide(body["l"])
    sums.take(*body["at"], *body["facing"], body["mass"], body["inertia"])
    sums.take(("static", "kinematic", "dynamic").index(body["kind"]), *body.get("velocity", (0, 0)), body.get("spin", 0))
    sums.take(body["enabled"], body["island"] + 1 if body["asleep"] else 0, body["timer"])
    sums.take(len(body["shapes"]))
    for shape in body["shapes"]:
        take_shape(sums, shape)
    sums.take(len(body["shapes"]))
    for shape in body["shapes"]:
        sums.take(*shape["fat"][0], *shape["fat"][1])


def slot_of(id_):
    return int(id_.split(".")[0])


def take_joint(sums, joint):
    sums.take(slot_of(joint["a"]), slot_of(joint["b"]), joint["collide"], *joint["from"], *joint["to"], joint["length"], joint["impulse"])


def take_point(sums, point):
    sums.take(1, *point["normal"], point["sep"], *point["ra"], *point["rb"], point["push"], point["slip"], point["candidate"])


def number_of(shape):
    return shape[0] * 256 + shape[1]


def take_contact(sums, contact, bodies):
    shapes = [bodies[slot]["body"]["shapes"][index] for slot, index in (contact["a"], contact["b"])]
    friction = isqrt(shapes[0]["friction"] * shapes[1]["friction"])
    restitution = max(shape["restitution"] for shape in shapes)
    sums.take(number_of(contact["a"]), number_of(contact["b"]), friction, restitution)
    for place in range(2):
        if place < len(contact["points"]):
            take_point(sums, contact["points"][place])
        else:
            sums.take(0)


def take_slots(sums, slots, key, take):
    """The generations of slots, and then what stands in them."""
    sums.take(len(slots))
    for slot in slots:
        sums.take(slot["generation"], key in slot)
    sums.take(len(slots))
    for slot in slots:
        sums.take(key in slot)
        if key in slot:
            take(sums, slot[key])


def take_labels(sums, bodies):
    sums.take(len(bodies))
    for slot in bodies:
        body = slot.get("body", {})
        if body.get("island") is None:
            sums.take(0)
        else:
            sums.take(1, body["island"], 2 if body["asleep"] else 1 if body["loose"] else 0)


def take_colours(sums, joints, contacts, overflow):
    """The constraints of each colour: joints by slot, and then contacts by their shapes."""
    coloured = [(slot["joint"]["colour"], (0, number, slot["generation"])) for number, slot in enumerate(joints) if "joint" in slot]
    coloured += [(contact["colour"], (1, number_of(contact["a"]), number_of(contact["b"]))) for contact in contacts]
    for colour in range(25):
        members = [words for kept, words in coloured if kept is not None and (24 if kept == overflow else kept) == colour]
        sums.take(len(members))
        for words in members:
            sums.take(*words)


def digest_of(world):
    sums = Sums()
    take_slots(sums, world["bodies"], "body", take_body)
    take_slots(sums, world["joints"], "joint", take_joint)
    sums.take(len(world["contacts"]))
    for contact in world["contacts"]:
        take_contact(sums, contact, world["bodies"])
    take_labels(sums, world["bodies"])
    take_colours(sums, world["joints"], world["contacts"], 12 if world["version"] == 1 else 24)
    sums.take(*world["gravity"], world["step"], world["call"])
    for cause in ("command", "gravity", "immovable", "clamp", "rest", "departed"):
        sums.wide(*world["ledger"][cause])
    return sums.digest()


def main(words):
    if not words:
        sys.exit(__doc__)
    for word in words:
        value = json.loads(Path(word).read_text(encoding="utf-8"))
        print(digest_of(value.get("world", value)))


if __name__ == "__main__":
    main(sys.argv[1:])
