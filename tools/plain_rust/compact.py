#!/usr/bin/env python3
"""Writes a script of the program `world_script` as the compact lines that `drive` reads: compact.py < SCRIPT.

A line has a letter and numbers with spaces between: `g` gravity, `c` a body of one shape, `j` a joint, `x` a body destroyed, `p` a
push, `D` and `E` a body disabled and enabled, `z` one put to sleep, `s` a step, `r` a ray among all shapes, `q` a region. Other
requests that change nothing are left out.
"""

import json
import sys

ASKS = {"ledger", "show", "census", "frame"}
ONE_BODY = {"destroy": "x", "disable": "D", "enable": "E", "sleep": "z"}


def flat(points):
    return [number for point in points for number in point]


def body(request):
    """A body by its first shape; `drive` knows no others."""
    shape = request["shapes"][0]
    form = next(name for name in ("circle", "segment", "capsule") if name in shape)
    numbers = shape[form] if form == "circle" else flat(shape[form])
    numbers = numbers + [shape["radius"]] if "radius" in shape else numbers
    mass = [request.get("mass", 0), request.get("inertia", 0)]
    return ["c", request["kind"], *mass, *request["at"], form, shape.get("friction", 0), *numbers]


def joint(request):
    ends = request["a"].split(".") + request["b"].split(".")
    return ["j", *ends, *request["from"], *request["to"], request["length"], int(request.get("collide", False))]


def compact(request):
    """The words of a request, none where it changes nothing."""
    asked = request["do"]
    if asked == "gravity":
        return ["g", *request["by"]]
    if asked == "create":
        return body(request)
    if asked == "joint":
        return joint(request)
    if asked == "push":
        return ["p", *request["body"].split("."), *request["by"]]
    if asked in ONE_BODY:
        return [ONE_BODY[asked], *request["body"].split(".")]
    if asked == "step":
        return ["s", request["ticks"]]
    if asked == "ray":
        return ["r", *request["from"], *request["along"]]
    if asked == "region":
        return ["q", *request["lo"], *request["hi"]]
    if asked in ASKS:
        return []
    sys.exit(f"drive knows no request {asked}")


def main():
    for line in filter(str.strip, sys.stdin):
        words = compact(json.loads(line))
        if words:
            print(*words)


if __name__ == "__main__":
    main()
