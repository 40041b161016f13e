#!/usr/bin/env python3
"""Draws the diagrams of the pages, each for light and for dark ones, in docs/pictures.

    tools/docs/diagrams.py            writes them
    tools/docs/diagrams.py --check    writes nothing, and fails where one isn't what this script makes

- `storeys`: the crates in their storeys, from crates.txt. A crate stands on crates of its own storey and of lower ones (`storeys.py`).
- `step_path`: the stages of a step. docs/ARCHITECTURE.md has the functions.
- `steps`: the first table of docs/BENCH.md with other programs beside this one. A row of it has the scene and its bodies, then the nanoseconds of this
  world, of Box2D and of Chipmunk, each of the two with its ratio. What stands further right isn't drawn.
"""

import re
import sys

from sources import TOP, read_lines, read_storeys

PICTURES = TOP / "docs" / "pictures"
WIDTH = 960


def words(x, y, line, fill, size=11.5, weight="normal", anchor="middle"):
    return f'<text x="{x:g}" y="{y:g}" font-size="{size}" font-weight="{weight}" text-anchor="{anchor}" fill="{fill}">{line}</text>'


def arrow_tip(size, colour):
    """The tip of the arrows of a diagram."""
    return (
        f'<defs><marker id="tip" viewBox="0 0 8 8" refX="7" refY="4" markerWidth="{size:g}" markerHeight="{size:g}" orient="auto">'
        f'<path d="M0 0 L8 4 L0 8 z" fill="{colour}"/></marker></defs>'
    )


def drawn(height, colours, parts, tip=""):
    """A diagram of these parts on its ground."""
    ground = f'<rect width="{WIDTH}" height="{height}" fill="{colours["ground"]}"/>'
    body = "\n".join(filter(None, [tip, ground, *parts]))
    return f'<svg xmlns="http://www.w3.org/2000/svg" viewBox="0 0 {WIDTH} {height}" font-family="sans-serif" font-size="13">\n{body}\n</svg>\n'


# ---- the crates in their storeys

LEFT, GAP = 218, 8
BOX, LETTER, PADDING = 26, 7.3, 18
STOREYS_LIGHT = {
    "ground": "#ffffff", "bands": ("#f3f6fa", "#e9eef5"), "name": "#44546a", "box": "#ffffff", "edge": "#9db2cc", "text": "#1f2a38",
}
STOREYS_DARK = {
    "ground": "#0d1117", "bands": ("#161c25", "#1c2430"), "name": "#a9b8cc", "box": "#0d1117", "edge": "#4a5f7c", "text": "#dbe4f0",
}


def rows_of(crates):
    """The boxes of a storey, as rows of a crate, its left side and its width."""
    rows, x = [[]], LEFT
    for crate in crates:
        width = round(len(crate) * LETTER + PADDING)
        if x + width > WIDTH - GAP and rows[-1]:
            rows.append([])
            x = LEFT
        rows[-1].append((crate, x, width))
        x += width + GAP
    return rows


def lay_out(storeys):
    """The bands, each a name, its top and its height; the boxes by crate, each its corner and width; and the picture's height."""
    bands, boxes, y = [], {}, GAP
    for name, crates in reversed(storeys):
        rows = rows_of(crates)
        height = len(rows) * (BOX + GAP) + 2 * GAP
        bands.append((name, y, height))
        for number, row in enumerate(rows):
            top = y + 12 + number * (BOX + GAP)
            boxes.update({crate: (x, top, width) for crate, x, width in row})
        y += height + 10
    return bands, boxes, y


def draw_band(band, number, colours):
    name, top, height = band
    fill = colours["bands"][number % 2]
    return (
        f'<rect x="{GAP}" y="{top}" width="{WIDTH - 2 * GAP}" height="{height}" rx="6" fill="{fill}"/>'
        f'<text x="{GAP + 12}" y="{top + height / 2 + 4:g}" font-weight="bold" fill="{colours["name"]}">{name}</text>'
    )


def draw_box(crate, box, colours):
    x, y, width = box
    return (
        f'<rect x="{x}" y="{y}" width="{width}" height="{BOX}" rx="4" fill="{colours["box"]}" stroke="{colours["edge"]}"/>'
        f'<text x="{x + width / 2:g}" y="{y + 17}" text-anchor="middle" font-family="monospace" font-size="12" '
        f'fill="{colours["text"]}">{crate}</text>'
    )


def storeys(colours):
    layers, _ = read_storeys(read_lines(TOP / "crates.txt"))
    bands, boxes, height = lay_out(layers)
    parts = [draw_band(band, number, colours) for number, band in enumerate(bands)]
    parts += [draw_box(crate, box, colours) for crate, box in boxes.items()]
    legend = "A crate stands on crates of its own storey and of lower ones."
    parts.append(words(GAP + 12, height + 10, legend, colours["name"], size=12, anchor="start"))
    return drawn(height + 24, colours, parts)


# ---- the stages of a step

STAGE_TALL, PATH_HEIGHT = 76, 448
PATH_LIGHT = {
    "ground": "#ffffff", "text": "#1f2a38", "faint": "#5f6f85", "line": "#7b8ca3",
    "free": "#eef3fa", "commit": "#f6f1e8", "box": "#ffffff", "edge": "#9db2cc", "ticks": "#eae2d2",
}
PATH_DARK = {
    "ground": "#0d1117", "text": "#dbe4f0", "faint": "#93a4ba", "line": "#71839b",
    "free": "#141c28", "commit": "#1f1b14", "box": "#0d1117", "edge": "#4a5f7c", "ticks": "#302817",
}
# Each stage: its name, and two lines on what it does.
REFUSABLE = (
    ("collide", "near pairs are found,", "contacts evaluated anew"),
    ("begins and ends", "listed in the order of keys,", "with their movers"),
    ("who will wake", "the movers of sleeping", "islands that are touched"),
    ("room", "for rows, colours,", "islands and entries"),
)
COMMIT = (
    ("contacts", "become what the", "collide made of them"),
    ("islands", "woken, merged, made", "loose in order of keys"),
    ("colours", "taken and given up;", "rows are gathered"),
)
TICKS = (
    ("gravity", "and the speed limit"),
    ("warm start", "colour after colour"),
    ("solve", "overflow last"),
    ("move", "speed limit, place, facing"),
)
AFTER = (
    ("restitution", "once, after", "the last tick"),
    ("fat boxes", "anew where a shape", "has left its own"),
    ("sleep phase", "timers; one loose island is", "split, ready islands rest"),
    ("ledger and events", "one entry a cause; who", "touched, slept and woke"),
)


def panel(x, y, width, height, fill):
    return f'<rect x="{x}" y="{y}" width="{width}" height="{height}" rx="8" fill="{fill}"/>'


def stage_box(x, y, width, stage, colours):
    name, *lines = stage
    yield f'<rect x="{x}" y="{y}" width="{width}" height="{STAGE_TALL}" rx="5" fill="{colours["box"]}" stroke="{colours["edge"]}"/>'
    yield words(x + width / 2, y + 24, name, colours["text"], size=13.5, weight="bold")
    for number, line in enumerate(lines):
        yield words(x + width / 2, y + 45 + 16 * number, line, colours["faint"])


def arrow(path, colours):
    return f'<path d="{path}" fill="none" stroke="{colours["line"]}" stroke-width="1.6" marker-end="url(#tip)"/>'


def stage_row(x, y, stages, width, gap, colours):
    for number, stage in enumerate(stages):
        left = x + number * (width + gap)
        yield from stage_box(left, y, width, stage, colours)
        if number:
            yield arrow(f"M{left - gap + 2} {y + STAGE_TALL / 2:g} H{left - 3}", colours)


def first_row(colours):
    yield panel(8, 8, WIDTH - 16, 124, colours["free"])
    yield words(24, 30, "May be refused for memory: nothing of the world has changed yet", colours["faint"], size=12.5, anchor="start")
    yield from stage_row(24, 42, REFUSABLE, 200, 37, colours)


def second_row(colours):
    yield panel(8, 142, WIDTH - 16, 298, colours["commit"])
    yield words(116, 164, "The commit: nothing can fail any more", colours["faint"], size=12.5, anchor="start")
    yield arrow(f"M{WIDTH - 125} {42 + STAGE_TALL} V137 H100 V173", colours)
    yield from stage_row(24, 176, COMMIT, 158, 18, colours)


def ticks(colours):
    left, top, width = 556, 152, 388
    yield panel(left, top, width, 144, colours["ticks"])
    yield arrow(f"M{24 + 3 * 158 + 2 * 18 + 2} {176 + STAGE_TALL / 2:g} H{left + 11}", colours)
    yield words(left + 14, top + 17, "1 to 8 ticks", colours["faint"], size=12.5, anchor="start")
    for number, (name, line) in enumerate(TICKS):
        x, y = left + 14 + (number % 2) * 188, top + 26 + (number // 2) * 58
        yield f'<rect x="{x}" y="{y}" width="172" height="46" rx="5" fill="{colours["box"]}" stroke="{colours["edge"]}"/>'
        yield words(x + 86, y + 20, name, colours["text"], size=13.5, weight="bold")
        yield words(x + 86, y + 37, line, colours["faint"])
    yield arrow(f"M{left + 187} {top + 49} H{left + 199}", colours)
    yield arrow(f"M{left + 288} {top + 73} V{top + 77} H{left + 100} V{top + 82}", colours)
    yield arrow(f"M{left + 187} {top + 107} H{left + 199}", colours)
    yield arrow(f"M{left + 375} {top + 107} H{left + 382} V{top + 16} H{left + 100} V{top + 23}", colours)


def third_row(colours):
    yield arrow("M920 297 V306 H112 V319", colours)
    yield from stage_row(24, 322, AFTER, 200, 37, colours)
    yield words(24, 424, "Kinematic bodies are carried along at the end of each tick.", colours["faint"], size=12, anchor="start")


def step_path(colours):
    parts = [*first_row(colours), *second_row(colours), *ticks(colours), *third_row(colours)]
    return drawn(PATH_HEIGHT, colours, parts, arrow_tip(6.5, colours["line"]))


# ---- the first table of measurements

ROW = re.compile(r"\| (\w+), ([\d,]+) \| ([\d,]+) \| ([\d,]+) \| [\d.]+ \| ([\d,]+) \| [\d.]+ \|")
PROGRAMS = ("this world", "Box2D 2.4", "Chipmunk 7")
PANEL, PLOT, PLOT_TOP, BAR = 228, 200, 74, 17
PANELS, ROW_HEIGHT, FOOT = 4, 262, 40  # panels side by side, and the heights of a row of them and of the last line
BARS_LIGHT = {"ground": "#ffffff", "text": "#1f2a38", "faint": "#5f6f85", "grid": "#dde4ed", "bars": ("#2f6fd0", "#c7863a", "#7d8ea3")}
BARS_DARK = {"ground": "#0d1117", "text": "#dbe4f0", "faint": "#93a4ba", "grid": "#263041", "bars": ("#6ea8ff", "#e0a458", "#8796aa")}


def read_table(text):
    """The scenes in their order, each with the bodies and the three times of its rows."""
    scenes = {}
    for scene, *numbers in ROW.findall(text):
        bodies, *times = (int(number.replace(",", "")) for number in numbers)
        scenes.setdefault(scene, []).append((bodies, times))
    return scenes


def step_of(top):
    """The distance of the lines of a grid that has two to four of them."""
    return next(step for step in (50, 100, 200, 250, 500, 1000, 2000, 5000) if top / step <= 4.2)


def draw_grid(left, base, top_time, colours):
    step = step_of(top_time)
    for time in range(0, top_time + 1, step):
        y = base - PLOT * time / (top_time * 1.08)
        yield f'<path d="M{left + 34} {y:g} H{left + PANEL - 6}" stroke="{colours["grid"]}"/>'
        yield words(left + 30, y + 4, f"{time:,}", colours["faint"], size=11, anchor="end")


def draw_bars(left, base, rows, top_time, colours):
    for group, (bodies, times) in enumerate(rows):
        start = left + 42 + group * (3 * BAR + 12)
        for number, time in enumerate(times):
            height = PLOT * time / (top_time * 1.08)
            x = start + number * BAR
            yield f'<rect x="{x}" y="{base - height:.1f}" width="{BAR - 2}" height="{height:.1f}" rx="1.5" fill="{colours["bars"][number]}"/>'
        yield words(start + 1.5 * BAR - 1, base + 17, f"{bodies:,}", colours["text"], size=11)


def draw_panel(number, scene, rows, colours):
    left = 8 + number % PANELS * (PANEL + 10)
    base = PLOT_TOP + PLOT + number // PANELS * ROW_HEIGHT
    top_time = max(max(times) for _, times in rows)
    yield words(left + 34, base - PLOT - 12, scene, colours["text"], size=14, anchor="start", weight="bold")
    yield from draw_grid(left, base, top_time, colours)
    yield from draw_bars(left, base, rows, top_time, colours)


def draw_legend(height, colours):
    yield words(42, 24, "Nanoseconds for a body and a step of 4 ticks, by number of bodies", colours["text"], size=14, anchor="start")
    for number, program in enumerate(PROGRAMS):
        x = 600 + number * 118
        yield f'<rect x="{x}" y="14" width="12" height="12" rx="2" fill="{colours["bars"][number]}"/>'
        yield words(x + 18, 24, program, colours["text"], size=13, anchor="start")
    yield words(42, height - 16, "Less is faster. Each scene has its own scale.", colours["faint"], size=12, anchor="start")


def steps(colours):
    page = (TOP / "docs" / "BENCH.md").read_text(encoding="utf-8")
    scenes = read_table(page[page.index("## Beside Box2D and Chipmunk") : page.index("## Where a step's time goes")])
    rows = -(-len(scenes) // PANELS)
    height = PLOT_TOP + PLOT + (rows - 1) * ROW_HEIGHT + 26 + FOOT
    parts = list(draw_legend(height, colours))
    for number, (scene, rows_of_scene) in enumerate(scenes.items()):
        parts += draw_panel(number, scene, rows_of_scene, colours)
    return drawn(height, colours, parts)


# ---- all of them

DIAGRAMS = {
    "storeys": (storeys, STOREYS_LIGHT, STOREYS_DARK),
    "step_path": (step_path, PATH_LIGHT, PATH_DARK),
    "steps": (steps, BARS_LIGHT, BARS_DARK),
}


def main(arguments):
    if arguments not in ([], ["--check"]):
        sys.exit(__doc__)
    stale = []
    for name, (draw, light, dark) in DIAGRAMS.items():
        for file, colours in ((f"{name}.svg", light), (f"{name}_dark.svg", dark)):
            path, text = PICTURES / file, draw(colours)
            if not arguments:
                path.write_text(text, encoding="utf-8")
            elif not path.is_file() or path.read_text(encoding="utf-8") != text:
                stale.append(file)
    if stale:
        sys.exit(f"not what tools/docs/diagrams.py makes: {', '.join(stale)}")


if __name__ == "__main__":
    main(sys.argv[1:])
