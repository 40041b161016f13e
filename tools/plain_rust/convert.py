#!/usr/bin/env python3
"""Writes a plain Rust copy of the crates up to `world_queries`, so that a change can be timed before it is proved.

    tools/plain_rust/convert.py OUT [--repository TOP] [--workers]

OUT becomes a workspace of cargo: each crate without its contracts, and a program `drive` that times steps and rays. Contracts,
ghost items and models are dropped, and `shim` beside this script stands for the parts of the kit's library that the crates
use. Saving and loading are left out. Written again after an edit, only files that differ are written. With --workers the copy has
`world_workers` and what it stands on as well, over `crew` and `rtrb` beside this script, and `drive` makes steps by workers.

    cd OUT && cargo build --offline --release
    bench/scenes SCENES --scenes pyramid --sizes 1000 --steps 100
    tools/plain_rust/compact.py < SCENES/pyramid_1000_100 | OUT/target/release/drive [--each] [--sum] [--rounds=N] [--workers=N [--all]]

`drive` prints the processor time of the steps, of the rays and of the regions, with --rounds=N the least of N rounds of those;
--each prints each step's, and --sum a number over all motions, events and answers, which stays the same where two versions
answer alike. On a busy machine count instructions in place of time, as by
`valgrind --tool=callgrind`. With --workers=N it prints the time by the clock, of steps by N workers; with --all also those steps are
solved by parts that aren't worth it.
"""

import argparse
import re
from pathlib import Path

HERE = Path(__file__).resolve().parent
TOP_CRATE = "world_queries"
TOP_OF_WORKERS = "world_workers"
# Crates of the repository and of the kit that a crate of plain Rust beside this script stands for, and on what it stands.
STOOD_FOR = {"crew": ["fixed_geom"], "rtrb": []}
# What only saving and loading need, and what stands in the code of other crates for them.
SAVING = {"world_file_base", "world_file"}
SAVING_FILES = {("body_handles", "ids.rt"), ("world_core", "world/loading.rt"), ("world_core", "world/saving.rt")}
SAVING_CRATES = {crate for crate, _ in SAVING_FILES}
SAVING_LINES = re.compile(r"^(?:mod loading;|mod saving;|mod ids;|pub use ids::[^;]*;|pub use world_file::[^;]*;|pub use serde_json[^;]*;)\n", re.M)

CLAUSE = re.compile(r"^[ \t]*(?:ensures|requires|decreases)\b", re.M)
# A drop ends by taking its value apart, and plain Rust does that by itself.
DROPPED_BLOCK = re.compile(r"^impl(?:<[^>]*>)? (?:Model|Drop) for [^{]*", re.M)
# Each is dropped wherever it stands.
DROPPED = [
    re.compile(r"^[ \t]*ghost use [^;]*;\n", re.M),
    re.compile(r"^[ \t]*(?:pub )?ghost [A-Za-z_]+ *[=:] *\{[^\n]*\}[;,]?\n", re.M),
    re.compile(r"^[ \t]*#!?\[tactic\([^\n]*\)\]\n", re.M),
    re.compile(r"^#\[cycle\([a-z]*\)\]\n", re.M),
    re.compile(r"^[ \t]*#\[error\([^\n]*\)\]\n", re.M),
    re.compile(r"^#\[derive\(Drop\)\]\n", re.M),
    re.compile(r"^#\[derive_where\([^\n]*\)\]\n", re.M),
    re.compile(r"^use (?:std::marker::Model|thiserror::Error);\n", re.M),
    re.compile(r"#\[cfg\(test\)\]\nmod [a-z_]+;\n"),
]
# Each is written in place of the other.
WRITTEN = [
    (re.compile(r"\buse (?:std::alloc|smallvec)::"), "use shim::"),
    (re.compile(r"\buse std::num::\{"), "use shim::{"),
    (re.compile(r"\buse std::(?:sync::(?=Wait;|Arc;|\{Arc)|snapshot::|thread::(?=\{|Threads;))"), "use shim::"),
    (re.compile(r"\buse std::sync::atomic::\{AtomicU64, Ordering\}"), "use shim::{AtomicU64, Ordering}"),
    (re.compile(r"\bthread::scope(?=\(|_env)"), "shim::scope"),
    (re.compile(r", Error\)\]"), ")]"),
    (re.compile(r": Copy \+ Drop\b"), ": Copy"),
    (re.compile(r" \+ Drop\b"), ""),
    (re.compile(r"\buse std::marker::\{Model, PhantomData\}"), "use std::marker::PhantomData"),
    (re.compile(r"\n +[A-Z][\w:]*: Drop,(?=\n)"), ""),
    (re.compile(r"\nwhere(?=\n\{)"), ""),
    (re.compile(r": Drop\b"), ""),
    (re.compile(r"\bvec!\[in (\w+); ([^;\]]+); ([^;\]]+)\]"), r"shim::Vec::filled(\1, \2, \3)"),
]
QUIET = "#![allow(dead_code, unused_imports, unused_variables, unused_mut, unused_must_use)]\n"
PACKAGE = '[package]\nname = "{name}"\nversion = "0.1.0"\nedition = "2024"\n\n[dependencies]\nshim = {{ path = "../shim" }}\n'
WORKSPACE = '[workspace]\nresolver = "2"\nmembers = [{members}]\n\n[profile.release]\nlto = "fat"\ncodegen-units = 1\npanic = "abort"\ndebug = 1\n'


def crates_of(repository, tops):
    """The crates that are copied for these, each with those of them on which it stands."""
    below = dict(STOOD_FOR)
    for line in (repository / "crates.txt").read_text(encoding="utf-8").splitlines():
        name, colon, rest = line.partition("#")[0].partition(":")
        if colon and name.strip() not in STOOD_FOR:
            below[name.strip()] = rest.split()
    found, waiting = set(), list(tops)
    while waiting:
        crate = waiting.pop()
        if crate in below and crate not in SAVING and crate not in found:
            found.add(crate)
            waiting += below[crate]
    return {crate: [each for each in below[crate] if each in found] for crate in below if crate in found}


def end_of_braces(text, start):
    """The place behind the brace that closes the first one from `start` on."""
    depth = 0
    for place in range(text.index("{", start), len(text)):
        depth += {"{": 1, "}": -1}.get(text[place], 0)
        if depth == 0:
            return place + 1
    raise SystemExit("a brace that nothing closes")


def without_blocks(text, head):
    """A text without the blocks in braces that follow this head. Where a trait's method ends with one, its `;` stays."""
    parts, place = [], 0
    for found in iter(lambda: head.search(text, place), None):
        parts.append(text[place : found.start()])
        place = end_of_braces(text, found.end())
        if text.startswith(";", place):
            parts = ["".join(parts).rstrip() + ";"]
            place += 1
        place = re.compile(r"[ \t]*\n?").match(text, place).end()
    return "".join(parts) + text[place:]


def converted(text, is_root):
    """A file of Rattle as one of Rust."""
    text = without_blocks(without_blocks(text, DROPPED_BLOCK), CLAUSE)
    for pattern in DROPPED:
        text = pattern.sub("", text)
    for pattern, other in WRITTEN:
        text = pattern.sub(other, text)
    inner = re.match(r"(?:(?://!|#!\[)[^\n]*\n|\n)*", text).end()
    return (QUIET if is_root else "") + text[:inner] + "use shim::{AllocGlobal, Box, Vec};\n" + text[inner:]


def write_changed(path, text):
    path.parent.mkdir(parents=True, exist_ok=True)
    if not path.is_file() or path.read_text(encoding="utf-8") != text:
        path.write_text(text, encoding="utf-8")


def copy_file(name, out):
    """Copies a file that is plain Rust already."""
    write_changed(out / name, (HERE / name).read_text(encoding="utf-8"))


def write_package(folder, name, below):
    lines = "".join(f'{crate} = {{ path = "../{crate}" }}\n' for crate in below)
    write_changed(folder / "Cargo.toml", PACKAGE.format(name=name) + lines)


def write_crate(repository, out, crate, below):
    source = repository / "crates" / crate / "src"
    for path in sorted(source.rglob("*.rt")):
        name = path.relative_to(source)
        if name.parts[0].startswith("tests") or (crate, name.as_posix()) in SAVING_FILES:
            continue
        text = converted(path.read_text(encoding="utf-8"), name.as_posix() == "lib.rt")
        write_changed(out / crate / "src" / name.with_suffix(".rs"), SAVING_LINES.sub("", text) if crate in SAVING_CRATES else text)
    write_package(out / crate, crate, below)


def main():
    words = argparse.ArgumentParser(description=__doc__, formatter_class=argparse.RawDescriptionHelpFormatter)
    words.add_argument("out", type=Path)
    words.add_argument("--repository", type=Path, default=HERE.parent.parent)
    words.add_argument("--workers", action="store_true")
    given = words.parse_args()
    crates = crates_of(given.repository, [TOP_CRATE, TOP_OF_WORKERS] if given.workers else [TOP_CRATE])
    for crate, below in crates.items():
        if crate in STOOD_FOR:
            copy_file(f"{crate}/src/lib.rs", given.out)
            write_package(given.out / crate, crate, below)
        else:
            write_crate(given.repository, given.out, crate, below)
    for name in ("Cargo.toml", "src/lib.rs", "src/threads.rs"):
        copy_file(f"shim/{name}", given.out)
    write_package(given.out / "drive", "drive", crates)
    steps = "workers.rs" if given.workers else "alone.rs"
    for name, place in (("main.rs", "main.rs"), (steps, "steps.rs")):
        write_changed(given.out / "drive" / "src" / place, (HERE / "drive" / name).read_text(encoding="utf-8"))
    members = ", ".join(f'"{crate}"' for crate in [*crates, "shim", "drive"])
    write_changed(given.out / "Cargo.toml", WORKSPACE.format(members=members))


if __name__ == "__main__":
    main()
