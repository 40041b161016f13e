#!/usr/bin/env python3
"""Proves crates as the gate does, and keeps what it has proved, so that a later run proves only what changed.

    tools/prove.py [CHECKOUT] [--tests] [--edits] [--from OTHER] [CRATE..]

It proves these crates and all below them, or with no name every crate, side by side. `--tests` proves their tests too,
and `--edits` tries the edits of `must-fail/` by `rt must-fail`. `--from` first takes what another checkout has proved of
the same text. Where the kit's `rt ci` keeps what it has proved on the machine, that is taken too. The checkout is that of
this script where none is named.

A proof stands as long as the crate's own files and the libraries below are the same, byte for byte. A change of proofs
alone leaves a library as it was, so the crates above aren't proved again. The libraries lie in `crates/*/out`, where
`rt check` takes them up. Only `rt ci` is the verdict: run it before a change is merged.

It calls functions within the kit's command `rt`, and may need a change where another kit has other ones.
"""

import copy
import hashlib
import importlib.machinery
import importlib.util
import os
import shutil
import subprocess
import sys
import threading
import time
from functools import lru_cache
from pathlib import Path

HERE = Path(__file__).resolve().parent.parent


def load_rt(checkout):
    """The command `rt` as a module, at work in this checkout."""
    command = shutil.which("rt")
    if not command:
        sys.exit("there is no command rt")
    path = Path(command).resolve()
    sys.path.insert(0, str(path.parent))
    loader = importlib.machinery.SourceFileLoader("rt_command", str(path))
    rt = importlib.util.module_from_spec(importlib.util.spec_from_loader("rt_command", loader))
    os.chdir(checkout)
    loader.exec_module(rt)
    begin = rt.rtlib.Crate.__init__

    def begin_with_files(self, *given, **named):
        begin(self, *given, **named)
        rt.read_files(self)

    rt.rtlib.Crate.__init__ = begin_with_files
    # (a crate asks for the stamps of all below it, each of which does so again)
    rt.rtlib.Crate.stamp = lru_cache(None)(rt.rtlib.Crate.stamp)
    rt.rtlib.Crate = rt.Crate
    rt.Crate.cuts_libraries = True
    rt.Crate.allowed = rt.handles_of(str(checkout))
    # (its first call sets a signal's handler, which only the main thread may)
    rt.rtlib.guarded()
    return rt


class Chain:
    """The crates of a checkout, and what of them is proved."""

    def __init__(self, rt, checkout, names, other):
        self.rt, self.other = rt, other
        self.crates = sorted(rt.rtlib.crates_below(str(checkout)), key=lambda crate: len(crate.below()))
        unknown = set(names) - {crate.name for crate in self.crates}
        if unknown:
            sys.exit(f"no such crate: {', '.join(sorted(unknown))}")
        named = [crate for crate in self.crates if not names or crate.name in names]
        asked = {each.name for crate in named for each in [crate, *crate.below()]}
        self.crates = [crate for crate in self.crates if crate.name in asked]
        self.sums, self.failed, self.begun = {}, [], time.monotonic()
        self.printing = threading.Lock()
        # (what `rt ci` keeps beside the kit; older kits keep nothing)
        self.store = rt.Kept(self.crates) if hasattr(rt, "Kept") else None

    def tell(self, text):
        with self.printing:
            print(f"{(time.monotonic() - self.begun) / 60:6.1f} {text}", flush=True)

    def sum_of_library(self, crate):
        """A sum over the bytes of a proved library."""
        if crate.name not in self.sums:
            total, folder = hashlib.sha256(), Path(crate.rlib).parent
            for file in sorted(folder.rglob("*")):
                if file.is_file() and file.name != "stamp":
                    total.update(f"{file.relative_to(folder)}\n{file.stat().st_size}\n".encode())
                    total.update(file.read_bytes())
            self.sums[crate.name] = total.hexdigest()
        return self.sums[crate.name]

    def key_of(self, crate, edits=()):
        """A sum over all that a proof of the crate reads, and over these edits."""
        total = hashlib.sha256(repr((crate.said, Path(self.rt.KIT, "KIT-ID").read_bytes())).encode())
        for file in [*self.rt.rtlib.files_of(crate.folder), *edits]:
            total.update(repr((str(file).replace(crate.folder, ""), Path(file).read_bytes())).encode())
        for below in crate.below():
            total.update(self.sum_of_library(below).encode())
        return total.hexdigest()

    def stamp(self, crate):
        """Says to `rt check` that the crate's library is that of its present text."""
        if crate.makes_rlib():
            Path(crate.rlib).parent.joinpath("stamp").write_text(crate.stamp())

    def is_kept(self, crate, note, key):
        """Whether a note says that what has this key was proved, here or in the other checkout."""
        has_library = note != "proof" or not crate.makes_rlib() or Path(crate.rlib).is_dir()
        file = Path(crate.folder, "out", f"kept_{note}")
        if has_library and file.is_file() and file.read_text() == key:
            return True
        if not self.other:
            return False
        there = Path(self.other, "crates", crate.name, "out")
        if not (there / file.name).is_file() or (there / file.name).read_text() != key:
            return False
        file.parent.mkdir(exist_ok=True)
        if note == "proof" and crate.makes_rlib():
            shutil.rmtree(Path(crate.rlib).parent, ignore_errors=True)
            shutil.copytree(there / "rlib", Path(crate.rlib).parent)
        shutil.copyfile(there / file.name, file)
        return True

    def is_taken(self, crate, note, key):
        """Whether `rt ci` has proved the same on this machine. What it made is laid into `out/`, and noted as proved."""
        if not self.store:
            return False
        if note == "proof" and crate.makes_rlib():
            # (what stands there would make the kit drop what it keeps)
            shutil.rmtree(Path(crate.rlib).parent, ignore_errors=True)
        if not self.store.give(crate, note == "tests", self.store.key(crate)):
            return False
        kept = Path(crate.folder, "out", f"kept_{note}")
        kept.parent.mkdir(exist_ok=True)
        kept.write_text(key)
        return True

    def prove(self, crate, note, given, jobs):
        """Proves the crate, or its tests, unless that is done."""
        lacking = [below.name for below in crate.below() if not given[below.name, "proof"]]
        if lacking:
            self.tell(f"{crate.name}: {note} not tried, since {lacking[0]} isn't proved")
            return self.end(crate, note, False)
        key = self.key_of(crate)
        if not self.is_kept(crate, note, key) and not self.is_taken(crate, note, key):
            log, begun = Path(crate.folder, "out", f"{note}.log"), time.monotonic()
            log.parent.mkdir(exist_ok=True)
            tried = copy.copy(crate)
            with open(log, "w", errors="replace") as tried.out:
                try:
                    status = tried.ci(["--jobs", str(jobs)], note == "tests")
                except SystemExit:
                    status = 2
            self.tell(f"{crate.name}: {note} {'NOT ' if status else ''}proved, {(time.monotonic() - begun) / 60:.1f} min by {jobs}")
            if status:
                return self.end(crate, note, False)
            log.with_name(f"kept_{note}").write_text(key)
        if note == "proof":
            self.stamp(crate)
            if self.store:
                self.store.is_built(crate)
        return self.end(crate, note, True)

    def try_edits(self, crate, given):
        """Tries the crate's edits of the gate, unless that is done."""
        edits, _ = self.rt.edits_of(crate)
        if not (given[crate.name, "proof"] and given.get((crate.name, "tests"), True)):
            return self.end(crate, "edits", False)
        key = self.key_of(crate, edits)
        if self.is_kept(crate, "edits", key):
            return True
        begun = time.monotonic()
        tried = subprocess.run(["rt", "must-fail", crate.name], stdout=subprocess.PIPE, stderr=subprocess.STDOUT, text=True, errors="replace")
        Path(crate.folder, "out", "edits.log").write_text(tried.stdout)
        self.tell(f"{crate.name}: {len(edits)} edits {'NOT ' if tried.returncode else ''}refused, {(time.monotonic() - begun) / 60:.1f} min")
        if tried.returncode == 0:
            Path(crate.folder, "out", "kept_edits").write_text(key)
            return True
        return self.end(crate, "edits", False)

    def end(self, crate, note, is_well):
        if not is_well:
            self.failed.append(f"{crate.name} ({note})")
        return is_well

    def run(self, tests, edits):
        tasks = {}
        for crate in self.crates:
            waits = [(below.name, "proof") for below in crate.below()]
            lines, memory = crate.count(rb"\n"), self.rt.need(crate)
            notes = ["proof"] + ["tests"] * (tests and crate.has_tests())
            for note in notes:
                work = lambda given, jobs, crate=crate, note=note: self.prove(crate, note, given, jobs)
                tasks[crate.name, note] = (waits, lines, memory, work)
            if edits and self.rt.edits_of(crate)[0]:
                work = lambda given, jobs, crate=crate: self.try_edits(crate, given)
                tasks[crate.name, "edits"] = ([(crate.name, note) for note in notes], lines, memory, work)
        self.rt.in_lanes(tasks)


def main(words):
    checkout, names, flags, other = HERE, [], set(), None
    while words:
        word = words.pop(0)
        if word == "--from" and words:
            other = Path(words.pop(0)).resolve()
        elif word.startswith("--"):
            flags.add(word)
        elif (Path(word) / "crates.txt").is_file():
            checkout = Path(word).resolve()
        else:
            names.append(word)
    if flags - {"--tests", "--edits"}:
        sys.exit(__doc__)
    sys.argv[1:] = ["help"]
    chain = Chain(load_rt(checkout), checkout, names, other)
    chain.run("--tests" in flags, "--edits" in flags)
    chain.tell(f"{len(chain.crates)} crates, failed: {' '.join(chain.failed) or 'none'}")
    sys.exit(1 if chain.failed else 0)


if __name__ == "__main__":
    main(sys.argv[1:])
