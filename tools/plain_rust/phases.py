#!/usr/bin/env python3
"""Tells how long each phase of a step takes by the clock: tools/plain_rust/phases.py COPY SCENE.. [--workers N,..] [--repeat N] [--all].

COPY is what `convert.py COPY --workers` wrote: clocks are put into it, and it is built. SCENE is a script as `bench/scenes` writes it. For each number of
workers stand the microseconds of the calling thread: of each step, but for the first four, the least of all repeats, and the mean over the steps. With --all
steps are solved by parts that aren't worth it as well. Run it on a machine with nothing else to do."""

import argparse
import collections
import subprocess
import sys
from pathlib import Path

HERE = Path(__file__).resolve().parent
FIRST_STEPS = 4

# In the code of which crate before what line which phase ends.
ENDS = [
    ("contacts", "    mapper.map_pieces(lent, &mut pieces, answers)\n", "collide: near pairs found, pieces cut"),
    ("contacts", "    if !is_done {\n        return Mapped {\n", "collide: pieces worked"),
    ("contacts", "    keep(&mut answers, kept);\n", "collide: answers joined"),
    ("world_core", "    let changes = list_changes(", "collide: the rest"),
    ("world_core", "        let sums = solve(\n", "collide carried out"),
    ("part_solver", "        let plan = PartPlan {\n", "parts dealt, constraints listed"),
    ("part_solver", "    if !mapper.map_seats(", "seats and rings made"),
    ("part_solver", "        walk(step, ", "bodies seen"),
    ("part_solver", "        let outcome = run(", "rows gathered"),
    ("part_solver", "        Part {\n            number,\n            lists,\n            sums", "ticks of its part, with waits"),
    ("part_solver", "    let sums = sum_up(parts);\n", "wait for the other parts"),
    ("part_solver", "    read_bodies(states, parts, home);\n", "impulses put back"),
    ("world_core_base", "        move_bodies(\n            &mut self.bodies", "bodies read back, or all solved by one thread"),
    ("world_core", "        let rest = rest_after_ticks(", "bodies moved"),
    ("world_core", "        self.steps += 1;\n        self.calls += 1;\n", "timers, sleep phase"),
    ("drive", "            steps.push(time);\n", "what begins and ends the step"),
]
BEGIN = ("drive", "            let time = timed(|| stepper(", "shim::phases::begin();")
END = ("drive", "            if each {\n", "shim::phases::tell();")
CLOCKS = '''
pub mod phases {
    use std::cell::RefCell;
    use std::time::Instant;

    thread_local! {
        static STEP: RefCell<Option<(Instant, std::vec::Vec<(&'static str, u128)>)>> = const { RefCell::new(None) };
    }

    pub fn begin() {
        STEP.set(Some((Instant::now(), std::vec::Vec::new())));
    }

    pub fn end(phase: &'static str) {
        STEP.with_borrow_mut(|step| {
            if let Some((last, phases)) = step {
                let now = Instant::now();
                phases.push((phase, (now - *last).as_nanos()));
                *last = now;
            }
        });
    }

    pub fn tell() {
        if let Some((_, phases)) = STEP.take() {
            let told: std::vec::Vec<_> = phases.iter().map(|(phase, time)| format!("{phase}={time}")).collect();
            eprintln!("{}", told.join(";"));
        }
    }
}
'''


def put(copy, crate, before, call):
    """Puts a call before a line that stands once in a crate."""
    if any(call in file.read_text() for file in copy.joinpath(crate).rglob("*.rs")):
        return
    files = [file for file in copy.joinpath(crate).rglob("*.rs") if before in file.read_text()]
    if len(files) != 1 or files[0].read_text().count(before) != 1:
        sys.exit(f"{crate}: not once: {before!r}")
    files[0].write_text(files[0].read_text().replace(before, f"{call}\n{before}"))


def put_clocks(copy):
    shim = copy / "shim/src/lib.rs"
    if CLOCKS not in shim.read_text():
        shim.write_text(shim.read_text() + CLOCKS)
    for crate, before, phase in ENDS:
        put(copy, crate, before, f'shim::phases::end("{phase}");')
    put(copy, *BEGIN)
    put(copy, *END)


def run(program, lines, options):
    """The nanoseconds of each phase of each step."""
    ran = subprocess.run([program, *options], input=lines, capture_output=True, text=True, check=True)
    steps = []
    for line in ran.stderr.splitlines():
        phases = collections.Counter()
        for told in line.split(";"):
            phase, time = told.split("=")
            phases[phase] += int(time)
        steps.append(phases)
    return steps[FIRST_STEPS:]


def least(runs):
    """The mean over the steps of the least of all runs, in microseconds."""
    phases = [phase for _, _, phase in ENDS]
    return {phase: sum(min(step[phase] for step in same) for same in zip(*runs)) / len(runs[0]) / 1e3 for phase in phases}


def main():
    parser = argparse.ArgumentParser()
    parser.add_argument("copy", type=Path)
    parser.add_argument("scenes", type=Path, nargs="+")
    parser.add_argument("--workers", default="1,4")
    parser.add_argument("--repeat", type=int, default=10)
    parser.add_argument("--all", action="store_true")
    given = parser.parse_args()
    put_clocks(given.copy)
    subprocess.run(["cargo", "build", "--offline", "--release", "--quiet"], cwd=given.copy, check=True)
    program = given.copy.resolve() / "target/release/drive"
    counts = given.workers.split(",")
    for scene in given.scenes:
        lines = subprocess.run([HERE / "compact.py"], stdin=scene.open(), capture_output=True, text=True, check=True).stdout
        runs = {count: [] for count in counts}
        for _ in range(given.repeat):
            for count in counts:
                runs[count].append(run(program, lines, [f"--workers={count}", *(["--all"] if given.all and count != "1" else [])]))
        table = {count: least(runs[count]) for count in counts}
        print(scene.name)
        for _, _, phase in ENDS:
            if any(round(table[count][phase]) for count in counts):
                print(f"{phase:48}", *(f"{table[count][phase]:8.0f}" for count in counts))
        print(f"{'all':48}", *(f"{sum(table[count].values()):8.0f}" for count in counts), flush=True)


if __name__ == "__main__":
    main()
