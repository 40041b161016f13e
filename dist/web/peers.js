// Two peers that play one script in lockstep, each with a world of its own. What a hand does at one of them is told to the other, and both do it some steps later.
// After each step they compare digests.

import { textOf } from "./script.js";

const SHOWN = 200; // steps

export class Peers {
  constructor(runs, delay) {
    this.runs = runs;
    this.delay = delay;   // steps
    this.waiting = [];    // requests of hands, and before which step they are made
    this.parted = 0;      // the step after which the digests weren't the same any more
  }

  /** A request of a hand, for both. */
  send(line) {
    this.waiting.push({ line, step: this.runs[0].steps + this.delay });
    return { sent: true };
  }

  advance() {
    const { runs } = this, due = this.waiting.filter(({ step }) => step <= runs[0].steps);
    this.waiting = this.waiting.filter((each) => !due.includes(each));
    for (const run of runs) {
      for (const { line } of due) run.interfere(line);
      run.advance();
    }
    this.compare();
  }

  compare() {
    const [ours, theirs] = this.runs.map((run) => run.pairs.at(-1)?.[0]);
    if (ours !== theirs) this.parted ||= this.runs[0].steps;
  }

  /** The digests of both, of the last steps. */
  get pairs() {
    const [ours, theirs] = this.runs.map((run) => run.pairs.slice(-SHOWN));
    return ours.map(([digest], number) => [digest, theirs[number]?.[0] ?? null]);
  }

  goTo(step, milliseconds) {
    const [ours, theirs] = this.runs;
    this.waiting = [];
    ours.goTo(step, milliseconds);
    theirs.goTo(ours.steps);
    const [mine, other] = [ours.pairs, theirs.pairs];
    this.parted = mine.findIndex(([digest], number) => digest !== other[number]?.[0]) + 1;
  }

  /** The second peer pushes a body by the least that there is, and tells nobody. */
  lie(handle) {
    return this.runs[1].interfere({ do: "push", body: textOf(handle), by: [1n, 0n] });
  }

  /** The first peer sends its world, and the second one goes on with that. */
  mend() {
    const [ours, theirs] = this.runs;
    ours.cut();
    theirs.loadFrom(ours);
    this.waiting = [];
    this.parted = 0;
  }
}
