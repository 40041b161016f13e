// A script that is being played, step by step, and what the native program said of each step. Its last ten seconds can be gone back to.

import { Player, REBUILDS, writeExact } from "./script.js";

export const TICKS_A_SECOND = 256;
const KEPT = 10 * TICKS_A_SECOND; // ticks that one can go back
const BETWEEN = TICKS_A_SECOND / 4, BETWEEN_LARGE = TICKS_A_SECOND; // ticks from one kept world to the next
const LARGE = 500; // bodies
const NO_FLOATS = new Float64Array(0); // for how many bodies there are
const METRE = 1 << 20, UNIT = 1 << 30;

/** Where a run stands. */
const BEGINNING = {
  entries: 0,          // of the journal that are done
  next: 0,             // of the script's lines
  steps: 0,
  time: 0,             // ticks since the beginning
  ticks: 1n,           // of the last step
  version: 0,          // of the bodies, shapes and joints
  refusals: 0,
  isOurs: true,        // so far the script alone was played
  touched: null,       // the step after which somebody took part
  same: 0,             // how many of the script's steps have the native digest
  firstDifference: 0,
};

/** A run of a script from its beginning. Once its lines are over, or where somebody takes part, it goes on by itself. */
export class Run {
  /** `native` has the native program's digest after each step of the script, or is empty. */
  constructor(library, requests, native) {
    this.player = new Player(library);
    this.requests = requests;
    this.native = native;
    this.journal = [];       // each request that was made, and what was true then of the script
    this.digests = [];       // of each step, here and by the native program, or null
    this.now = { ...BEGINNING };
    this.versions = 0;       // that were given out
    this.headTime = 0;       // ticks from the beginning to the last step that was ever come to
    this.kept = [];          // worlds of the last seconds, each with where the run stood
    this.ownTicks = null;    // of each step, in place of the script's
    this.cost = 0;           // milliseconds of a step, smoothed
    this.relived = 0;        // the step after which the same requests gave another digest than the first time, which must not be
  }

  get world() { return this.player.world; }
  get isOver() { return this.now.next >= this.requests.length; }
  get steps() { return this.now.steps; }
  /** The last step that was ever come to, and the first that can be gone back to. */
  get head() { return this.digests.length; }
  get oldest() { return this.kept[0]?.now.steps ?? this.now.steps; }
  /** The digests up to where the run stands. */
  get pairs() { return this.isBehind ? this.digests.slice(0, this.now.steps) : this.digests; }
  /** Whether the journal goes on from here. */
  get isBehind() { return this.now.entries < this.journal.length; }

  close() {
    this.forget(this.kept.length);
    this.player.close();
  }

  // ---- requests ----

  /** Makes a request, and writes it into the journal. */
  ask(line) {
    const answer = this.player.ask(line);
    this.note(line, answer);
    return answer;
  }

  note(line, answer) {
    const { now } = this;
    if (!this.isBehind) this.journal.push({ line, then: { next: now.next, isOurs: now.isOurs, touched: now.touched } });
    now.entries += 1;
    if (answer.refused) now.refusals += 1;
    if (REBUILDS.has(line.do)) now.version = this.versions += 1;
    if (line.do === "step" && !answer.refused) this.stepped(line.ticks);
  }

  /** A request of somebody's own: from here on the world isn't the script's, and what was played after here is forgotten. */
  interfere(line) {
    this.takePart();
    return this.ask(line);
  }

  takePart() {
    this.cut();
    this.now.touched ??= this.now.steps;
    this.now.isOurs = false;
  }

  /** Forgets what was played after here. */
  cut() {
    const { now, kept } = this, beyond = kept.filter((each) => each.now.entries > now.entries).length;
    this.forget(beyond, kept.length - beyond);
    this.journal.length = now.entries;
    this.digests.length = now.steps;
    this.headTime = now.time;
  }

  /** Plays the lines before the next step, their commands in one call. A bad one throws, and is passed by. */
  begin() {
    let step = this.now.next;
    while (step < this.requests.length && this.requests[step].do !== "step") step += 1;
    const answered = this.player.askInBatches(this.requests.slice(this.now.next, step));
    while (this.now.next < step) {
      this.now.next += 1;
      this.note(...answered.next().value);
    }
  }

  // ---- steps ----

  /** Plays what the journal still has up to a step, else the lines up to the next step and that step, or a step of its own where there are no more. */
  advance() {
    if (this.isBehind) return this.repeat();
    this.keep();
    this.begin();
    const isScripted = !this.isOver, scripted = this.requests[this.now.next], ticks = this.ownTicks ?? scripted?.ticks ?? this.now.ticks;
    const line = ticks === scripted?.ticks ? scripted : { do: "step", ticks };
    if (isScripted && line !== scripted) this.takePart();
    if (isScripted) this.now.next += 1;
    else this.now.isOurs = false;
    const began = performance.now(), isFirst = this.now.steps === 0;
    this.ask(line);
    const took = performance.now() - began;
    this.cost = isFirst ? took : 0.9 * this.cost + 0.1 * took;
  }

  stepped(ticks) {
    const { now } = this, digest = this.world.digest(), native = now.isOurs ? this.native[now.steps] ?? null : null;
    now.ticks = ticks;
    now.time += Number(ticks);
    this.headTime = Math.max(this.headTime, now.time);
    if (this.digests.length === now.steps) this.digests.push([digest, native]);
    else if (this.digests[now.steps][0] !== digest) this.relived ||= now.steps + 1;
    now.steps += 1;
    if (!native) return;
    if (native === digest) now.same += 1;
    else now.firstDifference ||= now.steps;
  }

  // ---- back in time ----

  /** Keeps a copy of the world where the last one is old, and lets go of those that are older than can be gone back. */
  keep() {
    const { kept, now } = this, between = this.world.posesInto(NO_FLOATS) > LARGE ? BETWEEN_LARGE : BETWEEN;
    if (kept.length > 0 && now.time - kept.at(-1).now.time < between) return;
    const old = kept.findIndex((each) => each.now.time > now.time - KEPT);
    this.forget(Math.max(0, old - 1));
    try {
      kept.push({ world: this.world.copy(), now: { ...now } });
    } catch {
      this.forget(1); // there is no memory for one more
    }
  }

  /** Lets go of some kept worlds. */
  forget(count, from = 0) {
    for (const { world } of this.kept.splice(from, count)) world.close();
  }

  /** The requests of the journal up to a step, once more. */
  repeat() {
    while (this.isBehind) {
      const { line, then } = this.journal[this.now.entries];
      Object.assign(this.now, then);
      this.ask(line);
      if (line.do === "step") return;
    }
  }

  /**
   * Goes to the world after a step: from the last kept one before it, by the same requests. It stops before that where the time is over, so that a hand at the slider
   * needn't wait.
   */
  goTo(step, milliseconds = Infinity) {
    const until = performance.now() + milliseconds, kept = this.kept.findLast((each) => each.now.steps <= step);
    if (kept && (step < this.now.steps || kept.now.steps > this.now.steps)) this.restore(kept);
    while (this.now.steps < step && this.isBehind && performance.now() < until) this.repeat();
  }

  restore(kept) {
    const world = kept.world.copy();
    this.world.close();
    this.player.world = world;
    this.now = { ...kept.now };
  }

  /** Becomes the same as another run, whose world comes as text, as one peer may send it to another. */
  loadFrom(other) {
    this.world.load(other.world.save());
    this.forget(this.kept.length);
    this.journal = other.journal.slice(0, other.now.entries);
    this.digests = other.digests.slice(0, other.now.steps);
    this.headTime = other.now.time;
    this.now = { ...other.now, version: (this.versions += 1) };
  }

  /** All requests up to here, as lines of `world_script`. */
  script() { return this.journal.slice(0, this.now.entries).map(({ line }) => `${writeExact(line)}\n`).join(""); }
}

/**
 * The push of a hand that holds a body at a point, told in metres in the body's own axes, and pulls it to a place in the world; null for none. Where the push is made some
 * steps later, the hand pulls less, since what it sees is older, and carries the body's weight.
 */
export function pull(world, body, hold, target, ticks, delay = 0) {
  const view = world.body(body.handle);
  if (!view) return null;
  const { mass, inertia } = body, [c, s] = [Number(view.facing.c) / UNIT, Number(view.facing.s) / UNIT];
  const offset = { x: (c * hold.x - s * hold.y) * METRE, y: (s * hold.x + c * hold.y) * METRE };
  const spin = inertia ? Number(view.l) / inertia : 0;
  const velocity = { x: Number(view.p.x) / mass - spin * offset.y, y: Number(view.p.y) / mass + spin * offset.x };
  const way = { x: target.x * METRE - Number(view.at.x) - offset.x, y: target.y * METRE - Number(view.at.y) - offset.y };
  const share = Math.min(0.08, (1 << 17) / Math.max(1, Math.hypot(way.x, way.y))) / (1 + delay); // of the way in a tick: at most 2^17 u
  const lever = inertia ? (mass * (offset.x ** 2 + offset.y ** 2)) / inertia : 0;
  const felt = (0.7 * mass) / (1 + lever) / Math.max(1, Number(ticks) / 4) / (1 + 3 * delay), gravity = world.gravity();
  const weight = [gravity.x, gravity.y].map((each) => (delay ? mass * Number(each) * Number(ticks) : 0));
  const by = [share * way.x - velocity.x, share * way.y - velocity.y].map((change, axis) => BigInt(Math.round(felt * change - weight[axis])));
  if (by[0] === 0n && by[1] === 0n) return null;
  return { by, offset: [BigInt(Math.round(offset.x)), BigInt(Math.round(offset.y))] };
}
