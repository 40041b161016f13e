// Lines of `world_script` as calls of the library, with the answers that the program gives (docs/SCRIPT.md).

import { ALL, Batch, CAPSULE, CIRCLE, DYNAMIC, KINEMATIC, ONE, Refused, SEGMENT, SETS, STATIC, generationOf, handleOf, slotOf } from "./dillmonth.js";

const KINDS = { static: STATIC, kinematic: KINEMATIC, dynamic: DYNAMIC };
const ORIGIN = { x: 0n, y: 0n };

/** A line that only the program knows. */
export class NotOurs extends Error {}

/** A line that isn't a request. */
export class BadLine extends Error {}

/** JSON that is kept as it is written: a number that isn't whole, or -0, or a saved world. */
class Verbatim {
  constructor(text) {
    this.text = text;
  }
}

const TOKEN = /"(?:[^"\\]|\\.)*"|-?\d+(?:\.\d+)?(?:[eE][+-]?\d+)?/g;
const WHOLE = /^(?:0|-?[1-9]\d*)$/;
const NUMBER = /^-?(?:0|[1-9]\d*)(?:\.\d+)?(?:[eE][+-]?\d+)?$/;

/** JSON whose whole numbers become BigInt, since doubles don't hold them. */
function readExact(text) {
  const marked = text.replace(TOKEN, (found) => {
    if (found.startsWith('"')) return found.startsWith('"#') ? `"#${found.slice(1)}` : found;
    return NUMBER.test(found) ? `"#${found}"` : found;
  });
  return JSON.parse(marked, (_, value) => {
    if (typeof value !== "string" || !value.startsWith("#")) return value;
    const rest = value.slice(1);
    if (rest.startsWith("#")) return rest;
    return WHOLE.test(rest) ? BigInt(rest) : new Verbatim(rest);
  });
}

/** Compact JSON, the keys of each object ascending. */
export function writeExact(value) {
  if (typeof value === "bigint") return value.toString();
  if (value instanceof Verbatim) return value.text;
  if (Array.isArray(value)) return `[${value.map(writeExact).join(",")}]`;
  if (value === null || typeof value !== "object") return JSON.stringify(value);
  const member = (key) => `${JSON.stringify(key)}:${writeExact(value[key])}`;
  return `{${Object.keys(value).sort().map(member).join(",")}}`;
}

export function handleOfText(text) {
  const [slot, generation] = text.split(".");
  return handleOf(slot, generation);
}

/** The request that loads a saved world, or the answer that has one: its text stays as it is, on one line. */
export function loadOf(text) {
  const [, world] = /^\s*\{\s*"world"\s*:([^]*)\}\s*$/.exec(text) ?? [null, text];
  return { do: "load", world: new Verbatim(world.replace(/\s*[\r\n]\s*/g, "").trim()) };
}

export const textOf = (handle) => `${slotOf(handle)}.${generationOf(handle)}`;
const vec = ([x, y]) => ({ x, y });
const pair = ({ x, y }) => [x, y];

export function shapeOf(keys) {
  const common = {
    group: Number(keys.group ?? 0n), friction: keys.friction ?? 0n, restitution: keys.restitution ?? 0n,
    category: keys.category ?? 1n, mask: keys.mask ?? ALL, radius: keys.radius ?? 0n,
  };
  if (keys.circle) return { ...common, form: CIRCLE, first: vec(keys.circle), second: ORIGIN };
  const [first, second] = (keys.capsule ?? keys.segment).map(vec);
  return { ...common, form: keys.capsule ? CAPSULE : SEGMENT, first, second };
}

function bodyOf(line) {
  const [c, s] = line.facing ?? [ONE, 0n];
  return {
    kind: KINDS[line.kind], at: vec(line.at), facing: { c, s }, mass: line.mass, inertia: line.inertia,
    velocity: line.velocity && vec(line.velocity), spin: line.spin,
  };
}

function jointOf(line) {
  const [a, b] = [handleOfText(line.a), handleOfText(line.b)];
  return { a, b, from: vec(line.from), to: vec(line.to), length: line.length, collide: line.collide };
}

/** Requests that change bodies, shapes or joints: what is drawn is asked for anew after them. */
export const REBUILDS = new Set(["create", "destroy", "joint", "unjoin", "load", "enable", "disable"]);

/** Requests that are commands, given to a world or to a batch. */
const COMMANDS = {
  create: (to, line) => to.createBody(bodyOf(line), line.shapes.map(shapeOf)),
  joint: (to, line) => to.createJoint(jointOf(line)),
  destroy: (to, line) => to.destroyBody(handleOfText(line.body)),
  unjoin: (to, line) => to.destroyJoint(handleOfText(line.joint)),
  push: (to, line) => to.push(handleOfText(line.body), vec(line.by)),
  push_at: (to, line) => to.pushAt(handleOfText(line.body), vec(line.by), vec(line.offset)),
  set_pose: (to, line) => to.setPose(handleOfText(line.body), vec(line.at), { c: line.facing[0], s: line.facing[1] }),
  set_velocity: (to, line) => to.setVelocity(handleOfText(line.body), vec(line.velocity), line.spin),
  gravity: (to, line) => to.setGravity(vec(line.by)),
  enable: (to, line) => to.enable(handleOfText(line.body)),
  disable: (to, line) => to.disable(handleOfText(line.body)),
  wake: (to, line) => to.wake(handleOfText(line.body)),
  sleep: (to, line) => to.sleep(handleOfText(line.body)),
  step: (to, line) => to.step(line.ticks),
};
const isCommand = (line) => Object.hasOwn(COMMANDS, line.do);

/** Runs of requests: commands up to a step, whose events are to be heard, or another request by itself. */
function* runsOf(lines) {
  let run = [];
  for (const line of lines) {
    if (isCommand(line)) run.push(line);
    if (isCommand(line) && line.do !== "step") continue;
    if (run.length > 0) yield run;
    if (!isCommand(line)) yield [line];
    run = [];
  }
  if (run.length > 0) yield run;
}

function events(world, step) {
  const texts = (handles) => handles.map(textOf);
  return { begin: world.begun(), end: world.ended(), slept: texts(world.slept()), step, woke: texts(world.woke()) };
}

const CAUSES = ["command", "gravity", "immovable", "clamp", "rest", "departed"];

function ledger(world) {
  const texts = ({ x, y }) => [x.toString(), y.toString()];
  return { causes: Object.fromEntries(CAUSES.map((name, cause) => [name, texts(world.total(cause))])), total: texts(world.total()) };
}

/** The keys that a request can't do without. */
const KEYS = {
  create: ["kind", "at", "shapes"], destroy: ["body"], joint: ["a", "b", "from", "to", "length"], unjoin: ["joint"], push: ["body", "by"],
  push_at: ["body", "by", "offset"], set_pose: ["body", "at", "facing"], set_velocity: ["body", "velocity", "spin"], gravity: ["by"], disable: ["body"],
  enable: ["body"], wake: ["body"], sleep: ["body"], step: ["ticks"], show: ["body"], ray: ["from", "along"], region: ["lo", "hi"], load: ["world"],
};

/** What is thrown where a request can't be made, with the line of the script in which it stands, if that is known. */
function badLine(line, error) {
  if (!(error instanceof TypeError || error instanceof SyntaxError || error instanceof RangeError)) return error;
  const missing = KEYS[line.do]?.find((key) => line[key] === undefined), place = placeOf(line);
  return new BadLine(`${place}${line.do}: ${missing ? `the key "${missing}" is missing` : "a key's value is of another type"}`);
}

const places = new WeakMap(); // requests of a script, and the numbers of their lines

function placeOf(line) {
  return places.has(line) ? `line ${places.get(line)}: ` : "";
}

/** A world that answers the lines of a script. */
export class Player {
  constructor(library) {
    this.world = library.open();
  }

  close() { this.world.close(); }

  show(line) {
    const body = handleOfText(line.body), view = this.world.body(body);
    if (!view) throw new Refused(2);
    const set = view.set < 3 ? SETS[view.set] : `sleeping ${view.island}`;
    const answer = { at: pair(view.at), facing: [view.facing.c, view.facing.s], l: view.l.toString(), p: pair(view.p), set };
    if (this.world.info(body).kind === KINEMATIC) Object.assign(answer, { velocity: pair(view.velocity), spin: view.spin });
    return answer;
  }

  /** What is answered to a command that was done, with the id of what was made, or the number of the step. */
  answerTo(line, made) {
    if (line.do === "create") return { body: textOf(made) };
    if (line.do === "joint") return { joint: textOf(made) };
    return line.do === "step" ? events(this.world, made) : { done: true };
  }

  does(line) {
    const { world } = this;
    if (isCommand(line)) return this.answerTo(line, COMMANDS[line.do](world, line));
    switch (line.do) {
      case "show": return this.show(line);
      case "ledger": return ledger(world);
      case "digest": return { digest: world.digest() };
      case "region": return { shapes: world.region(vec(line.lo), vec(line.hi)) };
      case "ray": {
        const hit = world.ray(vec(line.from), vec(line.along));
        return { hit: hit && { fraction: hit.fraction, shape: hit.shape } };
      }
      case "load":
        world.load(writeExact(line.world));
        return { done: true };
      case "save": return { world: new Verbatim(world.save()) };
      default: throw new NotOurs(`the page doesn't know the request "${line.do}"`);
    }
  }

  /** The answer to a request, as an object. */
  ask(line) {
    try {
      return this.does(line);
    } catch (error) {
      if (!(error instanceof Refused)) throw badLine(line, error);
      return error.clause ? { clause: error.clause, refused: error.status } : { refused: error.status };
    }
  }

  /** Each command of a run with its answer, all by one call. Those before a bad one are done. */
  *askRun(lines) {
    const batch = new Batch();
    let bad = null;
    try {
      for (const line of lines) COMMANDS[line.do](batch, line);
    } catch (error) {
      bad = badLine(lines[batch.length], error);
    }
    for (const [number, { status, made, step }] of this.world.applyAll(batch).entries()) {
      const line = lines[number];
      yield [line, status ? { refused: status } : this.answerTo(line, line.do === "step" ? step : made)];
    }
    if (bad) throw bad;
  }

  /** Each request with its answer. */
  *askEach(lines) {
    for (const line of lines) yield [line, this.ask(line)];
  }

  /** The same, with each run of commands by one call. */
  *askInBatches(lines) {
    for (const run of runsOf(lines)) yield* isCommand(run[0]) ? this.askRun(run) : this.askEach(run);
  }

  /** The answer as the program writes it. */
  answer(line) { return writeExact(this.ask(line)); }
}

/** Nothing where the answers that were given are those that were wanted, else what differs. */
export function difference(asked, answers) {
  let number = 0;
  for (const [, answer] of asked) {
    const given = writeExact(answer), wanted = answers[number++];
    if (given !== wanted) return `answer ${number} is ${given.slice(0, 300)}, not ${wanted.slice(0, 300)}`;
  }
  return number === answers.length ? null : `there are ${number} answers, not ${answers.length}`;
}

/** Whether all numbers of a request are whole, and fit 64 bits. */
function areWhole(value, key = "") {
  if (typeof value === "bigint") {
    const isUnsigned = key === "mask" || key === "category";
    return value === (isUnsigned ? BigInt.asUintN(64, value) : BigInt.asIntN(64, value));
  }
  if (value instanceof Verbatim) return false;
  if (value === null || typeof value !== "object") return true;
  return Object.entries(value).every(([inner, each]) => areWhole(each, Array.isArray(value) ? key : inner));
}

/** A request; `BadLine` where the text is none. */
export function requestOf(text) {
  let line;
  try {
    line = readExact(text);
  } catch (error) {
    throw new BadLine(error.message);
  }
  if (line === null || typeof line !== "object" || typeof line.do !== "string") throw new BadLine('no object with a key "do"');
  if (line.do !== "load" && !areWhole(line)) throw new BadLine("a number that isn't whole, or needs more than 64 bits");
  return line;
}

/** The requests of a script's text, without empty lines. */
export function requestsOf(text) {
  return text.split("\n").flatMap((each, number) => {
    if (!each.trim()) return [];
    try {
      const request = requestOf(each);
      places.set(request, number + 1);
      return [request];
    } catch (error) {
      throw new BadLine(`line ${number + 1}: ${error.message}`);
    }
  });
}
