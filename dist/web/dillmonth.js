// The library `dillmonth` as a WebAssembly module: worlds for JavaScript.
//
//     const library = await Library.load(fetch("dillmonth.wasm"));
//     const world = library.open(gravity(0, -9.81));
//     world.createBody(staticBody(at(0, 0)), [segment(at(-8, 0), at(8, 0))]);
//     const ball = world.createBody(dynamicBody(at(0, 4), circleMass(metres(0.5))), [circle(metres(0.5), { restitution: share(0.75) })]);
//     world.step(1);
//     inMetres(world.body(ball).at.y);
//     world.close();
//
// Each call is one of `dillmonth.h`, which tells units, limits and refusals. The world's numbers are whole and need 64 bits, so what a world answers is BigInt;
// what it is given may be a Number too, if that is whole. A number that doesn't fit its bits throws RangeError, before it could wrap. An id is a BigInt: its slot, and
// its generation times 2^32. So it can be a key of a Map.
//
// A call that is refused throws `Refused` and has changed nothing. An id that names nothing any more: a question about it answers null, and a command is refused
// with 2. Metres, seconds, kilograms and degrees become whole numbers by one rounding, so that peers with the same numbers get the same ones.

export const METRE = 1n << 20n;
export const ONE = 1n << 30n; // of cosines and sines
export const KILOGRAM = 256n; // the choice of these helpers for the unit of mass, which is free
export const ALL = (1n << 64n) - 1n;
export const RATE = 240; // ticks a second, on all pages: a frame of 60 a second is four steps of one tick. A world doesn't know it
export const STATIC = 0, KINEMATIC = 1, DYNAMIC = 2;
export const CIRCLE = 0, CAPSULE = 1, SEGMENT = 2;
export const SETS = ["static", "disabled", "awake", "asleep"];
export const EVENTS = ["begun", "ended", "slept", "woke"];
export const VERSION = 1; // of the calls
export const NOBODY = 0n; // names no body and no joint, ever

export const handleOf = (slot, generation) => BigInt(slot) | (BigInt(generation) << 32n);
export const slotOf = (handle) => Number(handle & 0xffffffffn);
export const generationOf = (handle) => Number(handle >> 32n);

const ORIGIN = { x: 0n, y: 0n };
const UPRIGHT = { c: ONE, s: 0n };
const SHAPE_BYTES = 80, POSE_BYTES = 40, CONTACT_BYTES = 120, EVENT_BYTES = 168, VIEW_BYTES = 112, PAIR_BYTES = 16, ID_BYTES = 8, HIT_BYTES = 16, COMMAND_BYTES = 200, ANSWER_BYTES = 24;
const BODY = 16, AT = 24, FACING = 40, VELOCITY = 72, SPIN = 88, JOINT = 96, ID = 96, BY = 160, OFFSET = 176, TICKS = 192; // places in a command
const NO_WORLD = 32;

const LEAST = -(1n << 63n), GREATEST = (1n << 63n) - 1n;

/** A whole number of 64 bits with a sign, of a BigInt or a whole Number. */
function int64(value) {
  const number = typeof value === "bigint" ? value : BigInt(value);
  if (number < LEAST || number > GREATEST) throw new RangeError(`${number} doesn't fit 64 bits`);
  return number;
}

/** The same without a sign. */
function uint64(value) {
  const number = typeof value === "bigint" ? value : BigInt(value);
  if (number < 0n || number > ALL) throw new RangeError(`${number} doesn't fit 64 bits without a sign`);
  return number;
}

/** The name of a shape as one number. */
function shapeNumber([slot, index]) {
  return uint64(BigInt(slot) | (BigInt(index) << 32n));
}

// ---- units ----

const SCALE = 1048576;

/** The nearest whole number, halves away from zero. */
function nearest(value) {
  const whole = Math.trunc(value), rest = value - whole;
  return int64(whole + (rest >= 0.5) - (rest <= -0.5));
}

export const metres = (value) => nearest(value * SCALE);
export const inMetres = (u) => Number(u) / SCALE;
export const at = (x, y) => ({ x: metres(x), y: metres(y) });
export const kilograms = (value) => nearest(value * 256);
/** A share of 1 in 256ths: of friction and restitution. */
export const share = (value) => nearest(value * 256);
export const ticks = (seconds, rate = RATE) => nearest(seconds * rate);
/** Metres a second in u/tick. */
export const speed = (metresASecond, rate = RATE) => nearest((metresASecond * SCALE) / rate);
export const velocity = (x, y, rate = RATE) => ({ x: speed(x, rate), y: speed(y, rate) });
/** Metres a second a second in u/tick². */
export const gravity = (x, y, rate = RATE) => ({ x: nearest((x * SCALE) / (rate * rate)), y: nearest((y * SCALE) / (rate * rate)) });
/** The push that gives a body of this mass so much of a velocity, which is in metres a second. */
export const pushOf = (mass, x, y, rate = RATE) => ({ x: nearest((Number(mass) * (x * SCALE)) / rate), y: nearest((Number(mass) * (y * SCALE)) / rate) });
/** Degrees a second as a spin of a kinematic body. */
export const spin = (degreesASecond, rate = RATE) => nearest((degreesASecond * 18740330.145169) / rate);

const EIGHTH = 45n << 32n;
const COSINE = [4294967296n, 1324675879n, 68093890n, 1400124n, 15423n, 106n], SINE = [3373259426n, 346799334n, 10696163n, 157094n, 1346n, 8n];

/** An eighth of a turn times `part`, which is in 2^31sts: its cosine or sine in 2^32nds, by Taylor's series with these terms. */
function eighth(part, terms) {
  const square = (part * part) >> 31n;
  return terms.reduceRight((sum, term) => term - ((sum * square) >> 31n));
}

/** The facing of a turn by so many degrees, counterclockwise: each part is the nearest whole number or next to it. */
export function degrees(turn) {
  const cut = BigInt(Math.trunc(turn * 4294967296)) % (8n * EIGHTH), angle = cut < 0n ? cut + 8n * EIGHTH : cut;
  const quarter = (angle + EIGHTH) / (2n * EIGHTH), rest = angle - quarter * 2n * EIGHTH;
  const part = ((rest < 0n ? -rest : rest) + 45n) / 90n, c = (eighth(part, COSINE) + 2n) >> 2n, size = (((eighth(part, SINE) * part) >> 31n) + 2n) >> 2n;
  const s = rest < 0n ? -size : size;
  return [{ c, s }, { c: -s, s: c }, { c: -c, s: -s }, { c: s, s: -c }][Number(quarter % 4n)];
}

// ---- definitions that are valid as they are made: upright, of category 1, meeting all, without friction and restitution ----

export const circle = (radius, more = {}) => ({ form: CIRCLE, first: ORIGIN, second: ORIGIN, radius, ...more });
export const capsule = (first, second, radius, more = {}) => ({ form: CAPSULE, first, second, radius, ...more });
/** For static bodies. */
export const segment = (first, second, more = {}) => ({ form: SEGMENT, first, second, ...more });
export const staticBody = (place, more = {}) => ({ kind: STATIC, at: place, ...more });
export const kinematicBody = (place, its, more = {}) => ({ kind: KINEMATIC, at: place, velocity: its, ...more });
export const dynamicBody = (place, { mass, inertia }, more = {}) => ({ kind: DYNAMIC, at: place, mass, inertia, ...more });
/** From centre to centre, or between anchors that are named in `more`. Its two bodies don't collide. */
export const jointBetween = (a, b, length, more = {}) => ({ a, b, from: ORIGIN, to: ORIGIN, length, ...more });

const UNDER = 113n << 40n; // 2^40 square u are a square metre, and π is 355/113
const OUT_OF_RANGE = 5;

/**
 * What a disc weighs: density·π·r², and mass·r²/2. The density is mass a square metre. Refused 5 for a radius beyond 2^24 u, a density beyond 32 bits, a mass that
 * isn't 1 to 2^20, or an inertia beyond 2^60.
 */
export function circleMass(radius, density = KILOGRAM) {
  const [r, weight] = sizes(density, radius), square = r * r;
  return massWithin((2n * 355n * weight * square + UNDER) / (2n * UNDER), 2n * square, 2n);
}

/**
 * What a capsule weighs whose core is `half` long to either side of the body's centre: density·(4·r·h + π·r²), and
 * mass·(8·h·(h² + 3·r²) + 3·π·r·(r² + 2·h²)) / (6·(4·h + π·r)). Refused as circleMass.
 */
export function capsuleMass(half, radius, density = KILOGRAM) {
  const [h, r, weight] = sizes(density, half, radius);
  if (r === 0n) throw new Refused(OUT_OF_RANGE);
  const girth = 452n * h + 355n * r, bulk = 904n * h * (h * h + 3n * r * r) + 1065n * r * (r * r + 2n * h * h);
  return massWithin((2n * r * girth * weight + UNDER) / (2n * UNDER), 2n * bulk, 6n * girth);
}

function sizes(density, ...lengths) {
  const [weight, ...wide] = [density, ...lengths].map(BigInt);
  if (weight < 0n || weight >= 1n << 32n || wide.some((length) => length < 0n || length > 1n << 24n)) throw new Refused(OUT_OF_RANGE);
  return [...wide, weight];
}

function massWithin(mass, twiceOver, under) {
  const inertia = (mass * twiceOver + under) / (2n * under);
  if (mass < 1n || mass > 1n << 20n || inertia > 1n << 60n) throw new Refused(OUT_OF_RANGE);
  return { mass, inertia };
}

// ---- refusals ----

const STALE_HANDLE = 2;
const NONE = 0xffffffff; // of an island or a colour, where there is none
const TEXTS = {
  1: "there is no memory", 2: "the id names nothing that lives", 3: "no slot can be given out", 4: "no shape or more than eight, or one that isn't allowed",
  5: "a number is outside its limit", 6: "the body isn't dynamic", 7: "both ends of the joint are one body", 8: "the body is disabled",
  9: "the momentum would come beyond its limit", 10: "the world has accepted all the calls that it may", 12: "the saved world breaks a clause of its format",
  15: "the body isn't kinematic", 32: "there is no world: it was closed", 33: "a kind or a form that is none",
  34: "the command names shapes beyond those of the batch", 35: "the text is no JSON",
};

/** A call that was refused: its status, and the clause that a text to be loaded breaks, or 0. */
export class Refused extends Error {
  constructor(status, clause = 0) {
    super(`refused ${status}${clause ? `, clause ${clause}` : ""}: ${TEXTS[status] ?? ""}`);
    this.name = "Refused";
    this.status = status;
    this.clause = clause;
  }
}

/** Writes values one behind another into the module's memory. */
class Writer {
  constructor(view, at) {
    this.view = view;
    this.at = at;
  }
  u32(value) { this.view.setUint32(this.at, value, true); this.at += 4; }
  i32(value) { this.view.setInt32(this.at, value, true); this.at += 4; }
  i64(value) { this.view.setBigInt64(this.at, int64(value), true); this.at += 8; }
  u64(value) { this.view.setBigUint64(this.at, uint64(value), true); this.at += 8; }
  vec({ x, y }) { this.i64(x); this.i64(y); }
  rot({ c, s }) { this.i64(c); this.i64(s); }
  shape(shape) {
    this.u32(shape.form); this.i32(shape.group ?? 0);
    this.vec(shape.first); this.vec(shape.second); this.i64(shape.radius ?? 0n);
    this.i64(shape.friction ?? 0n); this.i64(shape.restitution ?? 0n);
    this.u64(shape.category ?? 1n); this.u64(shape.mask ?? ALL);
  }
  body(def) {
    this.u32(def.kind); this.u32(0);
    this.vec(def.at); this.rot(def.facing ?? UPRIGHT); this.i64(def.mass ?? 0n); this.i64(def.inertia ?? 0n);
    this.vec(def.velocity ?? ORIGIN); this.i64(def.spin ?? 0n);
  }
  filter({ without = 0n, mask = null } = {}) {
    this.u64(without); this.u64(mask ?? 0n); this.u32(mask === null ? 0 : 1); this.u32(0);
  }
  joint(def) {
    this.u64(def.a); this.u64(def.b); this.vec(def.from); this.vec(def.to); this.i64(def.length);
    this.u32(def.collide ? 1 : 0); this.u32(0);
  }
}

/** Reads values one behind another from the module's memory. */
class Reader {
  constructor(view, at) {
    this.view = view;
    this.at = at;
  }
  u32() { const value = this.view.getUint32(this.at, true); this.at += 4; return value; }
  i64() { const value = this.view.getBigInt64(this.at, true); this.at += 8; return value; }
  u64() { const value = this.view.getBigUint64(this.at, true); this.at += 8; return value; }
  vec() { return { x: this.i64(), y: this.i64() }; }
  rot() { return { c: this.i64(), s: this.i64() }; }
  id() { return [this.u32(), this.u32()]; }
  pair() { return [this.id(), this.id()]; }
  pose() { return { handle: this.u64(), at: this.vec(), facing: this.rot() }; }
  bodyView() {
    const pose = this.pose(), p = this.vec(), low = this.u64(), high = this.i64();
    return { ...pose, p, l: (high << 64n) | low, velocity: this.vec(), spin: this.i64(), set: this.u32(), island: this.u32(), tag: this.u64() };
  }
  course() { return { velocity: this.vec(), spin: this.i64() }; }
  point() { return { offset: this.vec(), separation: this.i64(), normalImpulse: this.i64(), tangentImpulse: this.i64() }; }
  contact() {
    const [a, b] = this.pair(), count = this.u32();
    this.u32();
    const normal = this.vec(), points = [this.point(), this.point()].slice(0, count);
    return { a, b, normal, points };
  }
  event() {
    const step = this.u64(), kind = EVENTS[this.u32()];
    this.u32();
    const first = this.u64(), second = this.u64(), firstTag = this.u64(), secondTag = this.u64(), contact = this.contact();
    const ofShapes = kind === "begun" || kind === "ended";
    return ofShapes ? { step, kind, first, second, firstTag, secondTag, contact } : { step, kind, body: first, tag: firstTag };
  }
  shape() {
    const form = this.u32(), group = this.view.getInt32(this.at, true);
    this.at += 4;
    const first = this.vec(), second = this.vec(), radius = this.i64(), friction = this.i64(), restitution = this.i64();
    return { form, group, first, second, radius, friction, restitution, category: this.u64(), mask: this.u64() };
  }
  info() {
    const kind = this.u32(), isEnabled = this.u32() !== 0, mass = this.i64(), inertia = this.i64(), shapes = Number(this.u64()), island = this.u32();
    return { kind, isEnabled, mass, inertia, shapes, island: island === NONE ? null : island };
  }
  jointView() {
    const a = this.u64(), b = this.u64(), from = this.vec(), to = this.vec(), length = this.i64(), collide = this.u32() !== 0;
    this.u32();
    const impulse = this.i64(), colour = this.u32();
    return { a, b, from, to, length, collide, impulse, colour: colour === NONE ? null : colour };
  }
  counts() {
    const next = () => Number(this.u64());
    return { bodies: next(), awake: next(), joints: next(), contacts: next(), touching: next(), islands: next(), colours: next() };
  }
  sum() {
    const wide = () => { const low = this.u64(); return (this.i64() << 64n) | low; };
    return { x: wide(), y: wide() };
  }
  answer() {
    const status = this.u32();
    this.u32();
    return { status, made: this.u64(), step: this.u64() };
  }
}

/** Items of some bytes each, one behind another, in room that grows. */
class Items {
  constructor(size) {
    this.size = size;
    this.count = 0;
    this.view = new DataView(new ArrayBuffer(64 * size));
  }

  get bytes() { return new Uint8Array(this.view.buffer, 0, this.count * this.size); }

  /** Room for some more items, all zeros. They count once `count` says so. */
  more(items) {
    const wanted = (this.count + items) * this.size;
    if (wanted > this.view.byteLength) {
      const grown = new Uint8Array(2 * wanted);
      grown.set(this.bytes);
      this.view = new DataView(grown.buffer);
    }
    new Uint8Array(this.view.buffer, this.count * this.size, items * this.size).fill(0);
    return new Writer(this.view, this.count * this.size);
  }
}

/** Commands that a world does in one call, by `applyAll`. They are added by the methods that a world has for them. */
export class Batch {
  constructor() {
    this.commands = new Items(COMMAND_BYTES);
    this.shapes = new Items(SHAPE_BYTES);
  }

  get length() { return this.commands.count; }
  clear() { this.commands.count = this.shapes.count = 0; }

  /** Adds a command, each part at its place; throws and adds nothing where a value is of another type. */
  add(kind, parts, shapes = []) {
    const list = this.shapes.more(shapes.length), command = this.commands.more(1), start = command.at;
    for (const shape of shapes) list.shape(shape);
    command.u32(kind); command.u32(this.shapes.count); command.u32(shapes.length);
    for (const [place, form, value] of parts) {
      command.at = start + place;
      command[form](value);
    }
    this.shapes.count += shapes.length;
    this.commands.count += 1;
  }

  createBody(def, shapes) { this.add(0, [[BODY, "body", def]], shapes); }
  destroyBody(body) { this.add(1, [[ID, "u64", body]]); }
  createJoint(def) { this.add(2, [[JOINT, "joint", def]]); }
  destroyJoint(joint) { this.add(3, [[ID, "u64", joint]]); }
  push(body, by) { this.add(4, [[ID, "u64", body], [BY, "vec", by]]); }
  pushAt(body, by, offset) { this.add(5, [[ID, "u64", body], [BY, "vec", by], [OFFSET, "vec", offset]]); }
  setPose(body, at, facing) { this.add(6, [[ID, "u64", body], [AT, "vec", at], [FACING, "rot", facing]]); }
  setVelocity(body, velocity, spin) { this.add(7, [[ID, "u64", body], [VELOCITY, "vec", velocity], [SPIN, "i64", spin]]); }
  setGravity(gravity) { this.add(8, [[BY, "vec", gravity]]); }
  disable(body) { this.add(9, [[ID, "u64", body]]); }
  enable(body) { this.add(10, [[ID, "u64", body]]); }
  wake(body) { this.add(11, [[ID, "u64", body]]); }
  sleep(body) { this.add(12, [[ID, "u64", body]]); }
  step(ticks) { this.add(13, [[TICKS, "i64", ticks]]); }

  /** Adds a command of another batch, with its shapes. */
  take(other, at) {
    const head = new DataView(other.commands.view.buffer, at * COMMAND_BYTES), from = head.getUint32(4, true), count = head.getUint32(8, true);
    const list = this.shapes.more(count), command = this.commands.more(1), start = command.at;
    new Uint8Array(list.view.buffer, list.at, count * SHAPE_BYTES).set(new Uint8Array(other.shapes.view.buffer, from * SHAPE_BYTES, count * SHAPE_BYTES));
    new Uint8Array(command.view.buffer, start, COMMAND_BYTES).set(new Uint8Array(other.commands.view.buffer, at * COMMAND_BYTES, COMMAND_BYTES));
    command.at = start + 4;
    command.u32(this.shapes.count);
    this.shapes.count += count;
    this.commands.count += 1;
  }
}

/** A world with the calls that it accepted since it was opened, from which it can be made again: each command of `world` goes by `applyAll`. */
export class Journal {
  constructor(library, gravity = ORIGIN) {
    this.library = library;
    this.gravity = gravity;
    this.world = library.open(gravity);
    this.batch = new Batch();
  }

  /** Does the commands of a batch, as a world does, and keeps those that are accepted. */
  applyAll(batch) {
    const answers = this.world.applyAll(batch);
    answers.forEach(({ status }, at) => { if (status === 0) this.batch.take(batch, at); });
    return answers;
  }

  /** A world with the same digest. */
  replay() {
    const world = this.library.open(this.gravity);
    for (const { status } of world.applyAll(this.batch)) done(status);
    return world;
  }
}

/** A module that is ready. After a call that traps it is spent: load it anew. */
export class Library {
  constructor(instance) {
    this.calls = instance.exports;
    this.rooms = [];
    if (this.calls.dm_version() !== VERSION) throw new Error("the module is of another version");
  }

  /** From a response, the promise of one, or the module's bytes. */
  static async load(source) {
    source = await source;
    if (source instanceof ArrayBuffer || ArrayBuffer.isView(source)) return new Library((await WebAssembly.instantiate(source, {})).instance);
    if (source.ok === false) throw new Error(`the module can't be had: ${source.url} answers ${source.status}`);
    // (a server that doesn't know the kind of the file can't stream it)
    const streams = source.headers?.get("content-type") === "application/wasm" && WebAssembly.instantiateStreaming;
    const { instance } = await (streams ? WebAssembly.instantiateStreaming(source, {}) : WebAssembly.instantiate(await source.arrayBuffer(), {}));
    return new Library(instance);
  }

  /** The module's memory, looked at anew, since a view ends where the memory grows. */
  view() { return new DataView(this.calls.memory.buffer); }
  bytes(at, count) { return new Uint8Array(this.calls.memory.buffer, at, count); }

  /** The memory as words of 32 bits, which is kept for as long as it doesn't grow. */
  words() {
    if (!this.kept || this.kept.buffer !== this.calls.memory.buffer) this.kept = new Uint32Array(this.calls.memory.buffer);
    return this.kept;
  }

  take(bytes) {
    const at = this.calls.page_alloc(BigInt(Math.max(bytes, 16)));
    if (at === 0n) throw new Refused(1);
    return Number(at);
  }
  give(at) { this.calls.page_free(BigInt(at)); }
  drop(at) {
    this.calls.dm_close(BigInt(at));
    this.give(at);
  }
  dropFrame(at) {
    this.calls.dm_frame_drop(BigInt(at));
    this.give(at);
  }

  /** Room number `number` of the page's own, for a call's arguments and answers, with so many bytes at least. */
  room(number, bytes) {
    const had = this.rooms[number];
    if (had && had.bytes >= bytes) return had.at;
    const wanted = Math.max(bytes, had ? 2 * had.bytes : 512);
    const at = this.take(wanted);
    if (had) this.give(had.at);
    this.rooms[number] = { at, bytes: wanted };
    return at;
  }

  open(gravity = ORIGIN) { return new World(this).reopened(gravity); }

  /** How many blocks of memory are in use, and a limit on how many more are granted: for tests. */
  blocks() { return Number(this.calls.page_blocks()); }
  refuseAfter(grants) { this.calls.page_refuse_after(grants === null ? ALL : BigInt(grants)); }
}

const done = (status, clause = 0) => { if (status !== 0) throw new Refused(status >>> 0, clause); };

/** Gives back what a world or a frame holds that nobody names any more. */
const dropped = typeof FinalizationRegistry === "undefined" ? null : new FinalizationRegistry(({ drop }) => drop());

/**
 * What a world shows at one moment: its `frame` takes one. It never changes, and outlives the world. A frame that nobody names any more is dropped at some time by
 * itself: `close` does it now, and so does `using`.
 */
export class Frame {
  constructor(library) {
    this.library = library;
    this.calls = library.calls;
    this.at = library.take(16);
    library.view().setBigUint64(this.at, 0n, true);
    const at = this.at;
    dropped?.register(this, { drop: () => library.dropFrame(at) }, this);
  }

  /** What a reading call takes. */
  get held() { return this.at === 0 ? 0n : this.library.view().getBigUint64(this.at, true); }

  close() {
    if (this.at === 0) return;
    dropped?.unregister(this);
    this.library.dropFrame(this.at);
    this.at = 0;
  }

  /** Where an enabled body was; null where the id named none. */
  pose(body) {
    const at = this.library.room(0, 96), status = this.calls.dm_frame_pose(this.held, uint64(body), BigInt(at));
    if (status === STALE_HANDLE) return null;
    done(status);
    return new Reader(this.library.view(), at).pose();
  }

  /** The first shape on the way, or null. */
  ray(from, along) {
    const at = this.library.room(0, 96);
    done(this.calls.dm_frame_ray(this.held, int64(from.x), int64(from.y), int64(along.x), int64(along.y), BigInt(at)));
    const reader = new Reader(this.library.view(), at), isHit = reader.u32() !== 0, fraction = reader.u32();
    return isHit ? { fraction, shape: reader.id() } : null;
  }

  /** The shapes whose boxes met a box. */
  region(lo, hi, fits = 64) {
    const { library } = this, at = library.room(0, 96), list = library.room(1, ID_BYTES * fits), writer = new Writer(library.view(), at);
    writer.vec(lo);
    writer.vec(hi);
    done(this.calls.dm_frame_region(this.held, BigInt(at), BigInt(list), BigInt(fits), BigInt(at + 32)));
    const count = Number(library.view().getBigUint64(at + 32, true)), reader = new Reader(library.view(), list);
    return count > fits ? this.region(lo, hi, count) : Array.from({ length: count }, () => reader.id());
  }

  /** What all causes had given the movers, in mass·u/tick. */
  total() {
    const at = this.library.room(0, 96);
    done(this.calls.dm_frame_total(this.held, BigInt(at)));
    return new Reader(this.library.view(), at).sum();
  }

  /** How many calls the world had accepted. */
  calledTimes() { return BigInt.asUintN(64, this.calls.dm_frame_calls(this.held)); }
}

/** A world, until it is closed. A world that nobody names any more is closed at some time by itself: `close` does it now, and so does `using`. */
export class World {
  constructor(library) {
    this.library = library;
    this.calls = library.calls;
    this.at = library.take(16);
    library.view().setBigUint64(this.at, 0n, true);
    const at = this.at;
    dropped?.register(this, { drop: () => library.drop(at) }, this);
  }

  /** Its address in the module's memory. */
  get world() {
    if (this.at === 0) throw new Refused(NO_WORLD);
    return BigInt(this.at);
  }

  /** An empty world in place of what was held. */
  reopened(gravity) { done(this.calls.dm_open(this.world, int64(gravity.x), int64(gravity.y))); return this; }

  close() {
    if (this.at === 0) return;
    dropped?.unregister(this);
    this.library.drop(this.at);
    this.at = 0;
  }

  copy() {
    const made = new World(this.library);
    const status = this.calls.dm_copy(this.world, made.world);
    if (status !== 0) made.close();
    done(status);
    return made;
  }

  // ---- commands ----

  createBody(def, shapes) {
    const { library } = this, at = library.room(0, 96), list = library.room(1, SHAPE_BYTES * shapes.length);
    new Writer(library.view(), at).body(def);
    const writer = new Writer(library.view(), list);
    for (const shape of shapes) writer.shape(shape);
    done(this.calls.dm_create_body(this.world, BigInt(at), BigInt(list), BigInt(shapes.length), BigInt(at + 80)));
    return library.view().getBigUint64(at + 80, true);
  }

  createJoint(def) {
    const { library } = this, at = library.room(0, 96);
    new Writer(library.view(), at).joint(def);
    done(this.calls.dm_create_joint(this.world, BigInt(at), BigInt(at + 80)));
    return library.view().getBigUint64(at + 80, true);
  }

  destroyBody(body) { done(this.calls.dm_destroy_body(this.world, uint64(body))); }
  destroyJoint(joint) { done(this.calls.dm_destroy_joint(this.world, uint64(joint))); }
  push(body, by) { done(this.calls.dm_push(this.world, uint64(body), int64(by.x), int64(by.y))); }
  pushAt(body, by, offset) { done(this.calls.dm_push_at(this.world, uint64(body), int64(by.x), int64(by.y), int64(offset.x), int64(offset.y))); }
  setPose(body, place, facing = UPRIGHT) {
    done(this.calls.dm_set_pose(this.world, uint64(body), int64(place.x), int64(place.y), int64(facing.c), int64(facing.s)));
  }
  setVelocity(body, its, turning = 0n) { done(this.calls.dm_set_velocity(this.world, uint64(body), int64(its.x), int64(its.y), int64(turning))); }
  /** Gives a dynamic body a velocity, by one push. */
  pushTo(body, its) { done(this.calls.dm_push_to(this.world, uint64(body), int64(its.x), int64(its.y))); }
  /**
   * Gives a dynamic body an angular impulse, in mass·u²/tick: a push beside its centre, and the opposite one at it. Up to 2^40 it is met, up to 2^60 to the nearest
   * 2^20. 1 and 10 may come between the two, and the first one then stays.
   */
  twist(body, by) { done(this.calls.dm_twist(this.world, uint64(body), int64(by))); }
  /** Gives a dynamic body a spin, by a twist. */
  twistTo(body, turning) { done(this.calls.dm_twist_to(this.world, uint64(body), int64(turning))); }
  /** Gives a kinematic body the course that leads it to a pose in a step of so many ticks, which it keeps after that step. */
  setTarget(body, place, facing = UPRIGHT, ticks = 1) {
    done(this.calls.dm_set_target(this.world, uint64(body), int64(place.x), int64(place.y), int64(facing.c), int64(facing.s), int64(ticks)));
  }
  /** Gives a body a number of the program's own, which its view and its events have. No save and no digest has it. */
  setTag(body, tag) { done(this.calls.dm_set_tag(this.world, uint64(body), uint64(tag))); }
  tag(body) { return BigInt.asUintN(64, this.calls.dm_tag(this.world, uint64(body))); }
  setGravity(by) { done(this.calls.dm_set_gravity(this.world, int64(by.x), int64(by.y))); }
  disable(body) { done(this.calls.dm_disable(this.world, uint64(body))); }
  enable(body) { done(this.calls.dm_enable(this.world, uint64(body))); }
  wake(body) { done(this.calls.dm_wake(this.world, uint64(body))); }
  sleep(body) { done(this.calls.dm_sleep(this.world, uint64(body))); }

  /** Lets 1 to 8 ticks pass, and answers the step's number. What was booked is summed up, which keeps memory from growing. */
  step(ticks = 1) {
    const at = this.library.room(0, 96);
    done(this.calls.dm_step(this.world, int64(ticks), BigInt(at)));
    this.calls.dm_settle(this.world);
    return this.library.view().getBigUint64(at, true);
  }

  /**
   * Does the commands of a batch one after another, and answers each: its status, the id of what it made, and the number of a step. A refused
   * one changes nothing, and the next one follows. What was booked is summed up.
   */
  applyAll({ commands, shapes }) {
    const { library } = this, lists = [commands, shapes].map((items, number) => {
      const { bytes } = items, at = library.room(number + 1, bytes.length);
      library.bytes(at, bytes.length).set(bytes);
      return [BigInt(at), BigInt(items.count)];
    });
    const out = library.room(3, ANSWER_BYTES * commands.count), count = BigInt(commands.count);
    const answered = this.calls.dm_apply_all(this.world, ...lists.flat(), BigInt(out), count);
    if (answered !== count) throw new Refused(NO_WORLD);
    this.calls.dm_settle(this.world);
    const reader = new Reader(library.view(), out);
    return Array.from({ length: commands.count }, () => reader.answer());
  }

  // ---- reading ----

  /** A list that a call writes, each item of which `read` takes from a reader. */
  list(call, bytes, read) {
    const ask = (at, count) => Number(call(this.world, BigInt(at), BigInt(count)));
    let fits = 64, at = this.library.room(1, bytes * fits), count = ask(at, fits);
    if (count > fits) {
      fits = count;
      at = this.library.room(1, bytes * fits);
      count = ask(at, fits);
    }
    const reader = new Reader(this.library.view(), at);
    return Array.from({ length: count }, () => read(reader));
  }

  poses() { return this.list(this.calls.dm_poses, POSE_BYTES, (reader) => reader.pose()); }
  moved() { return this.list(this.calls.dm_moved, POSE_BYTES, (reader) => reader.pose()); }
  begun() { return this.list(this.calls.dm_begun, PAIR_BYTES, (reader) => reader.pair()); }
  ended() { return this.list(this.calls.dm_ended, PAIR_BYTES, (reader) => reader.pair()); }
  slept() { return this.list(this.calls.dm_slept, ID_BYTES, (reader) => reader.u64()); }
  woke() { return this.list(this.calls.dm_woke, ID_BYTES, (reader) => reader.u64()); }
  steps() { return this.calls.dm_steps(this.world); }

  /**
   * The poses of all bodies, by slot, for a loop that draws: x and y in metres, cosine and sine of the turn, one body behind another, as many as fit into an array of
   * floats that the caller keeps. Their slots go into `slots`, if that is given. It makes no object for a body, and answers how many bodies there are.
   */
  posesInto(floats, slots = null) {
    const { library } = this, fits = Math.floor(floats.length / 4), room = library.room(1, POSE_BYTES * fits);
    const count = Number(this.calls.dm_poses(this.world, BigInt(room), BigInt(fits))), words = library.words(), written = Math.min(count, fits);
    for (let body = 0, from = room >> 2, to = 0; body < written; body++, from += 10) {
      if (slots) slots[body] = words[from];
      for (let part = 2; part < 10; part += 2, to++) {
        const value = (words[from + part + 1] | 0) * 4294967296 + words[from + part];
        floats[to] = value / (part < 6 ? SCALE : 1073741824);
      }
    }
    return count;
  }

  /** What is known of a body: its pose, momenta, set and island; null where the id names none. */
  body(handle) {
    const at = this.library.room(0, VIEW_BYTES), status = this.calls.dm_body(this.world, uint64(handle), BigInt(at));
    if (status === STALE_HANDLE) return null;
    done(status);
    return new Reader(this.library.view(), at).bodyView();
  }

  /** The velocity and the spin of a body, whatever its kind; null where the id names none. */
  motion(body) { return this.seen(this.calls.dm_motion, uint64(body), (reader) => reader.course()); }

  /** Drops the events that were kept; from now on those of each step are kept, or none are. */
  clearEvents(keeps = true) { done(this.calls.dm_events_clear(this.world, keeps ? 1 : 0)); }

  /** The events of all steps since `clearEvents`, step by step. They stay. */
  events() {
    const { library } = this, count = library.room(0, 96);
    const ask = (fits) => {
      const at = library.room(1, EVENT_BYTES * fits);
      done(this.calls.dm_events(this.world, BigInt(at), BigInt(fits), BigInt(count)));
      return { at, count: Number(library.view().getBigUint64(count, true)) };
    };
    let asked = ask(64);
    if (asked.count > 64) asked = ask(asked.count);
    const reader = new Reader(library.view(), asked.at);
    return Array.from({ length: asked.count }, () => reader.event());
  }

  gravity() {
    const at = this.library.room(0, 96);
    this.calls.dm_gravity(BigInt(at), this.world);
    return new Reader(this.library.view(), at).vec();
  }

  // ---- questions ----

  /** The first shape on the way, and how far along it in 2^24ths; null where there is none. */
  ray(from, along) {
    const at = this.library.room(0, 96);
    done(this.calls.dm_ray(this.world, int64(from.x), int64(from.y), int64(along.x), int64(along.y), BigInt(at)));
    const reader = new Reader(this.library.view(), at), isHit = reader.u32() !== 0, fraction = reader.u32();
    return isHit ? { fraction, shape: reader.id() } : null;
  }

  region(lo, hi) {
    const { library } = this, at = library.room(0, 96), writer = new Writer(library.view(), at);
    writer.vec(lo);
    writer.vec(hi);
    done(this.calls.dm_region(this.world, BigInt(at), BigInt(at + 32)));
    return this.list(this.calls.dm_region_found, ID_BYTES, (reader) => reader.id());
  }

  /** The first shape on the way of those that a filter lets through: all but those of the body `without`, and those alone whose category meets `mask`. */
  rayThrough(from, along, filter) {
    const at = this.library.room(0, 96);
    new Writer(this.library.view(), at).filter(filter);
    done(this.calls.dm_ray_through(this.world, int64(from.x), int64(from.y), int64(along.x), int64(along.y), BigInt(at), BigInt(at + 32)));
    const reader = new Reader(this.library.view(), at + 32), isHit = reader.u32() !== 0, fraction = reader.u32();
    return isHit ? { fraction, shape: reader.id() } : null;
  }

  /** What a ray hits of one shape, as it lies now: the point and the normal of a hit. null where it misses, or where there is no such shape. */
  rayOn(shape, from, along) {
    const at = this.library.room(0, 96);
    const status = this.calls.dm_ray_on_shape(this.world, int64(from.x), int64(from.y), int64(along.x), int64(along.y), shapeNumber(shape), BigInt(at));
    if (status === 2) return null;
    done(status);
    const reader = new Reader(this.library.view(), at), isHit = reader.u32() !== 0, fraction = reader.u32();
    return isHit ? { fraction, point: reader.vec(), normal: reader.vec() } : null;
  }

  /** All hits on the way, the nearest first. A way of zero hits the shapes that the start lies in. */
  allHits(from, along, filter = {}) {
    const at = this.library.room(0, 96);
    new Writer(this.library.view(), at).filter(filter);
    done(this.calls.dm_ray_all(this.world, int64(from.x), int64(from.y), int64(along.x), int64(along.y), BigInt(at), BigInt(at + 32)));
    return this.list(this.calls.dm_hits_found, HIT_BYTES, (reader) => { reader.u32(); return { fraction: reader.u32(), shape: reader.id() }; });
  }

  regionThrough(lo, hi, filter) {
    const { library } = this, at = library.room(0, 96), writer = new Writer(library.view(), at);
    writer.vec(lo);
    writer.vec(hi);
    writer.filter(filter);
    done(this.calls.dm_region_through(this.world, BigInt(at), BigInt(at + 32), BigInt(at + 56)));
    return this.list(this.calls.dm_region_found, ID_BYTES, (reader) => reader.id());
  }

  // ---- what a body and a joint are, and how much there is ----

  /** What a call writes of a body or a joint, or null where the id names none. */
  seen(call, id, read) {
    const at = this.library.room(0, 96), status = call(this.world, id, BigInt(at));
    if (status === STALE_HANDLE) return null;
    done(status);
    return read(new Reader(this.library.view(), at));
  }

  /** What a body has, each item of which `read` takes from a reader. */
  listOf(call, body, bytes, read) {
    const { library } = this, count = library.room(0, 96);
    const ask = (fits) => {
      const at = library.room(1, bytes * fits);
      done(call(this.world, body, BigInt(at), BigInt(fits), BigInt(count)));
      return { at, count: Number(library.view().getBigUint64(count, true)) };
    };
    let asked = ask(64);
    if (asked.count > 64) asked = ask(asked.count);
    const reader = new Reader(library.view(), asked.at);
    return Array.from({ length: asked.count }, () => read(reader));
  }

  /** What a body is: its kind, whether it takes part, its mass and inertia, how many shapes it has, and a mover's island; null where the id names none. */
  info(body) { return this.seen(this.calls.dm_info, body, (reader) => reader.info()); }
  shapes(body) { return this.listOf(this.calls.dm_shapes, body, SHAPE_BYTES, (reader) => reader.shape()); }
  jointsOf(body) { return this.listOf(this.calls.dm_joints_of, body, ID_BYTES, (reader) => reader.u64()); }
  contactsOf(body) { return this.listOf(this.calls.dm_contacts_of, body, CONTACT_BYTES, (reader) => reader.contact()); }
  /** The colour of the contact of two shapes, as a contact has them, while it acts: 0 to 23, or 24 in the overflow; else null. */
  colourOf(a, b) {
    const colour = this.calls.dm_colour_of(this.world, shapeNumber(a), shapeNumber(b)) >>> 0;
    return colour === NONE ? null : colour;
  }
  joints() { return this.list(this.calls.dm_joints, ID_BYTES, (reader) => reader.u64()); }
  /** Its ends, its anchors, its length, the impulse that it keeps, and its colour while it acts; null where the id names none. */
  joint(joint) { return this.seen(this.calls.dm_joint, joint, (reader) => reader.jointView()); }
  /** The id of the body in a slot, as a pair of shapes names it; null where there is none. */
  bodyIn(slot) { return BigInt.asUintN(64, this.calls.dm_body_in(this.world, slot)) || null; }
  jointIn(slot) { return BigInt.asUintN(64, this.calls.dm_joint_in(this.world, slot)) || null; }

  count() {
    const at = this.library.room(0, 96);
    done(this.calls.dm_count(this.world, BigInt(at)));
    return new Reader(this.library.view(), at).counts();
  }

  /** What a cause (0 commands, 1 gravity, 2 bodies that don't give way, 3 the clamp, 4 rest, 5 departures), or what all have given the movers, in mass·u/tick. */
  total(cause = null) {
    const at = this.library.room(0, 96);
    done(cause === null ? this.calls.dm_total(this.world, BigInt(at)) : this.calls.dm_total_of(this.world, cause, BigInt(at)));
    return new Reader(this.library.view(), at).sum();
  }

  /** The contacts of near shapes, with their points, which only those have that touch. */
  contacts() {
    done(this.calls.dm_contacts(this.world, BigInt(this.library.room(0, 96))));
    return this.list(this.calls.dm_contacts_listed, CONTACT_BYTES, (reader) => reader.contact());
  }

  /** What it shows now. */
  frame() {
    const made = new Frame(this.library);
    let status = NO_WORLD;
    try {
      status = this.calls.dm_frame_take(this.world, BigInt(made.at));
    } finally {
      if (status !== 0) made.close();
    }
    done(status);
    return made;
  }

  // ---- keeping ----

  /** The world as JSON. Its numbers need 64 bits: keep the text as it is. */
  save() {
    const { library } = this, count = library.room(0, 96);
    done(this.calls.dm_save(this.world, BigInt(count)));
    const bytes = Number(library.view().getBigUint64(count, true)), at = library.room(1, bytes);
    this.calls.dm_saved(this.world, BigInt(at), BigInt(bytes));
    return new TextDecoder().decode(library.bytes(at, bytes));
  }

  load(text) {
    const { library } = this, bytes = new TextEncoder().encode(text), clause = library.room(0, 96);
    const at = library.room(1, bytes.length);
    library.bytes(at, bytes.length).set(bytes);
    library.view().setUint32(clause, 0, true);
    const status = this.calls.dm_load(this.world, BigInt(at), BigInt(bytes.length), BigInt(clause));
    done(status, status === 12 ? library.view().getUint32(clause, true) : 0);
  }

  /** The 32 bytes by which worlds are compared, as hexadecimal digits. */
  digest() {
    const at = this.library.room(0, 96);
    done(this.calls.dm_digest(this.world, BigInt(at), 32n));
    return Array.from(this.library.bytes(at, 32), (byte) => byte.toString(16).padStart(2, "0")).join("");
  }
}

if (Symbol.dispose) for (const owner of [World, Frame]) owner.prototype[Symbol.dispose] = function dispose() { this.close(); };
