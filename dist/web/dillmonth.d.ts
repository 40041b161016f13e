// The types of dillmonth.js.

/** A whole number: what a world answers is BigInt, and what it is given may be a whole Number too. */
export type Whole = bigint | number;
/** The id of a body or of a joint, in one number; it can be a key of a Map. */
export type Handle = bigint;
/** The slot of a body, and the place among its shapes. */
export type ShapeId = [slot: number, index: number];
export type Pair = [ShapeId, ShapeId];

export interface Vec { x: bigint; y: bigint }
export interface Rot { c: bigint; s: bigint }
export interface VecLike { x: Whole; y: Whole }
export interface RotLike { c: Whole; s: Whole }

export const METRE: bigint;
export const ONE: bigint;
export const KILOGRAM: bigint;
export const ALL: bigint;
export const RATE: number;
export const VERSION: number;
export const NOBODY: Handle;
export const STATIC: 0, KINEMATIC: 1, DYNAMIC: 2;
export const CIRCLE: 0, CAPSULE: 1, SEGMENT: 2;
export const SETS: readonly ["static", "disabled", "awake", "asleep"];
export const EVENTS: readonly ["begun", "ended", "slept", "woke"];

export function handleOf(slot: Whole | string, generation: Whole | string): Handle;
export function slotOf(handle: Handle): number;
export function generationOf(handle: Handle): number;

// units: metres, seconds, kilograms and degrees, of which each becomes a whole number by one rounding
export function metres(value: number): bigint;
export function inMetres(u: Whole): number;
export function at(x: number, y: number): Vec;
export function kilograms(value: number): bigint;
export function share(value: number): bigint;
export function ticks(seconds: number, rate?: number): bigint;
export function speed(metresASecond: number, rate?: number): bigint;
export function velocity(x: number, y: number, rate?: number): Vec;
export function gravity(x: number, y: number, rate?: number): Vec;
export function pushOf(mass: Whole, x: number, y: number, rate?: number): Vec;
export function spin(degreesASecond: number, rate?: number): bigint;
export function degrees(turn: number): Rot;

export interface Surface {
  friction?: Whole;
  restitution?: Whole;
  group?: number;
  category?: Whole;
  mask?: Whole;
}
export interface Shape extends Surface {
  form: 0 | 1 | 2;
  first: VecLike;
  second: VecLike;
  radius?: Whole;
}
export interface Mass { mass: bigint; inertia: bigint }
export interface BodyDef {
  kind: 0 | 1 | 2;
  at: VecLike;
  facing?: RotLike;
  mass?: Whole;
  inertia?: Whole;
  velocity?: VecLike;
  spin?: Whole;
}
export interface JointDef {
  a: Handle;
  b: Handle;
  from: VecLike;
  to: VecLike;
  length: Whole;
  collide?: boolean;
}

export function circle(radius: Whole, more?: Surface & { first?: VecLike }): Shape;
export function capsule(first: VecLike, second: VecLike, radius: Whole, more?: Surface): Shape;
export function segment(first: VecLike, second: VecLike, more?: Surface): Shape;
export function staticBody(place: VecLike, more?: { facing?: RotLike }): BodyDef;
export function kinematicBody(place: VecLike, its: VecLike, more?: { facing?: RotLike; spin?: Whole }): BodyDef;
export function dynamicBody(place: VecLike, mass: { mass: Whole; inertia: Whole }, more?: { facing?: RotLike }): BodyDef;
export function jointBetween(a: Handle, b: Handle, length: Whole, more?: { from?: VecLike; to?: VecLike; collide?: boolean }): JointDef;
export function circleMass(radius: Whole, density?: Whole): Mass;
export function capsuleMass(half: Whole, radius: Whole, density?: Whole): Mass;

/** A call that was refused, and has changed nothing. */
export class Refused extends Error {
  constructor(status: number, clause?: number);
  status: number;
  clause: number;
}

export interface Pose { handle: Handle; at: Vec; facing: Rot }
export interface View extends Pose {
  p: Vec;
  l: bigint;
  velocity: Vec;
  spin: bigint;
  set: 0 | 1 | 2 | 3;
  island: number;
  tag: bigint;
}
export interface Course { velocity: Vec; spin: bigint }
export interface ContactPoint { offset: Vec; separation: bigint; normalImpulse: bigint; tangentImpulse: bigint }
export interface Contact {
  a: ShapeId;
  b: ShapeId;
  normal: Vec;
  points: ContactPoint[];
}
export type StepEvent =
  | { step: bigint; kind: "begun" | "ended"; first: Handle; second: Handle; firstTag: bigint; secondTag: bigint; contact: Contact }
  | { step: bigint; kind: "slept" | "woke"; body: Handle; tag: bigint };
export interface Hit { fraction: number; shape: ShapeId }
export interface ShapeHit { fraction: number; point: Vec; normal: Vec }
/** Which shapes a question sees: all but those of one body, and those alone whose category meets a mask. */
export interface Filter { without?: Handle; mask?: bigint | null }
export interface BodyInfo { kind: 0 | 1 | 2; isEnabled: boolean; mass: bigint; inertia: bigint; shapes: number; island: number | null }
export interface BodyShape { form: 0 | 1 | 2; group: number; first: Vec; second: Vec; radius: bigint; friction: bigint; restitution: bigint; category: bigint; mask: bigint }
export interface JointView { a: Handle; b: Handle; from: Vec; to: Vec; length: bigint; collide: boolean; impulse: bigint; colour: number | null }
export interface Counts { bodies: number; awake: number; joints: number; contacts: number; touching: number; islands: number; colours: number }
export interface Answer { status: number; made: Handle; step: bigint }

interface Commands<Made, Done, Step> {
  createBody(def: BodyDef, shapes: readonly Shape[]): Made;
  createJoint(def: JointDef): Made;
  destroyBody(body: Handle): Done;
  destroyJoint(joint: Handle): Done;
  push(body: Handle, by: VecLike): Done;
  pushAt(body: Handle, by: VecLike, offset: VecLike): Done;
  setPose(body: Handle, place: VecLike, facing: RotLike): Done;
  setVelocity(body: Handle, its: VecLike, turning: Whole): Done;
  setGravity(by: VecLike): Done;
  disable(body: Handle): Done;
  enable(body: Handle): Done;
  wake(body: Handle): Done;
  sleep(body: Handle): Done;
  step(ticks: Whole): Step;
}

/** Commands that a world does in one call. */
export class Batch implements Commands<void, void, void> {
  readonly length: number;
  clear(): void;
  createBody(def: BodyDef, shapes: readonly Shape[]): void;
  createJoint(def: JointDef): void;
  destroyBody(body: Handle): void;
  destroyJoint(joint: Handle): void;
  push(body: Handle, by: VecLike): void;
  pushAt(body: Handle, by: VecLike, offset: VecLike): void;
  setPose(body: Handle, place: VecLike, facing: RotLike): void;
  setVelocity(body: Handle, its: VecLike, turning: Whole): void;
  setGravity(by: VecLike): void;
  disable(body: Handle): void;
  enable(body: Handle): void;
  wake(body: Handle): void;
  sleep(body: Handle): void;
  step(ticks: Whole): void;
}

/** A world with the calls that it accepted since it was opened, from which it can be made again: each command of `world` goes by `applyAll`. */
export class Journal {
  constructor(library: Library, gravity?: VecLike);
  readonly world: World;
  readonly batch: Batch;
  applyAll(batch: Batch): Answer[];
  /** A world with the same digest. */
  replay(): World;
}

/** A module that is ready. After a call that traps it is spent: load it anew. */
export class Library {
  static load(source: Response | Promise<Response> | ArrayBuffer | ArrayBufferView | Promise<ArrayBuffer>): Promise<Library>;
  open(gravity?: VecLike): World;
}

/** A world, until it is closed. */
export class World implements Commands<Handle, void, bigint> {
  private constructor();
  close(): void;
  copy(): World;
  reopened(gravity: VecLike): World;
  createBody(def: BodyDef, shapes: readonly Shape[]): Handle;
  createJoint(def: JointDef): Handle;
  destroyBody(body: Handle): void;
  destroyJoint(joint: Handle): void;
  push(body: Handle, by: VecLike): void;
  pushAt(body: Handle, by: VecLike, offset: VecLike): void;
  setPose(body: Handle, place: VecLike, facing?: RotLike): void;
  setVelocity(body: Handle, its: VecLike, turning?: Whole): void;
  setGravity(by: VecLike): void;
  disable(body: Handle): void;
  enable(body: Handle): void;
  wake(body: Handle): void;
  sleep(body: Handle): void;
  step(ticks?: Whole): bigint;
  applyAll(batch: Batch): Answer[];
  poses(): Pose[];
  moved(): Pose[];
  /** x, y, cosine and sine of each body, one behind another, in metres; answers how many bodies there are. */
  posesInto(floats: Float32Array | Float64Array, slots?: Uint32Array | null): number;
  begun(): Pair[];
  ended(): Pair[];
  slept(): Handle[];
  woke(): Handle[];
  steps(): bigint;
  pushTo(body: Handle, its: VecLike): void;
  twist(body: Handle, by: Whole): void;
  twistTo(body: Handle, turning: Whole): void;
  setTarget(body: Handle, place: VecLike, facing?: RotLike, ticks?: Whole): void;
  setTag(body: Handle, tag: Whole): void;
  tag(body: Handle): bigint;
  motion(body: Handle): Course | null;
  clearEvents(keeps?: boolean): void;
  events(): StepEvent[];
  body(handle: Handle): View | null;
  gravity(): Vec;
  ray(from: VecLike, along: VecLike): Hit | null;
  region(lo: VecLike, hi: VecLike): ShapeId[];
  rayThrough(from: VecLike, along: VecLike, filter: Filter): Hit | null;
  rayOn(shape: ShapeId, from: VecLike, along: VecLike): ShapeHit | null;
  allHits(from: VecLike, along: VecLike, filter?: Filter): Hit[];
  regionThrough(lo: VecLike, hi: VecLike, filter: Filter): ShapeId[];
  info(body: Handle): BodyInfo | null;
  shapes(body: Handle): BodyShape[];
  jointsOf(body: Handle): Handle[];
  contactsOf(body: Handle): Contact[];
  colourOf(a: ShapeId, b: ShapeId): number | null;
  joints(): Handle[];
  joint(joint: Handle): JointView | null;
  bodyIn(slot: number): Handle | null;
  jointIn(slot: number): Handle | null;
  count(): Counts;
  total(cause?: number | null): { x: bigint; y: bigint };
  contacts(): Contact[];
  frame(): Frame;
  save(): string;
  load(text: string): void;
  digest(): string;
}

/** What a world shows at one moment, until it is closed. It never changes, and outlives the world. */
export class Frame {
  private constructor();
  close(): void;
  pose(body: Handle): Pose | null;
  ray(from: VecLike, along: VecLike): Hit | null;
  region(lo: VecLike, hi: VecLike): ShapeId[];
  total(): { x: bigint; y: bigint };
  /** How many calls the world had accepted. */
  calledTimes(): bigint;
}
