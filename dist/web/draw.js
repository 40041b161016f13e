// Draws a world on a canvas. Lengths are metres here, with y upward, and doubles: nothing that is drawn goes back into the world.

import { CIRCLE, slotOf } from "./dillmonth.js";

const METRE = 1 << 20, UNIT = 1 << 30;
const GOLDEN = 137.508; // degrees between the hues of neighbouring numbers
const LARGE = 300; // bodies
const SELDOM = 120; // milliseconds between two questions for islands and colours, for each 300 bodies
const DISABLED = 1, ASLEEP = 3; // sets
export const OVERFLOW = 24; // after the solver's colours

const KINDS = ["static", "kinematic", "dynamic"], FORMS = ["circle", "capsule", "segment"];

const metres = (value) => Number(value) / METRE;
const inMetres = ({ x, y }) => ({ x: metres(x), y: metres(y) });
const hue = (number) => (10 + number * GOLDEN) % 360;
const islandHue = (number) => 60 + ((140 + (number * GOLDEN * 260) / 222.5) % 260); // not the reds, which contacts have

/** What is to be drawn of a world: shapes and joints of when the set of bodies was last changed, and poses, islands and contacts of now. */
export class Picture {
  constructor(world) {
    this.bodies = new Map(world.poses().map((pose) => [slotOf(pose.handle), new PictureBody(world, pose)]));
    this.joints = world.joints().map((joint) => new PictureJoint(joint, world.joint(joint)));
    this.poses = new Float64Array(4 * this.bodies.size);
    this.slots = new Uint32Array(this.bodies.size);
    this.contacts = [];
    this.colours = 0; // that some constraint has
    this.frames = 0;
    this.asked = 0; // when islands and colours were asked for
  }

  /** Takes the poses of now, and contacts where they are shown. In large worlds a picture asks for the sets of some bodies only. */
  follow(world, { contacts }, isRunning) {
    const count = Math.min(world.posesInto(this.poses, this.slots), this.slots.length), rounds = Math.ceil(this.bodies.size / LARGE);
    for (let number = 0; number < count; number++) {
      const body = this.bodies.get(this.slots[number]);
      body?.follow(this.poses, 4 * number);
      if (body && (!isRunning || this.frames === 0 || (number + this.frames) % rounds === 0)) body.note(world.body(body.handle));
    }
    this.contacts = contacts ? world.contacts().filter((contact) => contact.points.length > 0) : [];
    const now = performance.now();
    if (!isRunning || now - this.asked > SELDOM * rounds) this.ask(world, now);
    this.frames += 1;
  }

  /** Takes the islands of those that are awake, and the solver's colours. */
  ask(world, now) {
    this.asked = now;
    for (const body of this.bodies.values()) body.island = world.info(body.handle)?.island ?? null;
    for (const joint of this.joints) joint.colour = world.joint(joint.handle)?.colour ?? null;
    this.colours = world.count().colours;
  }

  /** A box with all bodies that move, and those round them that don't: all of these where they are about as large, or else what is near. */
  bounds() {
    const bodies = [...this.bodies.values()], movers = boxOf(bodies.filter((body) => body.kind !== "static"));
    const fixed = boxOf(bodies.filter((body) => body.kind === "static"));
    if (!movers || !fixed) return movers ?? fixed ?? { left: -4, right: 4, bottom: -3, top: 3 };
    const [x, y] = [near(movers.left, movers.right, fixed.left, fixed.right), near(movers.bottom, movers.top, fixed.bottom, fixed.top)];
    return { left: x[0], right: x[1], bottom: y[0], top: y[1] };
  }

  /** The slot of the body at a place, of one that moves before one that doesn't; null where there is none. */
  slotAt(point, slack) {
    const found = [...this.bodies].filter(([, body]) => body.shapes.some((shape) => distance(body, shape, point) <= slack));
    return (found.find(([, body]) => body.kind === "dynamic") ?? found[0])?.[0] ?? null;
  }
}

/** A stretch with all of one from `low` to `high`, and of another what is at most three times as far away as the first is long, or four metres. */
function near(low, high, otherLow, otherHigh) {
  const reach = Math.max(4, 3 * (high - low));
  return [Math.min(low, Math.max(otherLow, low - reach)), Math.max(high, Math.min(otherHigh, high + reach))];
}

/** The least box with all shapes of some bodies; null without any. */
function boxOf(bodies) {
  const box = { left: Infinity, bottom: Infinity, right: -Infinity, top: -Infinity };
  for (const body of bodies) {
    for (const shape of body.shapes) {
      for (const end of shape.ends.map((end) => body.inWorld(end))) {
        box.left = Math.min(box.left, end.x - shape.radius);
        box.right = Math.max(box.right, end.x + shape.radius);
        box.bottom = Math.min(box.bottom, end.y - shape.radius);
        box.top = Math.max(box.top, end.y + shape.radius);
      }
    }
  }
  return box.left <= box.right ? box : null;
}

class PictureBody {
  constructor(world, { handle, at, facing }) {
    const info = world.info(handle);
    this.handle = handle;
    this.kind = KINDS[info.kind];
    this.mass = Number(info.mass);
    this.inertia = Number(info.inertia);
    this.shapes = world.shapes(handle).map((shape) => new PictureShape(shape));
    this.at = inMetres(at);
    this.facing = { c: Number(facing.c) / UNIT, s: Number(facing.s) / UNIT };
    this.isEnabled = info.isEnabled;
    this.isAsleep = false;
    this.island = info.island;
    this.note(world.body(handle));
  }

  /** Takes the set and the island of a view. */
  note(view) {
    if (!view) return;
    this.isEnabled = view.set !== DISABLED;
    this.isAsleep = view.set === ASLEEP;
    if (this.isAsleep) this.island = view.island;
  }

  /** Takes the pose that stands at a place among those of all bodies. */
  follow(poses, from) {
    this.at.x = poses[from];
    this.at.y = poses[from + 1];
    this.facing.c = poses[from + 2];
    this.facing.s = poses[from + 3];
  }

  inWorld({ x, y }) {
    const { c, s } = this.facing;
    return { x: this.at.x + c * x - s * y, y: this.at.y + s * x + c * y };
  }

  inBody({ x, y }) {
    const { c, s } = this.facing, dx = x - this.at.x, dy = y - this.at.y;
    return { x: c * dx + s * dy, y: c * dy - s * dx };
  }

  isMover() { return this.kind === "dynamic" && this.isEnabled; }
}

class PictureShape {
  constructor({ form, first, second, radius, friction, restitution }) {
    this.form = FORMS[form];
    this.ends = (form === CIRCLE ? [first] : [first, second]).map(inMetres);
    this.radius = metres(radius);
    this.friction = Number(friction);
    this.restitution = Number(restitution);
  }
}

class PictureJoint {
  constructor(handle, { a, b, from, to, colour }) {
    this.handle = handle;
    [this.a, this.b] = [slotOf(a), slotOf(b)];
    [this.from, this.to] = [inMetres(from), inMetres(to)];
    this.colour = colour;
  }
}

/** How far a place is from a shape; below 0 inside. */
function distance(body, shape, point) {
  const [a, b = a] = shape.ends.map((end) => body.inWorld(end));
  const along = { x: b.x - a.x, y: b.y - a.y }, length = along.x ** 2 + along.y ** 2;
  const share = length ? Math.max(0, Math.min(1, ((point.x - a.x) * along.x + (point.y - a.y) * along.y) / length)) : 0;
  return Math.hypot(point.x - a.x - share * along.x, point.y - a.y - share * along.y) - shape.radius;
}

/** Where the canvas looks: the place in its middle, and the pixels of a metre. */
export class Camera {
  constructor() {
    this.x = 0;
    this.y = 0;
    this.scale = 40;
    this.width = 1;
    this.height = 1;
    this.isFitted = true; // nobody looks elsewhere
  }

  /** Shows a box, above the bar and with some room round it. */
  fit({ left, bottom, right, top }) {
    const bar = 118, room = { x: Math.max(this.width - 48, 50), y: Math.max(this.height - bar - 48, 50) };
    this.scale = Math.min(room.x / Math.max(right - left, 1), room.y / Math.max(top - bottom, 1), 160);
    this.x = (left + right) / 2;
    this.y = (bottom + top) / 2 - (bar - 12) / 2 / this.scale;
    this.isFitted = true;
  }

  /** Moves what is seen by so many pixels. */
  pan(dx, dy) {
    this.isFitted = false;
    this.x -= dx / this.scale;
    this.y += dy / this.scale;
  }

  toScreen({ x, y }) { return { x: this.width / 2 + (x - this.x) * this.scale, y: this.height / 2 - (y - this.y) * this.scale }; }
  toWorld({ x, y }) { return { x: this.x + (x - this.width / 2) / this.scale, y: this.y - (y - this.height / 2) / this.scale }; }

  zoom(by, { x, y }) {
    this.isFitted = false;
    const before = this.toWorld({ x, y });
    this.scale = Math.max(2, Math.min(2000, this.scale * by));
    const after = this.toWorld({ x, y });
    this.x += before.x - after.x;
    this.y += before.y - after.y;
  }
}

/** The colours of the page, as its style sheet has them. */
function colours() {
  const style = getComputedStyle(document.documentElement);
  const names = ["ground", "ink", "soft", "faint", "grid", "grid-strong", "static", "static-edge", "joint", "contact", "kinematic", "card", "accent", "idle-soft"];
  const found = Object.fromEntries(names.map((name) => [name, style.getPropertyValue(`--${name}`).trim()]));
  return { ...found, isDark: style.colorScheme === "dark" };
}

const nameOf = (colour) => (colour >= OVERFLOW ? "o" : colour);

/** What stands for one of the solver's colours. */
function tintOf(colour, theme) {
  return colour >= OVERFLOW ? theme.ink : `hsl(${hue(colour)} 85% ${theme.isDark ? 66 : 30}%)`;
}

/** How many joints have each of the solver's colours: the colour, what stands for it, and the count. */
export function legendOf(picture) {
  const counts = new Map(), theme = colours();
  for (const { colour } of picture.joints) if (colour !== null) counts.set(colour, (counts.get(colour) ?? 0) + 1);
  return [...counts].sort(([a], [b]) => a - b).map(([colour, count]) => ({ colour, tint: tintOf(colour, theme), count }));
}

export class Painter {
  constructor(canvas, camera) {
    this.canvas = canvas;
    this.camera = camera;
    this.pen = canvas.getContext("2d");
    this.resized();
  }

  resized() {
    const { canvas, camera } = this, ratio = window.devicePixelRatio || 1;
    if (canvas.clientWidth === 0) return; // it isn't shown
    camera.width = canvas.clientWidth;
    camera.height = canvas.clientHeight;
    canvas.width = Math.round(camera.width * ratio);
    canvas.height = Math.round(camera.height * ratio);
    this.ratio = ratio;
  }

  /** Draws a picture, with the pull of a hand and a ring round the body that is told of, where there are such. */
  paint(picture, shown, { hand, told } = {}) {
    const { pen, camera } = this, bodies = [...picture.bodies.values()];
    this.theme = colours();
    pen.setTransform(this.ratio, 0, 0, this.ratio, 0, 0);
    pen.fillStyle = this.theme.ground;
    pen.fillRect(0, 0, camera.width, camera.height);
    pen.lineJoin = pen.lineCap = "round";
    this.grid();
    for (const body of bodies) if (body.kind === "static") this.body(body, shown);
    for (const body of bodies) if (body.kind !== "static") this.body(body, shown);
    if (told) this.ring(told);
    if (shown.joints) for (const joint of picture.joints) this.joint(picture, joint, shown.colours && joint.colour);
    if (shown.contacts) for (const contact of picture.contacts) this.contact(picture, contact);
    if (shown.numbers) for (const body of bodies) this.number(body);
    if (hand) this.hand(hand);
  }

  /** The number of a body's island, where there is room for it. */
  number(body) {
    if (!body.isMover() || this.camera.scale < 12) return;
    this.label(this.camera.toScreen(body.at), body.island, this.theme.ink);
  }

  label({ x, y }, text, colour) {
    const { pen, theme } = this;
    pen.font = "600 11px system-ui, sans-serif";
    pen.textAlign = "center";
    pen.textBaseline = "middle";
    pen.lineWidth = 3;
    pen.strokeStyle = theme.ground;
    pen.fillStyle = colour;
    pen.strokeText(text, x, y);
    pen.fillText(text, x, y);
  }

  /** A line round all shapes of a body. */
  ring(body) {
    const { pen, theme } = this;
    for (const [width, colour] of [[8, theme.ground], [4, theme.accent]]) {
      pen.lineWidth = width;
      pen.strokeStyle = colour;
      for (const shape of body.shapes) {
        this.outline(body, shape);
        pen.stroke();
      }
    }
  }

  grid() {
    const { pen, camera, theme } = this, every = camera.scale > 18 ? 1 : camera.scale > 4 ? 5 : 25;
    const low = camera.toWorld({ x: 0, y: camera.height }), high = camera.toWorld({ x: camera.width, y: 0 });
    const line = (number, from, to) => {
      pen.strokeStyle = Math.round(number / every) % 5 === 0 ? theme["grid-strong"] : theme.grid;
      pen.beginPath();
      pen.moveTo(Math.round(from.x) + 0.5, Math.round(from.y) + 0.5);
      pen.lineTo(Math.round(to.x) + 0.5, Math.round(to.y) + 0.5);
      pen.stroke();
    };
    pen.lineWidth = 1;
    for (let x = Math.ceil(low.x / every) * every; x <= high.x; x += every) line(x, camera.toScreen({ x, y: low.y }), camera.toScreen({ x, y: high.y }));
    for (let y = Math.ceil(low.y / every) * every; y <= high.y; y += every) line(y, camera.toScreen({ x: low.x, y }), camera.toScreen({ x: high.x, y }));
  }

  /** The fill and the edge of a body. Those that move have the hue of their island. */
  look(body, shown) {
    const { theme } = this;
    if (!body.isEnabled) return { fill: "transparent", edge: theme.faint, dash: [3, 4] };
    if (body.kind === "static") return { fill: theme.static, edge: theme["static-edge"] };
    if (body.kind === "kinematic") return { fill: theme.card, edge: theme.kinematic, width: 3.5 };
    const tone = shown.islands ? islandHue(body.island) : 212;
    if (body.isAsleep) {
      return theme.isDark
        ? { fill: `hsl(${tone} 22% 20%)`, edge: `hsl(${tone} 22% 60%)`, dash: [4, 3] }
        : { fill: `hsl(${tone} 38% 93%)`, edge: `hsl(${tone} 22% 38%)`, dash: [4, 3] };
    }
    return theme.isDark ? { fill: `hsl(${tone} 42% 40%)`, edge: `hsl(${tone} 65% 82%)` } : { fill: `hsl(${tone} 66% 74%)`, edge: `hsl(${tone} 55% 26%)` };
  }

  body(body, shown) {
    const { pen } = this, look = this.look(body, shown);
    pen.setLineDash(look.dash ?? []);
    pen.strokeStyle = look.edge;
    pen.fillStyle = look.fill;
    for (const shape of body.shapes) {
      pen.lineWidth = look.width ?? (shape.form === "segment" ? 3 : 1.5);
      this.outline(body, shape);
      if (shape.form !== "segment") pen.fill();
      pen.stroke();
    }
    pen.setLineDash([]);
    if (body.kind !== "static" && body.isEnabled) this.facing(body, look);
  }

  /** The way round a shape. */
  outline(body, shape) {
    const { pen, camera } = this, [a, b = a] = shape.ends.map((end) => camera.toScreen(body.inWorld(end)));
    const radius = shape.radius * camera.scale, angle = Math.atan2(b.y - a.y, b.x - a.x), quarter = Math.PI / 2;
    pen.beginPath();
    if (shape.form === "segment") {
      pen.moveTo(a.x, a.y);
      pen.lineTo(b.x, b.y);
      return;
    }
    if (shape.form === "circle") pen.arc(a.x, a.y, radius, 0, 4 * quarter);
    else {
      pen.arc(a.x, a.y, radius, angle + quarter, angle - quarter);
      pen.arc(b.x, b.y, radius, angle - quarter, angle + quarter);
    }
    pen.closePath();
  }

  /** A line from each circle's centre that shows how the body is turned. */
  facing(body, look) {
    const { pen, camera } = this;
    for (const shape of body.shapes) {
      if (shape.form !== "circle") continue;
      const [centre] = shape.ends, from = camera.toScreen(body.inWorld(centre)), to = camera.toScreen(body.inWorld({ x: centre.x + shape.radius, y: centre.y }));
      pen.strokeStyle = look.edge;
      pen.lineWidth = 1.25;
      pen.beginPath();
      pen.moveTo(from.x, from.y);
      pen.lineTo(to.x, to.y);
      pen.stroke();
    }
  }

  ofColour(colour) { return colour === null || colour === undefined ? this.theme.faint : tintOf(colour, this.theme); }

  joint(picture, joint, colour) {
    const { pen, camera } = this, [a, b] = [picture.bodies.get(joint.a), picture.bodies.get(joint.b)];
    if (!a || !b || !a.isEnabled || !b.isEnabled) return;
    const from = camera.toScreen(a.inWorld(joint.from)), to = camera.toScreen(b.inWorld(joint.to));
    pen.strokeStyle = pen.fillStyle = colour === false ? this.theme.joint : this.ofColour(colour);
    pen.lineWidth = 2;
    pen.beginPath();
    pen.moveTo(from.x, from.y);
    pen.lineTo(to.x, to.y);
    pen.stroke();
    for (const end of [from, to]) this.dot(end, 3);
    if (typeof colour === "number") this.label({ x: (from.x + to.x) / 2, y: (from.y + to.y) / 2 }, nameOf(colour), pen.fillStyle);
  }

  dot({ x, y }, radius) {
    this.pen.beginPath();
    this.pen.arc(x, y, radius, 0, 2 * Math.PI);
    this.pen.fill();
  }

  /** The points of a contact, each with its normal: the longer the line, the larger the impulse. */
  contact(picture, contact) {
    const { pen, camera, theme } = this, body = picture.bodies.get(contact.a[0]), other = picture.bodies.get(contact.b[0]);
    if (!body || !other) return;
    const movers = [body, other].filter((each) => each.isMover()), isActing = movers.some((each) => !each.isAsleep);
    const mass = Math.min(...movers.map((each) => each.mass)), normal = { x: Number(contact.normal.x) / UNIT, y: Number(contact.normal.y) / UNIT };
    contact.points.forEach(({ offset, normalImpulse }) => {
      const at = camera.toScreen({ x: body.at.x + metres(offset.x), y: body.at.y + metres(offset.y) });
      const speed = Number(normalImpulse) / mass / 157; // in ticks of the usual gravity
      const size = Math.max(0.45, Math.min(1, camera.scale / 40)); // smaller where bodies are
      const length = isActing ? size * Math.min(4 + 5 * Math.sqrt(speed), 20) : 0, radius = size * (isActing ? 3 : 1.8);
      const along = { x: normal.x * length, y: -normal.y * length };
      if (isActing) this.needle(at, along, radius + 1.5 * size, 1.75 + 2.75 * size, theme.ground);
      this.needle(at, along, radius, 1.75, isActing ? theme.contact : theme.faint);
    });
  }

  needle(at, along, radius, width, colour) {
    const { pen } = this;
    pen.strokeStyle = pen.fillStyle = colour;
    pen.lineWidth = width;
    pen.beginPath();
    pen.moveTo(at.x - along.x, at.y - along.y);
    pen.lineTo(at.x + along.x, at.y + along.y);
    pen.stroke();
    this.dot(at, radius);
  }

  /** The pull of a hand on a body. */
  hand({ from, to }) {
    const { pen, camera, theme } = this, [a, b] = [camera.toScreen(from), camera.toScreen(to)];
    pen.strokeStyle = pen.fillStyle = theme.accent;
    pen.lineWidth = 2;
    pen.setLineDash([6, 5]);
    pen.beginPath();
    pen.moveTo(a.x, a.y);
    pen.lineTo(b.x, b.y);
    pen.stroke();
    pen.setLineDash([]);
    this.dot(a, 4);
    this.dot(b, 5);
  }
}

/** A colour for each step's digest, in two rows, and a bar through both where they differ. */
export function paintStrip(canvas, pairs) {
  const ratio = window.devicePixelRatio || 1, width = canvas.clientWidth, height = canvas.clientHeight;
  canvas.width = Math.round(width * ratio);
  canvas.height = Math.round(height * ratio);
  const pen = canvas.getContext("2d"), columns = Math.floor(width / 4), theme = colours();
  pen.scale(ratio, ratio);
  pen.fillStyle = theme["idle-soft"];
  pen.fillRect(0, 0, width, height / 2 - 1);
  pen.fillRect(0, height / 2 + 1, width, height / 2 - 1);
  pairs.slice(-columns).forEach(([ours, other], number) => {
    for (const [digest, top] of [[ours, 0], [other, height / 2 + 1]]) {
      if (!digest) continue;
      pen.fillStyle = tintOfDigest(digest);
      pen.fillRect(4 * number, top, 3, height / 2 - 1);
    }
    pen.fillStyle = theme.ink;
    if (other && other !== ours) pen.fillRect(4 * number + 1, 2, 1.5, height - 4);
  });
}

function tintOfDigest(digest) {
  const [first, second, third] = [digest.slice(0, 4), digest.slice(4, 6), digest.slice(6, 8)].map((digits) => parseInt(digits, 16));
  return `hsl(${first % 360} ${45 + (second % 40)}% ${40 + (third % 30)}%)`;
}
