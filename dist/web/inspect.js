// What is told of a body that somebody points at: in metres, seconds and kilograms, of which 256 units of mass are one.

import { KILOGRAM } from "./dillmonth.js";
import { TICKS_A_SECOND } from "./play.js";
import { textOf } from "./script.js";

const METRE = 1 << 20, UNIT = 1 << 30, SHARE = 256, WEIGHT = Number(KILOGRAM);
const TOLD = 4; // contacts

/** The names of the lines that are told of a body. */
export const LINES = ["set", "at", "turned", "mass", "inertia", "velocity", "spin", "momentum", "shapes", "contacts"];

const number = (value, digits = 2) => (Math.abs(value) < 0.5 * 10 ** -digits ? 0 : value).toFixed(digits).replace("-", "−");
const pair = ({ x, y }, by, unit) => `${number(Number(x) / by)}, ${number(Number(y) / by)} ${unit}`;
const degrees = (radians) => (radians * 180) / Math.PI;
const impulse = (value) => (Number(value) * TICKS_A_SECOND) / METRE / WEIGHT;

function setOf(body) {
  if (!body.isEnabled) return "disabled";
  if (body.kind !== "dynamic") return body.kind;
  return `${body.isAsleep ? "asleep" : "awake"}, island ${body.island}`;
}

/** How fast a body is and turns. */
function motionOf(body, { velocity, spin }) {
  if (body.kind === "static") return { velocity: "none", spin: 0 };
  return { velocity: pair(velocity, METRE / TICKS_A_SECOND, "m/s"), spin: (Number(spin) / UNIT) * TICKS_A_SECOND };
}

function shapeText({ form, radius, ends, friction, restitution }) {
  const length = Math.hypot(ends[0].x - ends.at(-1).x, ends[0].y - ends.at(-1).y);
  const size = [form === "circle" ? "" : `${number(length)} m long`, radius ? `radius ${number(radius)} m` : ""].filter(Boolean).join(", ");
  return `${form}, ${size}\nfriction ${number(friction / SHARE)}, restitution ${number(restitution / SHARE)}`;
}

/** Of each contact of a body its other body, its points and its impulse; the largest first. */
function contactTexts(picture, contacts, slot) {
  const own = contacts.filter((contact) => contact.points.length > 0 && (contact.a[0] === slot || contact.b[0] === slot));
  const found = own.map((contact) => {
    const other = picture.bodies.get(contact.a[0] === slot ? contact.b[0] : contact.a[0]);
    return { other, points: contact.points.length, by: contact.points.reduce((sum, each) => sum + impulse(each.normalImpulse), 0) };
  }).sort((a, b) => b.by - a.by);
  const texts = found.slice(0, TOLD).map(({ other, points, by }) => `${other?.handle ? textOf(other.handle) : "?"}: ${points} point${points > 1 ? "s" : ""}, ${number(by)} N s`);
  return found.length > TOLD ? [...texts, `and ${found.length - TOLD} more`] : texts;
}

/** What is told of a body: its name, and a text for each of `LINES`. Null where it isn't there any more. */
export function toldOf(world, picture, slot, contacts) {
  const body = picture.bodies.get(slot), view = body?.handle && world.body(body.handle);
  if (!view) return null;
  const { velocity, spin } = motionOf(body, world.motion(body.handle)), isDynamic = body.kind === "dynamic";
  const texts = [
    setOf(body),
    `${number(body.at.x, 3)}, ${number(body.at.y, 3)} m`,
    `${number(degrees(Math.atan2(body.facing.s, body.facing.c)), 1)}°`,
    isDynamic ? `${number(body.mass / WEIGHT)} kg` : "none",
    isDynamic ? `${(body.inertia / WEIGHT / METRE / METRE).toPrecision(3)} kg m²` : "none",
    velocity,
    `${number(degrees(spin), 1)}°/s`,
    isDynamic ? `${pair(view.p, (METRE * WEIGHT) / TICKS_A_SECOND, "kg m/s")}` : "none",
    body.shapes.map(shapeText).join("\n"),
    contactTexts(picture, contacts, slot).join("\n") || "none",
  ];
  return { name: `${body.kind} body ${textOf(body.handle)}`, texts };
}
