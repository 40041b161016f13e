// What the owner for JavaScript does with values, over the module that bindings/web/build makes: values.mjs
import { readFileSync } from "node:fs";
import {
  ALL, Batch, DYNAMIC, Journal, Library, METRE, Refused, at, circle, circleMass, degrees, dynamicBody, handleOf, kinematicBody, metres, segment, staticBody,
} from "../web/dillmonth.js";

const library = await Library.load(readFileSync(new URL("../web/out/dillmonth.wasm", import.meta.url)));
let passed = 0, failed = 0;

function check(name, holds) {
  holds ? passed++ : failed++;
  if (!holds) console.log(`FAILED ${name}`);
}

function thrown(call) {
  try {
    call();
    return null;
  } catch (error) {
    return error;
  }
}

const world = library.open(), body = world.createBody({ kind: DYNAMIC, at: { x: -METRE, y: 3 }, mass: 256, inertia: 0 }, [circle(METRE)]);
const floats = new Float64Array(8), single = new Float32Array(4), slots = new Uint32Array(2);
check("places without objects", world.posesInto(floats, slots) === 1 && floats[0] === -1 && floats[1] === 3 / 2 ** 20 && floats[2] === 1 && floats[3] === 0 && slots[0] === 0);
world.createBody(dynamicBody(at(1e4, -1e4), circleMass(metres(0.5))), [circle(metres(0.5))]);
check("as many as fit", world.posesInto(single) === 2 && single[0] === -1 && world.posesInto(floats) === 2 && floats[4] === 1e4 && floats[5] === -1e4);
check("a key of a map", new Map([[body, 7]]).get(world.poses()[0].handle) === 7);
check("whole numbers alone", thrown(() => world.push(body, { x: 0.5, y: 0 })) instanceof RangeError && thrown(() => world.step(1n << 64n)) instanceof RangeError);
check("nothing wraps", thrown(() => world.push(body, { x: 1n << 63n, y: 0 })) instanceof RangeError && world.steps() === 0n);
world.destroyBody(body);
check("an id of none", world.body(body) === null && thrown(() => world.push(body, { x: 1, y: 1 })).status === 2);
const framed = library.open(), seen = framed.createBody(dynamicBody(at(1, 2), circleMass(metres(0.5))), [circle(metres(0.5))]), frame = framed.frame();
const before = framed.body(seen), hit = framed.ray(at(1, 9), at(0, -9));
framed.step(4n);
framed.destroyBody(seen);
framed.close();
check("a frame stays", frame.pose(seen).at.y === before.at.y && frame.calledTimes() === 1n && frame.ray(at(1, 9), at(0, -9)).fraction === hit.fraction);
check("a frame's lists", frame.region(at(0, 0), at(3, 3)).length === 1 && frame.total().x === 0n && frame.pose(handleOf(7, 1)) === null);
check("a frame's limits", thrown(() => frame.ray({ x: 0, y: 0 }, { x: 1n << 40n, y: 0 })).status === 5 && thrown(() => framed.frame()).status === 32);
frame.close();
frame.close();
check("a closed frame", thrown(() => frame.total()).status === 32 && frame.calledTimes() === 0n);
const journal = new Journal(library, { x: 0, y: -179 }), batch = new Batch();
batch.push(handleOf(9, 1), { x: 1, y: 1 });
batch.createBody(dynamicBody(at(0, 4), circleMass(metres(0.5))), [circle(metres(0.5)), circle(metres(0.25))]);
batch.step(4n);
check("a journal keeps what is accepted", journal.applyAll(batch).map(({ status }) => status).join() === "2,0,0" && journal.batch.length === 2);
journal.applyAll(batch);
const replayed = journal.replay();
check("a journal is played again", journal.batch.length === 4 && replayed.digest() === journal.world.digest() && replayed.steps() === 2n);
journal.world.close();
replayed.close();
const moving = library.open({ x: 0, y: -179 }), ground = moving.createBody(staticBody(at(0, 0)), [segment(at(-8, 0), at(8, 0))]);
const coin = moving.createBody(dynamicBody(at(0, 1), circleMass(metres(0.5))), [circle(metres(0.5))]), nobody = handleOf(9, 1);
const lift = moving.createBody(kinematicBody(at(5, 5), at(0, 0)), [circle(metres(0.25))]);
moving.setTag(coin, ALL);
check("tags", moving.tag(coin) === ALL && moving.body(coin).tag === ALL && moving.tag(ground) === 0n && thrown(() => moving.setTag(nobody, 1)).status === 2);
check("a tag fits 64 bits", thrown(() => moving.setTag(coin, -1)) instanceof RangeError);
moving.pushTo(coin, { x: 3000, y: -4000 });
moving.twistTo(coin, 1000000);
moving.twist(coin, 1n << 40n);
const its = moving.motion(coin);
check("a velocity and a spin", its.velocity.x === 3000n && its.velocity.y === -4000n && its.spin > 1000000n && moving.motion(nobody) === null);
moving.setTarget(lift, at(6, 5), degrees(10), 8);
check("a target", moving.motion(lift).velocity.x === METRE / 8n && thrown(() => moving.setTarget(coin, at(0, 0))).status === 15);
check("movers alone", [() => moving.pushTo(lift, at(0, 0)), () => moving.twist(lift, 1), () => moving.twistTo(lift, 1)].every((call) => thrown(call).status === 6));
moving.clearEvents();
moving.step(8);
const met = moving.body(lift), aim = degrees(10), away = (one, other) => Math.abs(Number(one - other));
check("it is met", met.at.x === metres(6) && met.at.y === metres(5) && away(met.facing.c, aim.c) <= 10 && away(met.facing.s, aim.s) <= 10);
moving.pushTo(coin, at(0, 0)); // it falls straight down, and comes to rest
moving.twistTo(coin, 0);
while (moving.slept().length === 0 && moving.steps() < 2000n) moving.step(1);
const told = moving.events(), [begun] = told, slept = told.at(-1);
check("events of all steps", begun.kind === "begun" && begun.step < slept.step && slept.step === moving.steps() && slept.kind === "slept" && slept.body === coin);
check("an event's bodies", begun.first === ground && begun.second === coin && begun.firstTag === 0n && begun.secondTag === ALL && slept.tag === ALL);
check("an event's contact", begun.contact.points.length === 1 && begun.contact.points[0].normalImpulse > 0n && begun.contact.normal.y === 1n << 30n);
const { a, b } = begun.contact, asleep = moving.colourOf(a, b);
moving.wake(coin);
check("a contact's colour", asleep === null && moving.colourOf(a, b) < 24 && moving.colourOf(b, a) === null && moving.colourOf([9, 0], [9, 1]) === null);
moving.clearEvents(false);
moving.step(1);
check("no events are kept", moving.events().length === 0);
moving.close();
world.close();
world.close();
const closed = thrown(() => world.step());
check("a closed world refuses", closed instanceof Refused && closed.status === 32 && thrown(() => world.poses()).status === 32);
check("a module that can't be had", (await Library.load({ ok: false, status: 404, url: "none" }).catch((error) => error.message)).includes("404"));
if (Symbol.dispose) {
  const other = library.open();
  other[Symbol.dispose]();
  check("dispose", thrown(() => other.steps()).status === 32);
}
console.log(`${passed} passed, ${failed} failed`);
process.exit(failed || !passed ? 1 : 0);
