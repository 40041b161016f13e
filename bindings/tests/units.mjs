// The lines of units.c, by the owner for JavaScript; and a test that numbers don't wrap.
import {
  KILOGRAM, METRE, NOBODY, RATE, Refused, at, capsule, capsuleMass, circle, circleMass, degrees, generationOf, gravity, handleOf, kilograms, kinematicBody, metres, pushOf,
  share, slotOf, speed, spin, ticks, velocity,
} from "../web/dillmonth.js";

const print = (...numbers) => console.log(numbers.map(String).join(" "));

function printUnits(value) {
  const place = at(value, -value), facing = degrees(value * 9.25), down = gravity(value / 7, -value), push = pushOf(201n, value, value / 3, 120);
  print(place.x, place.y, facing.c, facing.s, down.x, down.y, push.x, push.y, speed(value), speed(value, 60), spin(value, 256), kilograms(value), share(value), ticks(value, RATE));
}

function massOrNone(call) {
  try {
    return call();
  } catch (error) {
    if (!(error instanceof Refused) || error.status !== 5) throw error;
    return { mass: 0n, inertia: 0n };
  }
}

function printMasses(half, radius, density) {
  const disc = massOrNone(() => circleMass(radius, density)), bar = massOrNone(() => capsuleMass(half, radius, density));
  print(disc.mass, disc.inertia, bar.mass, bar.inertia);
}

function throws(kind, call) {
  try {
    call();
    return false;
  } catch (error) {
    return error instanceof kind;
  }
}

if (!throws(RangeError, () => metres(1e300)) || !throws(RangeError, () => circleMass(0.5)) || circle(METRE).friction !== undefined || KILOGRAM !== 256n) process.exit(1);
for (let i = -200; i <= 200; i++) printUnits(i * 0.37);
let seed = 1n;
for (let i = 0; i < 300; i++) {
  const sizes = [0, 1, 2].map(() => {
    seed = (seed * 48271n) % 2147483647n;
    return seed >> ((seed % 3n) * 3n + 7n);
  });
  printMasses(sizes[0], sizes[1], sizes[2] >> 6n);
}
printMasses(METRE / 2n, METRE / 8n, 256);
printMasses(METRE / 2n, METRE / 2n, 256);
printMasses((1 << 24) + 1, METRE, 256);
printMasses(METRE, -1, 256);
const shape = capsule(at(-1, 0), at(1, 0), metres(0.25)), body = kinematicBody(at(2, 3), velocity(1, 0));
print(shape.form, shape.group ?? 0, shape.second.x, shape.radius, 1, 2n ** 64n - 1n);
print(body.kind, 1n << 30n, 0, body.velocity.x);
const id = handleOf(7, 9);
print(id, Number(slotOf(id) === 7 && generationOf(id) === 9 && id !== NOBODY));
