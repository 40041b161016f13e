// Tests of the page in a browser, for bindings/web/run: `?test&scene=NAME&steps=N&theme=dark&told=SLOT&peers`. What they find is posted to `report`, and
// then the page shows the scene after that step, for a picture.

import { Player, difference, requestOf } from "./script.js";
import { Batch, DYNAMIC, KINEMATIC, METRE, Refused, circle, handleOf } from "./dillmonth.js";

const at = (id) => document.getElementById(id);
const found = [];

function check(name, holds, more = "") {
  found.push(`${holds ? "ok" : "FAILED"} ${name}${more && `: ${more}`}`);
}

/** Each scene from its beginning to its end: the digest of each step is the native program's. */
async function scenes(page) {
  for (const { name } of page.scenes) {
    await page.choose(name);
    check(`${name} fits its window`, isInSight(page), `${page.picture.bodies.size} bodies`);
    const steps = page.requests.filter((line) => line.do === "step").length, began = performance.now();
    for (let step = 0; step < steps; step++) page.advance();
    const { run } = page, took = ((performance.now() - began) / steps).toFixed(2);
    const isSame = run.now.same === steps && page.native.length === steps && run.now.firstDifference === 0;
    check(`digests of ${name}`, isSame, `${run.now.same} of ${steps} steps have the native digest, ${took} ms a step`);
    page.refresh();
    check(`verdict on ${name}`, at("verdict").textContent === `${steps} of ${steps} equal`, at("verdict").textContent);
  }
}

/** Each stored script by the library alone: the answers are those that are stored with it. */
async function stored({ library }) {
  const scripts = await (await fetch("cases.json")).json(), began = performance.now();
  const differing = scripts.flatMap(({ path, lines, answers }) => {
    const player = new Player(library), differs = difference(player.askEach(lines.map(requestOf)), answers);
    player.close();
    return differs ? [`${path}: ${differs}`] : [];
  });
  const seconds = ((performance.now() - began) / 1000).toFixed(1);
  check("stored scripts", scripts.length > 0 && differing.length === 0, `${scripts.length - differing.length} of ${scripts.length} in ${seconds} s ${differing.slice(0, 3)}`);
}

/** Whether all that moves is in sight, above the bar, and in the game of pinball also what stands. */
function isInSight({ camera, picture, name }) {
  const low = at("world").getBoundingClientRect().bottom - document.querySelector(".bar").getBoundingClientRect().top;
  const bodies = [...picture.bodies.values()].filter((body) => body.kind !== "static" || name === "pinball");
  const places = bodies.flatMap((body) => body.shapes.flatMap((shape) => shape.ends.map((end) => camera.toScreen(body.inWorld(end)))));
  return places.every(({ x, y }) => x > 0 && x < camera.width && y > 0 && y < camera.height - low);
}

function pointer(type, place, { time, ...more } = {}) {
  const canvas = at("world"), box = canvas.getBoundingClientRect();
  const how = { clientX: box.left + place.x, clientY: box.top + place.y, pointerId: 1, bubbles: true, ...more };
  const event = type === "dblclick" ? new MouseEvent(type, how) : new PointerEvent(type, how);
  if (time !== undefined) Object.defineProperty(event, "timeStamp", { value: time });
  canvas.dispatchEvent(event);
}

const digestOf = (page) => page.run.world.digest();

/** A hand pulls a ball upward: it comes up, and the comparison ends. */
async function hands(page) {
  at("world").setPointerCapture = () => {}; // there is no such pointer
  await page.choose("bouncing_balls");
  for (let step = 0; step < 40; step++) page.advance();
  page.refresh();
  const ball = page.picture.bodies.get(3), before = { ...ball.at };
  const place = page.camera.toScreen(before), above = page.camera.toScreen({ x: before.x + 0.5, y: before.y + 2 });
  pointer("pointerdown", place);
  pointer("pointermove", above);
  for (let step = 0; step < 120; step++) { page.advance(); page.refresh(); }
  check("the hint is gone once a body was dragged", at("hint").hidden);
  pointer("pointerup", above);
  const isNear = Math.hypot(before.x + 0.5 - ball.at.x, before.y + 2 - ball.at.y) < 0.7;
  check("a hand pulls a ball up", isNear, `from ${before.y.toFixed(2)} m to ${ball.at.y.toFixed(2)} m`);
  const { now } = page.run;
  check("from there on nothing is compared", now.touched === 40 && now.same === 40 && now.firstDifference === 0, at("digest-note").textContent);
  const count = page.picture.bodies.size;
  pointer("dblclick", page.camera.toScreen({ x: -5.5, y: 3 }));
  check("a ball is dropped", page.picture.bodies.size === count + 1);
  page.tell(page.sides[0], 3);
  press("Delete");
  check("a body is taken away", page.picture.bodies.size === count);
}

/** Two fingers zoom and move what is seen, and let go of what one of them held. */
function fingers(page) {
  const { camera } = page, finger = (pointerId) => ({ pointerId, pointerType: "touch" }), scale = camera.scale;
  const ball = page.camera.toScreen(page.picture.bodies.get(1).at), far = { x: ball.x + 80, y: ball.y };
  pointer("pointerdown", ball, finger(1));
  const isHeld = page.hands.held !== null;
  pointer("pointerdown", far, finger(2));
  check("a second finger lets go of the body", isHeld && page.hands.held === null);
  const between = camera.toWorld({ x: ball.x + 40, y: ball.y });
  pointer("pointermove", { x: ball.x - 40, y: ball.y }, finger(1));
  pointer("pointermove", { x: far.x + 40, y: far.y }, finger(2));
  const moved = camera.toWorld({ x: ball.x + 40, y: ball.y });
  check("two fingers zoom about their middle", Math.abs(camera.scale / scale - 2) < 0.01 && Math.hypot(moved.x - between.x, moved.y - between.y) < 0.01);
  pointer("pointerup", far, finger(2));
  const before = camera.x;
  pointer("pointermove", { x: ball.x - 90, y: ball.y }, finger(1));
  check("the finger that stays moves what is seen", camera.x > before);
  pointer("pointerup", ball, finger(1));
  const ground = camera.toScreen({ x: -5, y: 3.5 }), count = page.picture.bodies.size;
  for (const time of [1000, 1200]) for (const type of ["pointerdown", "pointerup"]) pointer(type, ground, { ...finger(1), time });
  check("two taps drop a ball", page.picture.bodies.size === count + 1);
  page.fit();
}

function press(key, more = {}) {
  document.activeElement.dispatchEvent(new KeyboardEvent("keydown", { key, bubbles: true, cancelable: true, ...more }));
}

/** Keys work after a click on a control, and a control that was reached by keys keeps its own. */
async function keys(page) {
  await page.choose("bouncing_balls");
  for (const id of ["step", "fit", "restart"]) {
    at(id).focus();
    at(id).dispatchEvent(new MouseEvent("click", { bubbles: true, detail: 1 }));
    const steps = page.run.steps;
    press("s");
    check(`keys work after a click on ${id}`, document.activeElement === at("world") && page.run.steps === steps + 1);
  }
  press(" ");
  const isRunning = page.isRunning;
  press(" ");
  check("the space bar runs and pauses", isRunning && !page.isRunning && at("run").getAttribute("aria-label") === "run");
  at("ticks").focus();
  const steps = page.run.steps;
  press("s");
  check("letters work where a slider has the focus", page.run.steps === steps + 1);
  press(",");
  check("a comma goes back a step", page.run.steps === steps);
  at("world").focus();
  press("]");
  press("]");
  const slot = page.told?.slot;
  const { y } = page.toldBody().at;
  press("ArrowUp", { shiftKey: true });
  for (let step = 0; step < 10; step++) page.once();
  check("keys choose a body and push it", slot === 1 && page.toldBody().at.y > y, at("told-name").textContent);
  press("Escape");
  check("and let it be", page.told === null && at("inspector").hidden);
}

/** What is told of a body. */
async function inspector(page) {
  await page.choose("sleeping_piles");
  for (let step = 0; step < 200; step++) page.advance();
  page.refresh();
  page.tell(page.sides[0], 1);
  const texts = [...at("told").querySelectorAll("dd")].map((each) => each.textContent);
  const isTold = at("told-name").textContent === "dynamic body 1.1" && /^(?:awake|asleep), island \d+$/.test(texts[0]) && texts[3] === "1.00 kg" && texts[8].startsWith("capsule, 0.80 m long");
  check("a body is told of", isTold && /0\.1: 2 points, [\d.]+ N s/.test(texts[9]), texts.join("; ").replaceAll("\n", ", "));
  page.tell(page.sides[0], 0);
  check("a static one too", at("told-name").textContent === "static body 0.1" && at("told-3").textContent === "none");
  page.tell(null, null);
}

/** Back in time and ahead again: each world has the digest that it had, and what was played after is forgotten once somebody takes part. */
async function past(page) {
  await page.choose("capsule_wall");
  for (let step = 0; step < 150; step++) page.advance();
  page.interfere({ do: "gravity", by: [0n, 80n] });
  for (let step = 0; step < 50; step++) page.advance();
  const { run } = page, digests = run.pairs.map(([digest]) => digest);
  const isSame = [150, 3, 77, 199, 120, 151, 200].every((step) => {
    page.goTo(step);
    return run.steps === step && digestOf(page) === digests[step - 1] && run.relived === 0;
  });
  check("back in time each world is the same", isSame, `${run.kept.length} worlds are kept`);
  page.goTo(100);
  check("the slider is where the world is", Number(at("past").value) === 100 && Number(at("past").max) === 200 && at("past-shown").textContent.startsWith("−"), at("past-shown").textContent);
  for (let step = 0; step < 100; step++) page.advance();
  check("and it goes on as it went on, with what hands did", digestOf(page) === digests.at(-1) && run.now.touched === 150);
  page.goTo(100);
  page.interfere({ do: "gravity", by: [0n, -300n] });
  page.advance();
  page.refresh();
  check("who takes part in the past has another future", run.head === 101 && run.now.touched === 100 && digestOf(page) !== digests[100] && at("past-shown").textContent === "now");
  const script = run.script(), wanted = digestOf(page);
  page.open(script);
  while (!page.run.isOver) page.advance();
  check("and its script gives the same world", digestOf(page) === wanted);
  for (let step = 0; step < 3000; step++) page.run.advance();
  check("ten seconds are kept, and no more", page.run.kept.length <= 42 && page.run.now.time - page.run.kept[0].now.time <= 2560 + 128, `${page.run.kept.length} worlds`);
}

/** Two peers play the same, with the hands of both; a lie is found after one step, and mended. */
async function peers(page) {
  await page.choose("capsule_wall");
  at("peers").click();
  for (let step = 0; step < 40; step++) page.advance();
  page.interfere({ do: "gravity", by: [0n, -80n] });
  for (let step = 0; step < 10; step++) page.advance();
  page.refresh();
  const [ours, theirs] = page.sides.map(({ run }) => run);
  check("two peers play the same", page.peers.parted === 0 && ours.world.digest() === theirs.world.digest() && ours.now.touched === 44 && theirs.now.touched === 44, at("verdict").textContent);
  at("lie").click();
  page.advance();
  page.refresh();
  check("a lie of one unit is found after one step", page.peers.parted === 51 && at("verdict").textContent === "differs at step 51", at("live").textContent);
  page.goTo(30);
  check("both go back, to before the lie", page.peers.parted === 0 && ours.steps === 30 && theirs.steps === 30);
  page.goTo(51);
  check("and ahead again, to the lie", page.peers.parted === 51);
  at("mend").click();
  for (let step = 0; step < 20; step++) page.advance();
  page.refresh();
  check("a peer that is sent the world plays on", page.peers.parted === 0 && ours.steps === 71 && ours.world.digest() === theirs.world.digest(), at("verdict").textContent);
  at("peers").click();
  check("and one world is left", page.sides.length === 1 && page.other.run === null && at("peer-b").hidden);
}

/** Gravity and ticks by their sliders. */
async function sliders(page) {
  await page.choose("bouncing_balls");
  at("gravity").value = 0;
  at("gravity").dispatchEvent(new Event("input"));
  at("ticks").value = 7;
  at("ticks").dispatchEvent(new Event("input"));
  page.once();
  const { run } = page, last = run.journal.at(-1).line;
  check("gravity and ticks by sliders", run.world.gravity().y === 0n && last.ticks === 7n && run.now.time === 7 && run.now.touched === 0, `${at("gravity-shown").textContent}, ${at("ticks-shown").textContent}`);
}

/** How light a colour is, 0 to 1, as the guidelines for contrast have it. */
function lightness(colour) {
  const pen = new OffscreenCanvas(1, 1).getContext("2d");
  pen.fillStyle = colour;
  pen.fillRect(0, 0, 1, 1);
  const [r, g, b] = [...pen.getImageData(0, 0, 1, 1).data].map((value) => value / 255).map((value) => (value <= 0.04045 ? value / 12.92 : ((value + 0.055) / 1.055) ** 2.4));
  return 0.2126 * r + 0.7152 * g + 0.0722 * b;
}

function contrast(one, other) {
  const [dark, light] = [lightness(one), lightness(other)].sort((a, b) => a - b);
  return (light + 0.05) / (dark + 0.05);
}

const TEXTS = [
  ["ink", "card"], ["ink", "ground"], ["ink", "idle-soft"], ["ink", "paper"], ["soft", "card"], ["soft", "ground"], ["soft", "idle-soft"], ["on-accent", "accent"],
  ["good", "good-soft"], ["bad", "bad-soft"], ["bad", "card"],
];
const MARKS = ["static-edge", "joint", "contact", "kinematic", "accent", "faint"];

/** Texts have a contrast of 4.5 at least, and what is drawn has 3, in light and in dark. */
function contrasts(page) {
  const root = document.documentElement, before = root.dataset.theme;
  for (const theme of ["light", "dark"]) {
    root.dataset.theme = theme;
    const style = getComputedStyle(root), colour = (name) => style.getPropertyValue(`--${name}`);
    const poor = TEXTS.filter(([text, ground]) => contrast(colour(text), colour(ground)) < 4.5).map(([text, ground]) => `${text} on ${ground}`);
    poor.push(...MARKS.filter((mark) => contrast(colour(mark), colour("ground")) < 3));
    page.paint();
    const { painter } = page.sides[0], body = (island, isAsleep) => ({ kind: "dynamic", isEnabled: true, isAsleep, island });
    for (let island = 0; island < 60; island++) {
      for (const isAsleep of [false, true]) if (contrast(painter.look(body(island, isAsleep), { islands: true }).edge, colour("ground")) < 3) poor.push(`the edge of island ${island}`);
    }
    for (let number = 0; number <= 24; number++) if (contrast(painter.ofColour(number), colour("ground")) < 3) poor.push(`the solver's colour ${number}`);
    check(`contrasts, ${theme}`, poor.length === 0, poor.join(", "));
  }
  before ? (root.dataset.theme = before) : delete root.dataset.theme;
}

/** Each control has a name, and what changes is told to those who can't see it. */
function names() {
  const controls = [...document.querySelectorAll("button, input, select, textarea, canvas")];
  const nameless = controls.filter((each) => !each.getAttribute("aria-label") && !each.textContent.trim() && !each.closest("label")?.textContent.trim() && !each.value?.trim());
  check("each control has a name", nameless.length === 0, nameless.map(({ id }) => id).join());
  check("notes and errors are live regions", ["note", "bad", "live"].every((id) => /alert|status/.test(at(id).getAttribute("role"))));
}

/** Nothing moves as counters grow. */
function steady() {
  const places = () => [...document.querySelectorAll("aside > section, .bar > *")].map((each) => Math.round(each.getBoundingClientRect().top)).join();
  const before = places(), figures = [...at("figures").querySelectorAll("dd")], kept = figures.map((each) => each.textContent);
  for (const each of figures) each.textContent = "123456";
  at("past-shown").textContent = "−10.0 s";
  at("speed-shown").textContent = "16×";
  check("nothing jumps as counters grow", places() === before);
  figures.forEach((each, number) => { each.textContent = kept[number]; });
  at("speed").dispatchEvent(new Event("input"));
}

/** What was played, with the hand's requests, is a script that gives the same world; a saved world comes back and goes on the same. */
function files(page) {
  for (let step = 0; step < 20; step++) page.advance();
  const script = page.run.script(), wanted = digestOf(page), saved = page.run.world.save(), { ticks } = page.run.now;
  page.open(script);
  while (!page.run.isOver) page.advance();
  check("the saved script gives the same world", page.name === "own" && digestOf(page) === wanted, `${page.run.journal.length} requests`);
  page.advance();
  const next = digestOf(page);
  page.open(saved);
  check("a saved world comes back", digestOf(page) === wanted, `${saved.length} bytes`);
  page.run.now.ticks = ticks;
  page.advance();
  check("it goes on the same", digestOf(page) === next);
  page.open(saved.replace('"version":2', '"version":7'));
  check("a bad file is refused and changes nothing", at("note").textContent.includes("clause 1") && digestOf(page) === next, at("note").textContent);
  page.open('{"do":"push","by":[1,1]}');
  check("a bad script is refused and changes nothing", at("note").textContent === 'line 1: push: the key "body" is missing' && digestOf(page) === next, at("note").textContent);
  at("note").hidden = true;
}

/** A script of one's own, by the page's own editor. */
function editor(page) {
  at("edit").click();
  at("script").value = '{"do":"gravity","by":[0,-157]}\n{"do":"step","ticks":1.5}';
  at("play").click();
  check("a bad line is told", !at("bad").hidden && at("bad").textContent.startsWith("line 2"), at("bad").textContent);
  at("script").value = '{"do":"gravity","by":[0,-157]}\n\n{"do":"create","kind":"dynamic","mass":256,"inertia":0,"shapes":[]}';
  at("play").click();
  const marked = at("script").value.slice(at("script").selectionStart, at("script").selectionEnd);
  check("a missing key is named, with its line", at("bad").textContent.startsWith('line 3: create: the key "at"') && marked.startsWith('{"do":"create"'), at("bad").textContent);
  at("script").value = '{"do":"create","kind":"dynamic","mass":256,"inertia":0,"at":[0,0],"shapes":[{"circle":[0,0],"radius":65536}]}\n{"do":"step","ticks":4}';
  at("play").click();
  check("a script of one's own is played", !at("editor").open && page.picture.bodies.size === 1 && page.name === "own");
}

/** A hundred balls and a platform, commands of each kind, some of them refused, and a step. */
function commandsOfAllKinds() {
  const id = (slot) => handleOf(slot, 1), up = { x: 0n, y: 9000n }, right = { x: METRE / 8n, y: 0n }, shapes = [circle(METRE / 4n, { friction: 128n })];
  const place = (number) => ({ x: BigInt(number) * METRE, y: 0n }), joint = { a: id(0), b: id(1), from: right, to: right, length: METRE, collide: true };
  const balls = Array.from({ length: 100 }, (_, number) => ["createBody", { kind: DYNAMIC, at: place(number), mass: 256n, inertia: 1n << 46n }, shapes]);
  return [
    ...balls, ["createBody", { kind: KINEMATIC, at: place(200), velocity: right, spin: 5n }, shapes], ["setGravity", { x: 0n, y: -157n }],
    ["createJoint", joint], ["createJoint", { ...joint, b: id(0) }], ["createJoint", { ...joint, b: id(2) }], ["destroyJoint", id(1)],
    ["push", id(0), up], ["push", id(999), up], ["pushAt", id(3), up, right], ["setPose", id(4), place(300), { c: 0n, s: 1n << 30n }],
    ["setVelocity", id(100), up, 7n], ["setVelocity", id(5), up, 7n], ["disable", id(6)], ["push", id(6), up], ["disable", id(7)], ["enable", id(7)],
    ["sleep", id(8)], ["sleep", id(9)], ["wake", id(9)], ["destroyBody", id(10)], ["destroyBody", id(10)], ["step", 9n], ["step", 4n],
  ];
}

/** A batch does what its commands do one by one, and tells the same of them. */
function batches({ library }) {
  const single = library.open(), world = library.open(), batch = new Batch(), commands = commandsOfAllKinds();
  const said = commands.map(([name, ...values]) => {
    try {
      return [0, single[name](...values) ?? 0n];
    } catch (error) {
      if (!(error instanceof Refused)) throw error;
      return [error.status, 0n];
    }
  });
  for (const [name, ...values] of commands) batch[name](...values);
  const answers = world.applyAll(batch), isSame = ({ status, made, step }, number) => said[number][0] === status && said[number][1] === (made || step);
  check("a batch answers as its commands do", answers.length === said.length && answers.every(isSame), `statuses ${answers.slice(101).map(({ status }) => status)}`);
  check("a batch does what its commands do", world.digest() === single.digest(), `${batch.length} commands`);
  const before = batch.length;
  let thrown = null;
  try {
    batch.push(handleOf(0, 1));
  } catch (error) {
    thrown = error;
  }
  check("a command without a value isn't added", thrown instanceof TypeError && batch.length === before);
  batch.clear();
  check("an empty batch does nothing", world.applyAll(batch).length === 0 && world.digest() === single.digest());
  single.close();
  world.close();
}

/** The clock: the world goes on while it runs, and stands once it is paused. */
async function clock(page) {
  await page.choose("capsule_wall");
  at("run").click();
  await new Promise((done) => setTimeout(done, 700));
  at("run").click();
  const { steps } = page.run;
  await new Promise((done) => setTimeout(done, 200));
  check("it runs and pauses", steps > 0 && page.run.steps === steps, `${steps} steps in 0.7 s`);
  at("step").click();
  check("one step", page.run.steps === steps + 1);
  at("restart").click();
  check("from the beginning", page.run.steps === 0 && page.run.world.steps() === 0n);
}

export async function main(page, asked) {
  try {
    await scenes(page);
    if (asked.has("cases")) await stored(page);
    await hands(page);
    fingers(page);
    files(page);
    editor(page);
    batches(page);
    await keys(page);
    await inspector(page);
    await past(page);
    await peers(page);
    await sliders(page);
    contrasts(page);
    names();
    steady();
    await clock(page);
    const blocks = page.library.blocks();
    for (let round = 0; round < 3; round++) page.restart();
    check("worlds give their memory back", page.library.blocks() === blocks, `${blocks} blocks`);
  } catch (error) {
    check("the tests end", false, `${error.message} ${error.stack}`);
  }
  at("note").hidden = true;
  if (asked.has("colours")) at("show-colours").click();
  await page.choose(asked.get("scene") ?? page.scenes[0].name);
  if (asked.has("peers")) page.setPeers(true);
  if (asked.has("told")) page.tell(page.sides[0], Number(asked.get("told")));
  for (let count = Number(asked.get("steps") ?? 0); count > 0; count--) page.advance();
  page.refresh();
  page.fit();
  const passed = found.filter((line) => line.startsWith("ok")).length;
  found.push(`${passed} passed, ${found.length - passed} failed`);
  await new Promise((done) => requestAnimationFrame(done));
  await fetch("report", { method: "POST", body: `${navigator.userAgent.replace(/.*?(\w*(?:Chrome|Firefox)\/\S+).*/, "$1")}\n${found.join("\n")}\n` });
}
