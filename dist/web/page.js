// The page: scenes that are run, paused, stepped, pulled at, gone back in, saved and loaded, in one world or by two peers.

import { Library, Refused, circleMass, metres } from "./dillmonth.js";
import { Camera, OVERFLOW, Painter, Picture, legendOf, paintStrip } from "./draw.js";
import { Hands, listenToKeys } from "./hands.js";
import { LINES, toldOf } from "./inspect.js";
import { Peers } from "./peers.js";
import { Run, TICKS_A_SECOND } from "./play.js";
import { loadOf, requestsOf, textOf } from "./script.js";

const METRE = 1 << 20;
const METRES_A_TICK = TICKS_A_SECOND / 16; // gravity in u/tick² is so many 16ths of m/s²
const SLOW = 150;   // milliseconds between two readings of what is told in words
const PATIENCE = 30; // milliseconds that a hand at the slider waits
const at = (id) => document.getElementById(id);
const SHOWN = [
  ["islands", "islands by hue", true],
  ["contacts", "contacts", true],
  ["joints", "joints", true],
  ["colours", "solver's colours", false],
  ["numbers", "island numbers", matchMedia("(prefers-contrast: more)").matches],
];
const FIGURES = ["step", "ms a step", "bodies", "contacts", "awake", "asleep", "islands awake", "islands asleep", "joints", "refused"];

/** A world as it is seen: the run that it is of, its canvas and its picture. */
class Side {
  constructor(canvas, camera) {
    this.canvas = canvas;
    this.painter = new Painter(canvas, camera);
    this.run = this.picture = null;
  }

  begin(run) {
    this.run?.close();
    this.run = run;
    this.picture = null;
    run?.begin();
  }

  refresh(shown, isRunning) {
    if (!this.picture || this.drawnVersion !== this.run.now.version) {
      this.picture = new Picture(this.run.world);
      this.drawnVersion = this.run.now.version;
    }
    this.picture.follow(this.run.world, shown, isRunning);
  }
}

export class Page {
  constructor(library, scenes) {
    this.library = library;
    this.scenes = scenes;
    this.camera = new Camera();
    this.sides = [new Side(at("world"), this.camera)];
    this.other = new Side(at("world-b"), this.camera);
    this.hands = new Hands(this);
    this.shown = Object.fromEntries(SHOWN.map(([name, , isOn]) => [name, isOn]));
    this.isRunning = false;
    this.speed = 1;
    this.owed = 0;      // ticks that the clock is ahead of the world
    this.peers = null;
    this.told = null;   // the body that is told of, and whether it stays so
    this.own = "";      // a script of one's own
  }

  get run() { return this.sides[0].run; }
  get picture() { return this.sides[0].picture; }

  // ---- scenes ----

  async choose(name) {
    const scene = this.scenes.find((each) => each.name === name), wanted = (this.wanted = {});
    const [script, native] = scene ? await Promise.all([textAt(`scenes/${name}`), textAt(`scenes/${name}.digests`)]) : [this.own, ""];
    if (this.wanted !== wanted) return; // another one was chosen while this one was fetched
    if (!script) throw new Error(`the scene ${name} can't be had`);
    this.play(name, script, requestsOf(script), native.split("\n").filter((line) => /^[0-9a-f]{64}$/.test(line)));
  }

  play(name, text, requests, native) {
    const scene = this.scenes.find((each) => each.name === name);
    Object.assign(this, { name, text, requests, native, box: scene?.box });
    at("scene").value = name;
    at("about").textContent = scene?.about ?? "A script of your own.";
    this.hide(scene?.hides ?? null);
    this.restart();
  }

  /** A scene may hide something, which is shown again in the next one. */
  hide(name) {
    if (this.hidden) this.shown[this.hidden] = at(`show-${this.hidden}`).checked = true;
    this.hidden = name && this.shown[name] ? name : null;
    if (this.hidden) this.shown[name] = at(`show-${name}`).checked = false;
  }

  restart() {
    const { peers } = this;
    for (const side of this.sides) side.begin(new Run(this.library, this.requests, this.native));
    if (peers) this.peers = new Peers(this.sides.map(({ run }) => run), peers.delay);
    this.told = null;
    this.owed = 0;
    this.hands.letGo();
    this.refresh();
    this.fit();
  }

  playOwn(text) {
    const requests = requestsOf(text), trial = new Run(this.library, requests, []);
    try {
      trial.begin(); // throws where a line is bad
    } finally {
      trial.close();
    }
    this.own = text;
    this.play("own", text, requests, []);
  }

  /** Loads a saved world in place of the one that is there. What is refused doesn't come into the script. */
  openWorld(text) {
    const line = loadOf(text), trial = this.library.open();
    try {
      trial.load(line.world.text);
    } finally {
      trial.close();
    }
    if (this.peers) this.setPeers(false);
    const answer = this.run.interfere(line);
    if (answer.refused) throw new Refused(answer.refused, answer.clause);
    this.box = null;
    this.refresh();
    this.fit();
  }

  /** A file is a saved world, or else a script. */
  open(text) {
    try {
      const isWorld = /^\s*\{\s*"(?:world|version|gravity|call|step|bodies|joints|contacts|ledger)"/.test(text);
      isWorld ? this.openWorld(text) : this.playOwn(text);
    } catch (error) {
      say(error.message);
    }
  }

  // ---- two peers ----

  setPeers(isOn) {
    const { other } = this;
    this.stop();
    at("peer-b").hidden = !isOn;
    at("worlds").classList.toggle("two", isOn);
    at("peers").setAttribute("aria-pressed", isOn);
    this.sides = isOn ? [this.sides[0], other] : [this.sides[0]];
    if (!isOn) other.begin(null);
    this.peers = isOn ? new Peers([], Number(at("delay").value)) : null;
    for (const side of this.sides) side.painter.resized();
    this.restart();
  }

  /** The second peer's world isn't the same any more, by the least that there is. */
  lie() {
    const side = this.sides[1], bodies = [...side.picture.bodies.values()].filter((body) => body.isMover());
    const told = this.told && side.picture.bodies.get(this.told.slot);
    const body = told?.isMover() ? told : bodies.find((each) => !each.isAsleep) ?? bodies[0];
    if (!body) return say("there is no body that moves");
    this.peers.lie(body.handle);
    this.speak(`Peer B gave body ${textOf(body.handle)} one unit of momentum more, and told nobody.`);
    this.refresh();
  }

  mend() {
    this.peers.mend();
    this.sides[1].picture = null;
    this.speak("Peer A has sent its world, and peer B goes on with that.");
    this.refresh();
  }

  // ---- time ----

  advance() {
    const { peers } = this, parted = peers?.parted;
    this.hands.pull();
    try {
      (peers ?? this.run).advance();
    } catch (error) {
      this.stop();
      say(`the world stopped: ${error.message}`);
    }
    if (!peers?.parted || parted) return;
    this.stop();
    this.speak(`Found: after step ${peers.parted} peer B has another world than peer A.`);
  }

  /** A request of a hand: at once, or some steps later where there are two peers. */
  interfere(line) { return this.peers ? this.peers.send(line) : this.run.interfere(line); }

  toggle() { this.isRunning ? this.stop() : this.start(); }

  once() {
    this.stop();
    this.advance();
    this.refresh();
  }

  back() { this.goTo(this.run.steps - 1); }

  /** Goes to the world after a step of the last ten seconds. */
  goTo(step, milliseconds) {
    if (this.isRunning) this.stop();
    try {
      (this.peers ?? this.run).goTo(Math.max(step, this.oldest), milliseconds);
    } catch (error) {
      say(error.message);
    }
    this.refresh();
  }

  get oldest() { return Math.max(...this.sides.map(({ run }) => run.oldest)); }

  start() {
    this.isRunning = true;
    this.before = performance.now();
    this.showRunning();
    requestAnimationFrame(() => this.frame());
  }

  stop() {
    this.isRunning = false;
    this.showRunning();
    if (this.picture) this.refresh();
  }

  showRunning() {
    const { isRunning } = this;
    at("run").innerHTML = `<svg viewBox="0 0 16 16"><path d="${isRunning ? "M4 2.5h2.6v11H4zM9.4 2.5H12v11H9.4z" : "M4 2.5v11l9.5-5.5z"}"/></svg>`;
    at("run").setAttribute("aria-label", isRunning ? "pause" : "run");
  }

  /** Lets as many steps pass as the clock has gone on, but draws once. */
  frame() {
    if (!this.isRunning) return;
    const now = performance.now();
    this.owed = Math.min(this.owed + ((now - this.before) / 1000) * TICKS_A_SECOND * this.speed, 256);
    this.before = now;
    while (this.isRunning && this.owed >= Number(this.run.now.ticks) && performance.now() - now < 24) {
      this.advance();
      this.owed -= Number(this.run.now.ticks);
    }
    if (!this.isRunning) return;
    this.refresh();
    requestAnimationFrame(() => this.frame());
  }

  // ---- what is seen ----

  /** Asks the worlds what is to be drawn, draws it, and writes the figures. */
  refresh() {
    for (const side of this.sides) side.refresh(this.shown, this.isRunning || this.isScrubbing);
    this.paint();
    this.tellNow();
    this.figures();
    this.digests();
    this.showTime();
  }

  paint() {
    const { held } = this.hands;
    for (const side of this.sides) {
      const body = held?.side === side && side.picture.bodies.get(held.slot);
      const hand = body && { from: body.inWorld(held.hold), to: held.target };
      side.painter.paint(side.picture, this.shown, { hand, told: this.told?.isPinned && side.picture.bodies.get(this.told.slot) });
    }
  }

  fit() {
    const [left, bottom, right, top] = this.box ?? [];
    this.camera.fit(this.box ? { left, bottom, right, top } : this.picture.bounds());
    this.paint();
  }

  pan(dx, dy) {
    this.camera.pan(dx, dy);
    this.paint();
  }

  zoom(by) {
    const { camera } = this;
    camera.zoom(by, { x: camera.width / 2, y: camera.height / 2 });
    this.paint();
  }

  figures() {
    const { run, picture } = this, bodies = [...picture.bodies.values()], movers = bodies.filter((body) => body.isMover());
    const islands = (list) => new Set(list.map((body) => body.island)).size;
    const asleep = movers.filter((body) => body.isAsleep), awake = movers.filter((body) => !body.isAsleep);
    const values = [
      run.world.steps(), run.cost.toFixed(2), bodies.length, this.shown.contacts ? picture.contacts.length : "–", awake.length, asleep.length, islands(awake),
      islands(asleep), picture.joints.length, run.now.refusals,
    ];
    values.forEach((value, number) => write(`figure-${number}`, value));
    if (!this.isRunning) this.describe(awake.length, asleep.length);
    const gravity = -run.world.gravity().y, { ticks } = run.now;
    write("gravity-shown", `${(Number(gravity) / METRES_A_TICK).toFixed(2)} m/s²`);
    write("ticks-shown", `${run.ownTicks ?? ticks} a step`);
    for (const [id, value] of [["gravity", gravity], ["ticks", run.ownTicks ?? ticks]]) if (at(id) !== document.activeElement) at(id).value = value;
    at("legend").hidden = !this.shown.colours;
    if (this.shown.colours) at("legend").innerHTML = [`<li>in all: ${picture.colours}</li>`, ...legendOf(picture).map(legendItem)].join("");
  }

  /** What the canvases are called, for whoever can't see them. */
  describe(awake, asleep) {
    const [scene] = at("scene").selectedOptions, where = `${scene?.text ?? ""}, step ${this.run.steps}: ${awake} bodies awake, ${asleep} asleep`;
    this.sides.forEach(({ canvas }, number) => canvas.setAttribute("aria-label", `${this.peers ? `peer ${"AB"[number]}, ` : ""}${where}`));
  }

  digests() {
    const { run, peers } = this, pairs = (peers ?? run).pairs, [ours, other] = pairs.at(-1) ?? this.sides.map((side) => side.run.world.digest());
    const difference = peers ? peers.parted : run.now.firstDifference, same = peers ? run.steps : run.now.same;
    write("ours-name", peers ? "peer A" : "this page");
    write("native-name", peers ? "peer B" : "native");
    write("ours", ours);
    write("native", (peers || pairs.length ? other : null) ?? "–");
    at("verdict").className = `verdict ${difference ? "parted" : same ? "same" : ""}`;
    write("verdict", difference ? `differs at step ${difference}` : same ? `${same} of ${same} equal` : "nothing to compare");
    write("digest-note", peers ? peersNote(peers) : this.digestNote());
    paintStrip(at("strip"), pairs);
    for (const id of ["lie", "mend"]) at(id).disabled = !peers;
  }

  digestNote() {
    const { native, name, run: { now, relived, isOver } } = this;
    if (relived) return `Step ${relived} was played once more, and gave another digest. That must not be: please tell.`;
    if (now.firstDifference) return `The native program had another digest after step ${now.firstDifference}. That must not be: please tell.`;
    if (now.touched !== null) return `You took part after step ${now.touched}. From there the world is your own.`;
    if (isOver && !now.isOurs && native.length) return "The script is over, and the world goes on by itself.";
    if (native.length) return "Each step's digest beside the one of the native program: the same bytes.";
    if (name === "own") return "Save the script, and ask the native program for its digests.";
    return "There are no native digests: bindings/web/build makes them where the program is built.";
  }

  showTime() {
    const { run, oldest } = this, past = at("past"), seconds = (run.headTime - run.now.time) / TICKS_A_SECOND;
    at("back").disabled = run.steps <= oldest;
    past.disabled = run.head <= oldest;
    past.min = oldest;
    past.max = run.head;
    if (!this.isScrubbing) past.value = run.steps;
    write("past-shown", seconds ? `−${seconds.toFixed(1)} s` : "now");
    past.setAttribute("aria-valuetext", seconds ? `${seconds.toFixed(1)} seconds back, step ${run.steps}` : `now, step ${run.steps}`);
  }

  /** Says something to whoever can't see it, and shows it. */
  speak(text) {
    at("live").textContent = text;
    say(text, true);
  }

  // ---- the body that is told of ----

  /** A pointer is over a body, or over none. */
  pointAt(side, slot) {
    const isMover = side.picture.bodies.get(slot)?.isMover() ?? false;
    side.canvas.classList.toggle("over", isMover);
    if (!this.told?.isPinned) this.told = slot === null ? null : { side, slot, isPinned: false };
    if (!this.isRunning) this.tellNow();
  }

  /** Tells of a body until another one is chosen; of none where there is no slot. */
  tell(side, slot) {
    this.told = slot === null ? null : { side, slot, isPinned: true };
    this.saidAt = 0;
    this.tellNow();
    this.paint();
  }

  /** Tells of the next body, by slots. */
  tellNext(way) {
    const side = this.told?.side ?? this.sides[0], slots = [...side.picture.bodies.keys()], place = slots.indexOf(this.told?.slot ?? -1);
    const next = place < 0 ? (way > 0 ? 0 : slots.length - 1) : (place + way + slots.length) % slots.length;
    if (slots.length === 0) return;
    this.tell(side, slots[next]);
    at("live").textContent = at("inspector").innerText.replaceAll("\n", " ");
  }

  /** Writes what is told of the body, seldom enough to be read while the world runs. */
  tellNow() {
    const now = performance.now(), { told } = this;
    if (this.isRunning && told && told.slot === this.saidOf && now - this.saidAt < SLOW) return;
    const side = told && this.sides.includes(told.side) ? told.side : null, { picture, run } = side ?? {};
    const found = side && toldOf(run.world, picture, told.slot, this.shown.contacts ? picture.contacts : run.world.contacts());
    if (found && told.slot !== this.saidOf) this.putAside(side, picture.bodies.get(told.slot));
    this.saidAt = now;
    this.saidOf = told?.slot;
    if (told && !found) this.told = null;
    at("inspector").hidden = !found;
    if (!found) return;
    at("inspector").classList.toggle("pinned", told.isPinned);
    write("told-name", found.name);
    found.texts.forEach((text, number) => write(`told-${number}`, text));
  }

  /** What is told of a body stands where the body isn't. */
  putAside({ canvas }, body) {
    const left = canvas.getBoundingClientRect().left - at("worlds").getBoundingClientRect().left + this.camera.toScreen(body.at).x;
    at("inspector").classList.toggle("right", left < 330 && at("worlds").clientWidth > 660);
  }

  toldBody() { return this.told && this.told.side.picture.bodies.get(this.told.slot); }

  destroyTold() {
    const body = this.toldBody();
    if (!body?.handle) return;
    this.interfere({ do: "destroy", body: textOf(body.handle) });
    this.told = null;
    this.refresh();
  }

  /** Pushes the body that is told of by 2 m/s. */
  pushTold([x, y]) {
    const body = this.toldBody(), by = BigInt((2 * METRE) / TICKS_A_SECOND) * BigInt(body?.mass ?? 0);
    if (!body?.isMover()) return;
    this.interfere({ do: "push", body: textOf(body.handle), by: [BigInt(x) * by, BigInt(y) * by] });
    this.refresh();
  }

  /** A body was dragged: who does it needn't be told that he may. */
  dragged() { at("hint").hidden = true; }

  /** Drops a ball of 0.3 m. */
  dropBall(side, point) {
    if (side.picture.slotAt(point, 0) !== null) return;
    const radius = metres(0.3), place = [metres(point.x), metres(point.y)];
    const shape = { circle: [0n, 0n], radius, friction: 128n, restitution: 64n };
    const answer = this.interfere({ do: "create", kind: "dynamic", ...circleMass(radius), at: place, shapes: [shape] });
    if (answer.refused) say(`refused ${answer.refused}`);
    this.refresh();
  }

  /** The same without a pointer: in the middle, high up, where there is room. */
  dropBallInSight() {
    const { camera, sides: [side] } = this, top = camera.toWorld({ x: camera.width / 2, y: camera.height * 0.2 });
    const free = [0, 1, -1, 2, -2, 3, -3].map((aside) => ({ x: top.x + 0.7 * aside, y: top.y })).find((point) => side.picture.slotAt(point, 0.3) === null);
    if (free) this.dropBall(side, free);
  }
}

function legendItem({ colour, tint, count }) {
  return `<li><i style="background:${tint}"></i>${colour >= OVERFLOW ? "overflow" : colour}: ${count}</li>`;
}

function peersNote({ parted, delay }) {
  if (parted) return `Peer B isn't playing the same world any more. Nothing may be seen of it yet: the digest has told. "Mend B" has A send its world.`;
  return `What a hand does at one peer, both do ${delay} steps later. "Let B lie" has B change one momentum by one unit, secretly.`;
}

async function textAt(address) {
  const response = await fetch(address);
  return response.ok ? response.text() : "";
}

function write(id, value) {
  const text = String(value);
  if (at(id).textContent !== text) at(id).textContent = text;
}

let noteTimer = 0;
function say(text, isGood = false) {
  at("note").textContent = text;
  at("note").classList.toggle("good", isGood);
  at("note").hidden = false;
  clearTimeout(noteTimer);
  noteTimer = setTimeout(() => { at("note").hidden = true; }, 8000);
}

function download(name, text) {
  const link = document.createElement("a");
  link.href = URL.createObjectURL(new Blob([text], { type: "application/json" }));
  link.download = name;
  link.click();
  setTimeout(() => URL.revokeObjectURL(link.href), 10000);
}

// ---- controls ----

function listenToTime(page) {
  const speeds = [1 / 8, 1 / 4, 1 / 2, 1, 2, 4, 16], names = ["⅛×", "¼×", "½×", "1×", "2×", "4×", "16×"], past = at("past");
  at("run").onclick = () => page.toggle();
  at("step").onclick = () => page.once();
  at("back").onclick = () => page.back();
  at("restart").onclick = () => page.restart();
  at("fit").onclick = () => page.fit();
  at("ball").onclick = () => page.dropBallInSight();
  at("speed").oninput = () => {
    const number = Number(at("speed").value) + 3;
    page.speed = speeds[number];
    write("speed-shown", names[number]);
    at("speed").setAttribute("aria-valuetext", names[number]);
  };
  past.oninput = () => {
    page.isScrubbing = true;
    page.goTo(Number(past.value), PATIENCE);
  };
  const settle = () => {
    if (!page.isScrubbing) return;
    page.isScrubbing = false;
    page.goTo(Number(past.value));
  };
  for (const type of ["change", "pointerup", "pointercancel", "blur"]) past.addEventListener(type, settle);
}

function listenToWorld(page) {
  at("peers").onclick = () => page.setPeers(!page.peers);
  at("lie").onclick = () => page.lie();
  at("mend").onclick = () => page.mend();
  at("delay").oninput = () => {
    write("delay-shown", `${at("delay").value} steps`);
    if (page.peers) page.peers.delay = Number(at("delay").value);
    if (page.picture) page.refresh();
  };
  at("gravity").oninput = () => {
    page.interfere({ do: "gravity", by: [page.run.world.gravity().x, -BigInt(at("gravity").value)] });
    page.refresh();
  };
  at("ticks").oninput = () => {
    for (const { run } of page.sides) run.ownTicks = BigInt(at("ticks").value);
    page.refresh();
  };
  at("untell").onclick = () => page.tell(null, null);
  at("destroy").onclick = () => page.destroyTold();
  for (const [name] of SHOWN) at(`show-${name}`).onchange = (event) => { page.shown[name] = event.target.checked; page.refresh(); };
}

function listenToFiles(page) {
  at("scene").onchange = () => { at("scene").value === "own" ? edit(page) : page.choose(at("scene").value).catch((error) => say(error.message)); };
  at("edit").onclick = () => edit(page);
  at("save").onclick = () => download(`${page.name}_${page.run.world.steps()}.json`, page.run.world.save());
  at("journal").onclick = () => download(`${page.name}_${page.run.world.steps()}`, page.run.script());
  at("open").onclick = () => at("file").click();
  at("file").onchange = async () => { page.open(await at("file").files[0].text()); at("file").value = ""; };
  document.body.ondragover = (event) => event.preventDefault();
  document.body.ondrop = async (event) => {
    event.preventDefault();
    const [file] = event.dataTransfer.files;
    if (file) page.open(await file.text());
  };
}

function listen(page) {
  listenToTime(page);
  listenToWorld(page);
  listenToFiles(page);
  listenToKeys(page);
  for (const side of [...page.sides, page.other]) page.hands.listen(side);
  at("theme").onclick = () => {
    const isDark = getComputedStyle(document.documentElement).colorScheme === "dark";
    localStorage.setItem("theme", (document.documentElement.dataset.theme = isDark ? "light" : "dark"));
    page.refresh();
  };
  new ResizeObserver(() => {
    for (const side of page.sides) side.painter.resized();
    page.camera.isFitted ? page.fit() : page.paint();
  }).observe(at("worlds"));
  matchMedia("(prefers-color-scheme: dark)").addEventListener("change", () => page.refresh());
}

function edit(page) {
  page.stop();
  at("script").value = page.own || page.text;
  at("bad").hidden = true;
  at("editor").onclose = () => { at("scene").value = page.name; };
  at("editor").showModal();
  at("script").setSelectionRange(0, 0);
  at("script").scrollTop = 0;
  at("play").onclick = (event) => {
    try {
      page.playOwn(at("script").value);
    } catch (error) {
      event.preventDefault();
      at("bad").textContent = error.message;
      at("bad").hidden = false;
      mark(at("script"), Number(/^line (\d+)/.exec(error.message)?.[1] ?? 0));
    }
  };
}

/** Goes to a line of a text and marks it. */
function mark(area, line) {
  if (line === 0) return;
  const lines = area.value.split("\n"), from = lines.slice(0, line - 1).join("\n").length + (line > 1 ? 1 : 0);
  area.focus();
  area.setSelectionRange(from, from + lines[line - 1].length);
  area.scrollTop = (line - 4) * (area.scrollHeight / lines.length);
}

function build(scenes) {
  at("scene").append(...scenes.map((scene) => new Option(scene.title, scene.name)), new Option("your own script…", "own"));
  at("checks").innerHTML = SHOWN.map(([name, title, isOn]) => `<label><input type="checkbox" id="show-${name}" ${isOn ? "checked" : ""}>${title}</label>`).join("");
  at("figures").innerHTML = FIGURES.map((name, number) => `<dt>${name}</dt><dd id="figure-${number}"></dd>`).join("");
  at("told").innerHTML = LINES.map((name, number) => `<dt>${name}</dt><dd id="told-${number}"></dd>`).join("");
}

async function main() {
  const asked = new URLSearchParams(location.search);
  if (asked.has("test")) document.body.append(Object.assign(new Image(), { src: "reported", hidden: true })); // holds a picture back
  const scenes = await (await fetch("scenes/scenes.json")).json();
  build(scenes);
  const page = new Page(await Library.load(fetch("dillmonth.wasm")), scenes);
  await page.choose(scenes.some((scene) => scene.name === asked.get("scene")) ? asked.get("scene") : scenes[0].name);
  listen(page);
  if (asked.has("peers") && !asked.has("test")) page.setPeers(true);
  for (let count = Number(asked.get("steps") ?? 0); count > 0; count--) page.advance();
  page.refresh();
  if (asked.has("test")) return (await import("./tests.js")).main(page, asked);
  if (asked.has("steps")) return;
  if (matchMedia("(prefers-reduced-motion: reduce)").matches) at("live").textContent = "The world stands. Space runs it.";
  else page.start();
}

main().catch((error) => say(`the page can't go on: ${error.message}`));
