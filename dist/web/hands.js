// What hands do with the worlds on the page: pointers and keys.

import { pull } from "./play.js";
import { textOf } from "./script.js";

const TAP = { time: 350, way: 10 }, TWICE = { time: 400, way: 36 }; // in milliseconds and pixels
const SLACK = { mouse: 4, touch: 14 };                              // pixels round a body that are still on it
const PAN = 60;                                                     // pixels of a key

const distance = (a, b) => Math.hypot(a.x - b.x, a.y - b.y);
const middle = (a, b) => ({ x: (a.x + b.x) / 2, y: (a.y + b.y) / 2 });

/** Pointers: one of them pulls a body or moves what is seen, and two zoom. */
export class Hands {
  constructor(page) {
    this.page = page;
    this.pointers = new Map(); // by their ids: whose canvas, where they are, and where and when they came down
    this.held = null;          // a body, where in it it is held, and where it is pulled to
    this.tapped = null;        // where and when somebody last tapped
  }

  listen(side) {
    const { canvas } = side;
    canvas.onpointerdown = (event) => this.down(side, event);
    canvas.onpointermove = (event) => this.move(side, event);
    canvas.onpointerup = (event) => this.up(side, event);
    canvas.onpointercancel = (event) => this.cancel(event.pointerId);
    canvas.onpointerleave = () => { if (this.pointers.size === 0) this.page.pointAt(side, null); };
    canvas.ondblclick = (event) => { if (this.kind !== "touch") this.page.dropBall(side, this.page.camera.toWorld(placeOf(event))); };
    canvas.addEventListener("wheel", (event) => {
      event.preventDefault();
      this.page.camera.zoom(Math.exp(-event.deltaY / (event.ctrlKey ? 120 : 500)), placeOf(event));
      this.page.paint();
    }, { passive: false });
  }

  down(side, event) {
    if (event.button !== 0) return;
    const place = placeOf(event);
    this.kind = event.pointerType === "touch" ? "touch" : "mouse";
    side.canvas.setPointerCapture(event.pointerId);
    this.pointers.set(event.pointerId, { side, place, began: place, time: event.timeStamp, isOne: this.pointers.size === 0 });
    if (this.pointers.size === 1) return this.take(side, event.pointerId, place);
    this.letGo();
    for (const pointer of this.pointers.values()) pointer.isOne = false;
  }

  take(side, pointer, place) {
    const point = this.page.camera.toWorld(place), slot = this.slotAt(side, place), body = side.picture.bodies.get(slot);
    side.canvas.classList.add("holds");
    if (body?.isMover()) this.held = { side, pointer, slot, hold: body.inBody(point), target: point };
  }

  slotAt({ picture }, place) {
    const { camera } = this.page;
    return picture.slotAt(camera.toWorld(place), SLACK[this.kind ?? "mouse"] / camera.scale);
  }

  move(side, event) {
    const { page } = this, pointer = this.pointers.get(event.pointerId), place = placeOf(event);
    if (!pointer) {
      this.kind = event.pointerType === "touch" ? "touch" : "mouse";
      return page.pointAt(side, this.slotAt(side, place));
    }
    if (this.pointers.size > 1) this.pinch(pointer, place);
    else if (this.held) {
      this.held.target = page.camera.toWorld(place);
      if (distance(place, pointer.began) > TAP.way) page.dragged();
    } else page.camera.pan(place.x - pointer.place.x, place.y - pointer.place.y);
    pointer.place = place;
    if (!page.isRunning) page.paint();
  }

  /** Two fingers: what lies between them stays between them. */
  pinch(pointer, place) {
    const { camera } = this.page, [first, second] = [...this.pointers.values()], other = pointer === first ? second : first;
    if (pointer !== first && pointer !== second) return;
    const before = middle(pointer.place, other.place), now = middle(place, other.place);
    camera.pan(now.x - before.x, now.y - before.y);
    camera.zoom(distance(place, other.place) / Math.max(1, distance(pointer.place, other.place)), now);
  }

  up(side, event) {
    const pointer = this.pointers.get(event.pointerId), place = placeOf(event);
    if (!pointer) return;
    this.cancel(event.pointerId);
    if (pointer.isOne && event.timeStamp - pointer.time < TAP.time && distance(place, pointer.began) < TAP.way) this.tap(side, event, place);
    if (!this.page.isRunning) this.page.refresh();
  }

  /** A pointer that is gone. */
  cancel(id) {
    this.pointers.delete(id);
    if (this.held?.pointer === id || this.pointers.size === 0) this.letGo();
  }

  /** A tap tells of a body, and a second one on the same place drops a ball. A mouse has its own second click. */
  tap(side, { timeStamp }, place) {
    const { tapped, page } = this, isSecond = tapped && timeStamp - tapped.time < TWICE.time && distance(place, tapped.place) < TWICE.way;
    this.tapped = isSecond ? null : { place, time: timeStamp };
    if (isSecond && this.kind === "touch") page.dropBall(side, page.camera.toWorld(place));
    else page.tell(side, this.slotAt(side, place));
  }

  letGo() {
    this.held = null;
    for (const { canvas } of this.page.sides) canvas.classList.remove("holds");
  }

  /** The push of the hand before a step. */
  pull() {
    if (!this.held) return;
    const { page } = this, { side, slot, hold, target } = this.held, body = side.picture.bodies.get(slot);
    if (!body?.handle || !body.isMover()) return this.letGo();
    const { run } = side, push = pull(run.world, body, hold, target, run.now.ticks, page.peers?.delay);
    if (push) page.interfere({ do: "push_at", body: textOf(body.handle), ...push });
  }
}

/** Where in a canvas an event is. */
function placeOf(event) {
  const box = event.currentTarget.getBoundingClientRect();
  return { x: event.clientX - box.left, y: event.clientY - box.top };
}

const ARROWS = { ArrowLeft: [-1, 0], ArrowRight: [1, 0], ArrowUp: [0, 1], ArrowDown: [0, -1] };
const OF_RANGES = [...Object.keys(ARROWS), "Home", "End", "PageUp", "PageDown"];

/** Whether an element that has the focus has a use of its own for a key. */
function hasUse({ tagName, type }, key) {
  if (tagName === "TEXTAREA" || tagName === "SELECT") return true;
  if (tagName === "INPUT") return type === "range" ? OF_RANGES.includes(key) : type !== "checkbox" || key === " ";
  return /^(?:BUTTON|SUMMARY|A)$/.test(tagName) && (key === " " || key === "Enter");
}

/** Keys work wherever the focus is, but where what has it needs them. A control that is clicked doesn't keep the focus, so that the space bar runs and pauses. */
export function listenToKeys(page) {
  const keys = {
    " ": () => page.toggle(), s: () => page.once(), ".": () => page.once(), ",": () => page.back(), r: () => page.restart(), f: () => page.fit(),
    b: () => page.dropBallInSight(), "]": () => page.tellNext(1), "[": () => page.tellNext(-1), Delete: () => page.destroyTold(), Backspace: () => page.destroyTold(),
    Escape: () => page.tell(null, null), "+": () => page.zoom(1.25), "=": () => page.zoom(1.25), "-": () => page.zoom(0.8),
  };
  document.addEventListener("keydown", (event) => {
    const { key, target } = event, arrow = ARROWS[key], does = keys[key.length === 1 ? key.toLowerCase() : key];
    if (event.ctrlKey || event.metaKey || event.altKey || document.querySelector("dialog[open]") || hasUse(target, key) || !(arrow || does)) return;
    event.preventDefault();
    if (!arrow) does();
    else if (event.shiftKey) page.pushTold(arrow);
    else page.pan(-PAN * arrow[0], PAN * arrow[1]);
  });
  const giveBack = (event) => {
    const isControl = event.target.closest?.("button, input, select, summary, label");
    if (isControl && !document.querySelector("dialog[open]")) page.sides[0].canvas.focus({ preventScroll: true });
  };
  document.addEventListener("click", (event) => { if (event.detail > 0 && !event.target.closest("select")) giveBack(event); });
  let isByPointer = false;
  document.addEventListener("pointerdown", () => { isByPointer = true; }, true);
  document.addEventListener("keydown", () => { isByPointer = false; }, true);
  document.addEventListener("change", (event) => { if (isByPointer) giveBack(event); });
}
