#!/usr/bin/env node
// Plays stored scripts by the module in Node, and compares the answers with those beside them, in FILE.stdout.
//
//     bindings/web/play.mjs FILE..                   the last line is 'N passed, M failed'
//     bindings/web/play.mjs --batch FILE..           the same, with each run of commands by one call
//     bindings/web/play.mjs --worlds FOLDER FILE..   writes each world at its script's end to FOLDER, and all their digests to FOLDER/digests
//     bindings/web/play.mjs --bundle TO FILE..       plays none, and writes them with their answers to one file, for the page's tests in a browser
//     bindings/web/play.mjs --refuse FILE..          refuses memory in each call, after no grant, one, two and so on, ever more: it answers 1, the world is as it was, and with
//                                           memory the call is made
//     bindings/web/play.mjs --guard                  a call with a bad pointer traps, and so does each call after it
//     bindings/web/play.mjs --heap                   blocks of many sizes are aligned, don't overlap and are used again
//
// Lines that the program calls bad are left out. Scripts with a crowd, which has threads, and those whose lines and answers can't be paired are
// passed over.

import { existsSync, readFileSync, writeFileSync } from "node:fs";
import { Library } from "./dillmonth.js";
import { NotOurs, Player, difference, requestOf } from "./script.js";

const MODULE = new URL("out/dillmonth.wasm", import.meta.url);
const loaded = () => Library.load(readFileSync(MODULE));

/** The lines of a script that are requests, and the answers to them. */
function linesAndAnswers(path) {
  const texts = readFileSync(path, "latin1").split("\n").filter((text) => text.trim());
  const answers = readFileSync(`${path}.stdout`, "utf8").split("\n").slice(0, -1);
  const pairs = texts.slice(0, answers.length).map((text, number) => [text, answers[number]]);
  const good = pairs.filter(([, answer]) => !answer.startsWith('{"bad"'));
  if (good.length < answers.length && texts.length !== answers.length) throw new NotOurs("lines without answers");
  const utf8 = (text) => Buffer.from(text, "latin1").toString("utf8");
  const lines = good.map(([text]) => utf8(text));
  if (lines.some((line) => requestOf(line).do === "crowd")) throw new NotOurs("crowd");
  return { lines, answers: good.map(([, answer]) => answer) };
}

/** The scripts that can be played, and how many can't. */
function scriptsAt(paths) {
  const scripts = [];
  for (const path of paths) {
    try {
      scripts.push({ path, ...linesAndAnswers(path) });
    } catch (error) {
      if (!(error instanceof NotOurs)) throw error;
    }
  }
  return { scripts, over: paths.length - scripts.length };
}

/** The same, with memory refused in each call: after no grant, one and so on, all at first and then in growing strides. */
function differenceRefused(library, player, requests, answers) {
  for (const [number, line] of requests.entries()) {
    for (let grants = 0; ; grants += 1 + (grants >> 2)) {
      const before = player.world.digest();
      library.refuseAfter(grants);
      const given = player.answer(line);
      library.refuseAfter(null);
      if (given === answers[number]) break;
      if (given !== '{"refused":1}') return `answer ${number + 1} after ${grants} grants is ${given.slice(0, 300)}`;
      if (player.world.digest() !== before) return `request ${number + 1}, refused after ${grants} grants, has changed the world`;
      if (grants > 1000000) return `request ${number + 1} is refused for ever`;
    }
  }
  return null;
}

async function play(paths, { worlds, refuse, batch }) {
  const library = await loaded(), empty = library.blocks(), digests = [];
  const { scripts, over } = scriptsAt(paths);
  let passed = 0, failed = 0;
  for (const { path, lines, answers } of scripts) {
    const player = new Player(library), requests = lines.map(requestOf);
    const asked = batch ? player.askInBatches(requests) : player.askEach(requests);
    const differs = refuse ? differenceRefused(library, player, requests, answers) : difference(asked, answers);
    if (differs) console.log(`${path}: ${differs}`);
    differs ? failed++ : passed++;
    if (worlds) {
      writeFileSync(`${worlds}/${String(digests.length).padStart(4, "0")}.json`, player.world.save());
      digests.push(player.world.digest());
    }
    player.close();
  }
  if (worlds) writeFileSync(`${worlds}/digests`, digests.map((each) => `${each}\n`).join(""));
  const rooms = library.rooms.filter(Boolean).length;
  if (library.blocks() !== empty + rooms) {
    console.log(`${library.blocks() - empty - rooms} blocks of memory weren't given back`);
    failed += 1;
  }
  console.log(`${over} passed over: they have threads, or lines without an answer of their own`);
  return { passed, failed };
}

/** Writes scripts with their answers to one file. */
function bundle([to, ...paths]) {
  const { scripts } = scriptsAt(paths);
  writeFileSync(to, JSON.stringify(scripts));
  return { passed: scripts.length, failed: 0 };
}

/** Whether a call traps. */
function traps(call) {
  try {
    call();
    return false;
  } catch (error) {
    return error instanceof WebAssembly.RuntimeError;
  }
}

async function guard() {
  const library = await loaded(), world = library.open();
  world.step(1n);
  const isRefused = [traps(() => library.calls.dm_steps(0xfffffff0n)), traps(() => world.step(1n)), traps(() => world.digest())];
  const fresh = (await loaded()).open();
  isRefused.push(fresh.step(1n) === 1n);
  return { passed: isRefused.filter(Boolean).length, failed: isRefused.filter((each) => !each).length };
}

/** A hundred thousand blocks, of which up to five hundred are there at once, each full of a byte of its own. */
async function heap() {
  const library = await loaded(), held = [], empty = library.blocks();
  let seed = 1, wrong = 0;
  const random = (below) => (seed = (seed * 48271) % 2147483647) % below;
  const isWhole = ({ at, size, byte }) => library.bytes(at, size).every((each) => each === byte);
  for (let round = 0; round < 100000; round++) {
    if (held.length === 500 || (held.length && random(2))) {
      const [block] = held.splice(random(held.length), 1);
      if (!isWhole(block)) wrong += 1;
      library.give(block.at);
      continue;
    }
    const size = 16 + random(random(100) ? 300 : 100000), at = library.take(size), byte = random(256);
    if (at % 16) wrong += 1;
    library.bytes(at, size).fill(byte);
    held.push({ at, size, byte });
  }
  for (const block of held) isWhole(block) ? library.give(block.at) : wrong++;
  const memory = library.calls.memory.buffer.byteLength;
  console.log(`${memory >> 10} KB of memory`);
  const results = [wrong === 0, library.blocks() === empty, memory < 64 << 20];
  return { passed: results.filter(Boolean).length, failed: results.filter((each) => !each).length };
}

/** What one asked for by the first word, or to play. */
function run(words) {
  const [first, ...rest] = words;
  switch (first) {
    case "--guard": return guard();
    case "--heap": return heap();
    case "--bundle": return bundle(rest);
    case "--worlds": return play(rest.slice(1), { worlds: rest[0] });
    case "--refuse": return play(rest, { refuse: true });
    case "--batch": return play(rest, { batch: true });
    default: return play(words, {});
  }
}

if (!existsSync(MODULE)) throw new Error("there is no bindings/web/out/dillmonth.wasm: bindings/web/build makes it");
const { passed, failed } = await run(process.argv.slice(2));
console.log(`${passed} passed, ${failed} failed`);
process.exit(failed || !passed ? 1 : 0);
