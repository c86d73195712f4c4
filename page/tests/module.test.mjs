// Tests of lepsaino.wasm, since no proof covers the step to it: every call for C, optimized and not, over the corpus, the cases and numbers.
import assert from "node:assert/strict";
import test from "node:test";
import { CASES, CORPUS, built, kept } from "./built.mjs";
import { RawAnswerer, firstDifference } from "./raw.mjs";
import { repliesOf } from "./replies.mjs";

const MEMORY_SIZE = 8 * 1024 * 1024;
const OPTIMIZED = { level: "-O3", file: "lepsaino.wasm" };
const LEVELS = [OPTIMIZED, { level: "-O0", file: "lepsaino-O0.wasm" }];

const LARGEST = 2n ** 64n - 1n;
const FIRST_IN_QUOTES = 2n ** 53n;
const SEEDED_NUMBERS = 3000;

const STACK_SIZE = 196608;
const ANSWER_SIZE = 64;
const READING = { rate: 3000000, unit: 8192, serial: 0n };

const header = () => kept("include/lepsaino.h").toString();

const moduleIn = (file) => new WebAssembly.Module(built(file));
const exportsOf = (module) => new WebAssembly.Instance(module).exports;

const answerers = new Map();

/** One answerer for all tests of a level, so that the stack's use is that of all their calls. */
function answererOf({ file }) {
  if (!answerers.has(file)) answerers.set(file, new RawAnswerer(exportsOf(moduleIn(file))));
  return answerers.get(file);
}

/** The calls that the header declares, not those that its comments speak of. */
function declaredCalls() {
  const declarations = header().replace(/\/\*.*?\*\//gs, "");
  return [...declarations.matchAll(/\b(lepsaino_\w+)\(/g)].map(([, name]) => name);
}

/** Texts of megabytes are compared without showing more than the first difference. */
function mustBeText(given, expected) {
  if (given.equals(expected)) return;
  const at = firstDifference(given, expected);
  const line = expected.subarray(0, at).toString("latin1").split("\n").length;
  const around = (text) => JSON.stringify(text.toString("latin1", Math.max(0, at - 200), at + 100));
  assert.fail(`byte ${at}, in line ${line}: expected ..${around(expected)}.., given ..${around(given)}..`);
}

for (const { level, file } of LEVELS) {
  test(`${level}: nothing is imported, and the calls of the header are exported`, () => {
    const module = moduleIn(file);
    assert.deepEqual(WebAssembly.Module.imports(module), []);
    const calls = declaredCalls().map((name) => ({ name, kind: "function" }));
    const expected = [...calls, { name: "memory", kind: "memory" }, { name: "__heap_base", kind: "global" }];
    const byName = (one, other) => (one.name < other.name ? -1 : 1);
    assert.ok(calls.length > 10);
    assert.deepEqual(WebAssembly.Module.exports(module).sort(byName), expected.sort(byName));
  });

  test(`${level}: the version is the header's`, () => {
    const [section, ...others] = WebAssembly.Module.customSections(moduleIn(file), "lepsaino.version");
    assert.equal(Buffer.from(section).toString(), header().match(/^#define LEPSAINO_VERSION (\d+)$/m)[1]);
    assert.deepEqual(others, []);
  });

  test(`${level}: the memory has 8 MB and does not grow`, () => {
    const { memory } = exportsOf(moduleIn(file));
    assert.equal(memory.buffer.byteLength, MEMORY_SIZE);
    assert.throws(() => memory.grow(1), RangeError);
    assert.equal(memory.buffer.byteLength, MEMORY_SIZE);
  });
}

for (const each of LEVELS) {
  for (const [title, { cases, printed, fewestCalls }] of [["the corpus, as the peer answers it", CORPUS], ["the cases, as the scripts in Python answer them", CASES]]) {
    test(`${each.level}: ${title}`, () => {
      const { text, calls } = repliesOf(cases.map(kept), answererOf(each));
      mustBeText(text, kept(printed));
      assert.ok(calls >= fewestCalls, `only ${calls} calls`);
    });
  }
}

const isNumber = (number) => number >= 0n && number <= LARGEST;
const around = (number) => [-2n, -1n, 0n, 1n, 2n].map((step) => number + step);
const upTo = (last) => Array.from({ length: last + 1 }, (none, index) => index);

/** Every digit at every place, every power of two, and what is next to them. */
function numbersAtEdges() {
  const tens = upTo(19).flatMap((exponent) => upTo(9).map((digit) => BigInt(digit) * 10n ** BigInt(exponent)));
  const twos = upTo(64).map((exponent) => 2n ** BigInt(exponent));
  return [...tens, ...twos].flatMap(around);
}

/** Digits are printed by pairs: each pair alone, and repeated up to the most digits. */
function numbersOfPairs() {
  return upTo(99).flatMap((pair) => upTo(9).map((more) => BigInt(String(pair).padStart(2, "0").repeat(more + 1))));
}

/** Numbers of every length, from a seed. */
function numbersFromSeed() {
  let state = 1n;
  return upTo(SEEDED_NUMBERS).map((index) => {
    state = BigInt.asUintN(64, state * 6364136223846793005n + 1442695040888963407n);
    return state >> BigInt(index % 64);
  });
}

/** What the call for a number must give: the text, and how many bytes changed past it. */
function numberIn(room, text) {
  return { text: text.length <= room ? text : "", changed: 0 };
}

for (const each of LEVELS) {
  test(`${each.level}: numbers at every edge of the printer`, () => {
    const answerer = answererOf(each);
    const numbers = new Set([...numbersAtEdges(), ...numbersOfPairs(), ...numbersFromSeed()].filter(isNumber));
    for (const number of numbers) {
      const text = number < FIRST_IN_QUOTES ? `${number}` : `"${number}"`;
      for (const room of [text.length, text.length - 1, 22, 40]) {
        assert.deepEqual(answerer.number(number, room), numberIn(room, text), `${number} in room for ${room}`);
      }
    }
    assert.ok(numbers.has(LARGEST) && numbers.has(FIRST_IN_QUOTES) && numbers.has(FIRST_IN_QUOTES - 1n));
  });
}

function stackOf(each) {
  const { stack } = answererOf(each);
  const unmeasured = declaredCalls().filter((name) => !stack.has(name.replace("lepsaino_", "")));
  assert.deepEqual(unmeasured, [], "these were not called by the tests before");
  return stack;
}

/** How many bytes of stack a call takes by the header: for each call that it names, and for the others. */
function stackTold() {
  const [, sentence] = /The stack has room: ([^.]+)\./.exec(header());
  const clauses = [...sentence.matchAll(/(\d+) KB for ([^,]+)/g)];
  const named = (clause) => [...clause.matchAll(/\blepsaino_(\w+)/g)].map(([, name]) => name);
  const told = new Map(clauses.flatMap(([, most, clause]) => named(clause).map((name) => [name, 1000 * most])));
  const [, others] = clauses.find(([, , clause]) => clause === "any other call");
  return (name) => told.get(name) ?? 1000 * others;
}

test("optimized, no call takes more stack than the header says", (context) => {
  const told = stackTold();
  for (const [name, used] of stackOf(OPTIMIZED)) {
    const most = told(name);
    assert.ok(used <= most, `lepsaino_${name} took ${used} bytes of stack, and the header says ${most}`);
  }
  for (const each of LEVELS) context.diagnostic(`${each.level}, bytes of stack: ${[...stackOf(each)].map((used) => used.join(" ")).join(", ")}`);
});

/** An answerer one of whose calls, once it has answered, changes the byte at a place that goes by what it was lent. */
function answererThatTouches(name, placeOf) {
  const exports = exportsOf(moduleIn(OPTIMIZED.file));
  const bytes = new Uint8Array(exports.memory.buffer);
  const touching = (...given) => {
    exports[name](...given);
    bytes[placeOf(...given)] ^= 255;
  };
  return new RawAnswerer({ ...exports, [name]: touching });
}

const soundDump = () => kept("crates/lepsaino/data/pump.dump");

test("a check that changes a byte that it is not lent, or a field that must be 0, is found out", () => {
  const checkTouching = (dump, placeOf) => {
    const answerer = answererThatTouches("lepsaino_check", placeOf);
    return () => answerer.check(dump);
  };
  const sound = soundDump();
  const refused = sound.subarray(0, 47);
  const anyDump = [
    (answer) => answer - 1, (answer) => answer + ANSWER_SIZE, () => STACK_SIZE, (answer, dump) => dump - 64, (answer, dump) => dump - 1,
    (answer, dump) => dump, (answer, dump, length) => dump + Number(length), (answer, dump, length) => dump + Number(length) + 63,
  ];
  for (const dump of [sound, refused]) {
    for (const placeOf of anyDump) assert.throws(checkTouching(dump, placeOf), /lepsaino_check changed the byte/, `${placeOf}`);
  }
  assert.throws(checkTouching(sound, (answer) => answer + 8), /accepted, and its place is/);
  assert.throws(checkTouching(sound, (answer) => answer + 16), /the field at 16/);
  for (const field of [16, 36, 56, 63]) assert.throws(checkTouching(refused, (answer) => answer + field), /is not 0/);
  for (const padding of [4, 7, 38, 39]) for (const dump of [sound, refused]) checkTouching(dump, (answer) => answer + padding)();
});

test("a byte changed beside the output or the buffer, or of the name, is found out", () => {
  const lineTouching = (step) => {
    const placeOf = (answer, dump, length, rate, serial, position, out) => out + step;
    return answererThatTouches("lepsaino_line", placeOf).line(soundDump(), READING, 0n, 200);
  };
  assert.equal(lineTouching(0).text.length, 136);
  assert.deepEqual([135, 136, 199, 200, 263].map((step) => lineTouching(step).changed), [0, 1, 1, 1, 1]);
  assert.throws(() => lineTouching(-1), /before the output/);
  const recordTouching = (placeOf) => answererThatTouches("lepsaino_record", placeOf).record(soundDump(), [1, 2, 3, 4, 5, 6, 7, 8]);
  assert.throws(() => recordTouching((answer, buffer) => buffer - 1), /lepsaino_record changed the byte/);
  assert.throws(() => recordTouching((answer, buffer, length) => buffer + Number(length)), /lepsaino_record changed the byte/);
  const object = { type: 1, words: [1, 2, 3], reserved: [4, 5] };
  const nameTouching = answererThatTouches("lepsaino_register", (answer, buffer, length, given, name) => name);
  assert.throws(() => nameTouching.register(soundDump(), object, Buffer.from("pump")), /lepsaino_register changed the byte/);
});

test("a byte changed of a name file or beside it is found out", () => {
  const names = Buffer.from("0900010005000000" + "7374617274", "hex");
  const lineTouching = (placeOf) =>
    answererThatTouches("lepsaino_line_with_names", (answer, dump, length, rate, serial, position, file) => placeOf(file)).line(soundDump(), READING, 0n, 200, names);
  const eventTouching = (placeOf) =>
    answererThatTouches("lepsaino_event_with_names", (answer, dump, length, file) => placeOf(file)).event(soundDump(), 0n, names);
  for (const placeOf of [(file) => file - 1, (file) => file, (file) => file + names.length - 1, (file) => file + names.length]) {
    assert.throws(() => lineTouching(placeOf), /lepsaino_line_with_names changed the byte/);
    assert.throws(() => eventTouching(placeOf), /lepsaino_event_with_names changed the byte/);
  }
  const writeTouching = (placeOf) => answererThatTouches("lepsaino_write_name", placeOf).writeName(Buffer.alloc(20), 0n, 0, 5, Buffer.from("start"));
  for (const placeOf of [(answer, file) => file - 1, (answer, file, length) => file + Number(length), (answer, file, length, offset, thread, number, name) => name]) {
    assert.throws(() => writeTouching(placeOf), /lepsaino_write_name changed the byte/);
  }
});

for (const each of LEVELS) {
  test(`${each.level}: an event's record where thread is 0, and a thread's where it is any other number`, () => {
    for (const [thread, kind] of [[0, 1], [1, 2], [2, 2], [256, 2], [65536, 2], [0x80000000, 2], [0xffffffff, 2]]) {
      const names = Buffer.alloc(16, 0xee);
      assert.deepEqual(answererOf(each).writeName(names, 3n, thread, 0x20002000, Buffer.from("stop")), { refusal: null, value: 12n });
      assert.equal(names.toString("hex"), `eeeeee08000${kind}000020002073746f70ee`);
    }
  });
}

test("the stack that a call takes is measured to the byte", () => {
  const answererTaking = (size) => answererThatTouches("lepsaino_check", () => STACK_SIZE - size);
  for (const size of [2000, 2001, 20000, 120000]) {
    const answerer = answererTaking(size);
    for (const dump of [soundDump(), soundDump()]) answerer.check(dump);
    assert.equal(answerer.stack.get("check"), size);
  }
  const deep = answererTaking(160000);
  deep.check(soundDump());
  assert.throws(() => deep.stack, /more stack than was looked at/);
});
