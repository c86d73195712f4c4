// Tests of the loader: what its calls give, what they refuse, what is no argument, and the corpus through it.
import assert from "node:assert/strict";
import test from "node:test";
import { runInNewContext } from "node:vm";
import { readListing } from "../lepsaino.mjs";
import { load } from "../library.mjs";
import { refusalOf } from "../refusals.mjs";
import { CASES, CORPUS, addressOf, built, kept } from "./built.mjs";
import { RawAnswerer } from "./raw.mjs";
import { repliesOf } from "./replies.mjs";

const SAMPLE = kept("crates/lepsaino/data/pump.dump");
const CUT = kept("crates/lepsaino/data/cut.dump");
// The lines of the whole case of docs/RULES.md.
const LINES = kept("crates/lepsaino/stdout").toString("latin1");
const READING = { rate: 3000000, unit: 8192, serial: 0 };
// A record for the event 5 and one for the thread 0x20002000, 13 bytes each, and the lines that they make.
const NAMES = Buffer.from("09000100" + "05000000" + "7374617274" + "09000200" + "00200020" + "76616c7665", "hex");
const NAMED_LINES = LINES.replace('"id":5,', '"id":5,"event":"start",').replace('"id":1025,', '"id":1025,"event":null,')
  .replace('"id":6,', '"id":6,"event":null,').replace('"name":null', '"name":"valve"');

const moduleBytes = built("lepsaino.wasm");
const library = await load(moduleBytes);

const refused = (number, place) => ({ refusal: refusalOf(number, place) });
const changed = (bytes, at, ...values) => { const copy = Uint8Array.from(bytes); copy.set(values, at); return copy; };

test("the whole case", () => {
  const { refusal, text } = library.list(SAMPLE, READING);
  assert.equal(refusal, null);
  assert.equal(text, LINES);
  LINES.match(/.*\n/g).forEach((line, position) => {
    assert.deepEqual(library.line(SAMPLE, READING, position), { refusal: null, text: line });
    const { stamp, nameAt, refusal: none, ...event } = library.event(SAMPLE, position);
    const { key, keyText, us, ...listed } = readListing(LINES)[position];
    assert.deepEqual(event, listed);
  });
  assert.deepEqual(library.check(SAMPLE), {
    refusal: null, big: false, id: 0x54585442, mask: 0xffff, base: 0x20000000, registryStart: 0x20000030, nameSize: 8,
    registryEnd: 0x20000048, bufferStart: 0x20000048, bufferEnd: 0x200000a8, current: 0x20000068, events: 3,
  });
  assert.deepEqual([0, 1, 2].map((position) => library.event(SAMPLE, position).stamp), [65500, 20, 20]);
});

test("names, live, gone and none", () => {
  const named = { refusal: null, name: "pump", gone: false, nameAt: 64 };
  assert.deepEqual(library.findName(SAMPLE, 0x20001000), named);
  assert.deepEqual(library.findName(changed(SAMPLE, 48, 1), 0x20001000), { ...named, gone: true });
  assert.deepEqual(library.findName(SAMPLE, 0x20001001), { refusal: null, name: null, gone: false, nameAt: null });
  assert.equal(library.findName(changed(SAMPLE, 64, 0), 0x20001000n).name, "");
  const odd = library.findName(changed(SAMPLE, 64, 0x80, 0x9f, 0xff, 0x22), 0x20001000);
  assert.equal(odd.name, "\u0080\u009f\u00ff\"");
  assert.equal(library.event(SAMPLE, 2).nameAt, null);
  assert.deepEqual(library.event(changed(SAMPLE, 48, 1), 0).gone, true);
});

test("the whole case with a name file", () => {
  assert.deepEqual(library.list(SAMPLE, READING, NAMES), { refusal: null, text: NAMED_LINES });
  NAMED_LINES.match(/.*\n/g).forEach((line, position) => {
    assert.deepEqual(library.line(SAMPLE, READING, position, NAMES), { refusal: null, text: line });
    const { stamp, nameAt, filed, eventAt, refusal: none, ...event } = library.event(SAMPLE, position, NAMES);
    const { key, keyText, us, ...listed } = readListing(NAMED_LINES)[position];
    assert.deepEqual(event, listed);
    assert.deepEqual({ nameAt, filed, eventAt }, { nameAt: [64, 64, 21][position], filed: position === 2, eventAt: [8, null, null][position] });
  });
  const found = { refusal: null, gone: false };
  assert.deepEqual(library.findName(SAMPLE, 0x20001000, NAMES), { ...found, name: "pump", nameAt: 64, filed: false });
  assert.deepEqual(library.findName(SAMPLE, 0x20002000, NAMES), { ...found, name: "valve", nameAt: 21, filed: true });
  assert.deepEqual(library.findName(SAMPLE, 5, NAMES), { ...found, name: null, nameAt: null, filed: false });
  assert.deepEqual(library.findName(changed(SAMPLE, 48, 1), 0x20001000, NAMES), { ...found, name: "pump", nameAt: 64, gone: true, filed: false });
});

test("an empty name file is a file, and none is none", () => {
  const empty = NAMED_LINES.replace('"event":"start"', '"event":null').replace('"valve"', "null");
  for (const names of [new Uint8Array(0), new ArrayBuffer(0)]) assert.equal(library.list(SAMPLE, READING, names).text, empty);
  assert.equal(library.list(SAMPLE, READING, undefined).text, LINES);
  assert.deepEqual(library.event(SAMPLE, 0, undefined), library.event(SAMPLE, 0));
  const fields = (answer) => ["event", "eventAt", "filed"].filter((field) => field in answer);
  assert.deepEqual(fields(library.event(SAMPLE, 0)), []);
  assert.deepEqual(fields(library.event(SAMPLE, 0, new Uint8Array(0))), ["event", "eventAt", "filed"]);
  assert.deepEqual(fields(library.findName(SAMPLE, 0)), []);
});

test("a name file is refused behind the dump and the reading, before the position", () => {
  const cut = NAMES.subarray(0, 25);
  const calls = [
    [(dump, names) => library.list(dump, READING, names), 26, 18], [(dump, names) => library.line(dump, READING, 9, names), 26, 18],
    [(dump, names) => library.event(dump, 9, names), 26, 18], [(dump, names) => library.findName(dump, 9, names), 26, 18],
  ];
  for (const [call, number, place] of calls) {
    assert.deepEqual(call(SAMPLE, cut), refused(27, 13));
    for (const length of [65537, 65538, 4000000]) assert.deepEqual(call(SAMPLE, new Uint8Array(length)), refused(2, 0));
    assert.deepEqual(call(CUT, cut), refused(number, place));
    assert.equal(call(SAMPLE, new Uint8Array(65536)).refusal?.number ?? 25, 25);
  }
  assert.deepEqual(library.list(SAMPLE, { ...READING, rate: 0 }, cut), refused(14, 0));
  assert.deepEqual(library.line(SAMPLE, { ...READING, unit: 16777216 }, 9, cut), refused(15, 0));
  assert.match(library.list(SAMPLE, READING, cut).refusal.words, /^the record at offset 13 of the name file runs past its end/);
});

test("a record is written into the bytes given, and no other byte changes", () => {
  const names = new Uint8Array(NAMES.length + 2).fill(0xee);
  const event = { kind: "event", number: 5, name: Buffer.from("start") };
  const thread = { kind: "thread", number: 0x20002000n, name: Uint8Array.from(Buffer.from("valve")).buffer };
  assert.deepEqual(library.writeName(names, 0, event), { refusal: null, length: 13 });
  assert.deepEqual(names, Uint8Array.of(...NAMES.subarray(0, 13), ...Array(15).fill(0xee)));
  assert.deepEqual(library.writeName(names.buffer, 13n, thread), { refusal: null, length: 13 });
  assert.deepEqual(names, Uint8Array.of(...NAMES, 0xee, 0xee));
  for (const [offset, number] of [[16, 16], [28, 16], [65523, 16], [65524, 28], [2n ** 64n - 1n, 28]]) assert.deepEqual(library.writeName(names, offset, event), refused(number, 0));
  assert.deepEqual(names, Uint8Array.of(...NAMES, 0xee, 0xee));
  assert.deepEqual(library.writeName(names, 15, { ...event, name: new Uint8Array(5) }), { refusal: null, length: 13 });
  // The name may lie in the file itself.
  assert.equal(library.writeName(names, 0, { ...event, name: names.subarray(8, 13) }).length, 13);
  assert.deepEqual(names.subarray(0, 13), Uint8Array.from(NAMES.subarray(0, 13)));
});

test("the longest record, and longer bytes than a name file has", () => {
  const names = new Uint8Array(100000).fill(0xee);
  const longest = { kind: "thread", number: 0x20002000, name: new Uint8Array(65528).fill(0xff) };
  assert.deepEqual(library.writeName(names, 1, longest), refused(28, 0));
  for (const length of [65529, 65537, 4000000]) assert.deepEqual(library.writeName(names, 0, { ...longest, name: new Uint8Array(length) }), refused(28, 0));
  assert.deepEqual(library.writeName(names.subarray(0, 65535), 0, longest), refused(16, 0));
  assert.ok(names.every((byte) => byte === 0xee));
  assert.deepEqual(library.writeName(names, 0, longest), { refusal: null, length: 65536 });
  assert.ok(names.subarray(65536).every((byte) => byte === 0xee));
  const called = "\u00ff".repeat(65528);
  const file = names.subarray(0, 65536);
  assert.equal(library.findName(SAMPLE, 0x20002000, file).name, called);
  assert.equal(library.event(SAMPLE, 2, file).name, called);
  assert.equal(readListing(library.list(SAMPLE, READING, file).text)[2].name, called);
  assert.equal(library.writeName(new Uint8Array(8), 0, { ...longest, name: new Uint8Array(0) }).length, 8);
});

test("what is no name file and no record is an error", () => {
  const event = { kind: "event", number: 5, name: Buffer.from("start") };
  for (const other of [null, 7, "names", [9, 0], {}, { names: NAMES }, new Uint16Array(4)]) {
    for (const call of [() => library.list(SAMPLE, READING, other), () => library.line(SAMPLE, READING, 0, other), () => library.event(SAMPLE, 0, other),
                        () => library.findName(SAMPLE, 0, other), () => library.writeName(other, 0, event)]) {
      assert.throws(call, { name: "TypeError", message: "the name file must be a Uint8Array or an ArrayBuffer" });
    }
    assert.throws(() => library.writeName(new Uint8Array(99), 0, { ...event, name: other }), /the name must be a Uint8Array/);
  }
  for (const kind of [undefined, null, 0, 1, "Event", "", ["event"], "toString"]) {
    assert.throws(() => library.writeName(new Uint8Array(99), 0, { ...event, kind }), /the kind of a record must be "event" or "thread"/);
  }
  for (const record of [undefined, null, 7, {}]) assert.throws(() => library.writeName(new Uint8Array(99), 0, record), TypeError);
});

test("ticks, and all that a line has above 2^53, are BigInts", () => {
  assert.equal(library.event(SAMPLE, 1).ticks, 56n);
  const last = { rate: 1, unit: 16777215, serial: 2n ** 40n - 3n };
  const events = readListing(library.list(SAMPLE, last).text);
  assert.deepEqual(events.map(({ key }) => key), [2n ** 64n - 3n, 2n ** 64n - 2n, 2n ** 64n - 1n]);
  assert.equal(events[1].us, 56000000n);
});

test("a refusal has its number, its place and both in words", () => {
  assert.deepEqual(library.check(SAMPLE.subarray(0, 47)), {
    refusal: { number: 1, place: 0, words: "the dump has fewer than 48 bytes" },
  });
  assert.deepEqual(library.list(CUT, READING), {
    refusal: { number: 26, place: 18, words: "the dump was cut; bytes missing up to the end of its registry or its slots: 18" },
  });
  assert.deepEqual(library.check(changed(SAMPLE, 49, 15)), refused(11, 0));
  assert.deepEqual(library.check(changed(SAMPLE, 144, 0, 0, 0, 0)), refused(13, 2));
  assert.deepEqual(library.check(changed(SAMPLE, 72, 0, 0, 0, 0)), refused(12, 0));
  assert.match(library.check(changed(SAMPLE, 144, 0, 0, 0, 0)).refusal.words, /^slot 2 is used with/);
  assert.match(library.check(changed(SAMPLE, 72, 0, 0, 0, 0)).refusal.words, /^slot 0 is used and/);
  assert.match(library.check(changed(SAMPLE, 49, 15)).refusal.words, /^entry 0 is in use/);
  assert.deepEqual(library.list(SAMPLE, { ...READING, rate: 0 }), refused(14, 0));
  assert.deepEqual(library.list(SAMPLE, { ...READING, unit: 16777216 }), refused(15, 0));
  assert.deepEqual(library.event(SAMPLE, 3), refused(25, 0));
  assert.deepEqual(library.line(SAMPLE, READING, 2n ** 64n - 1n), refused(25, 0));
  assert.deepEqual(library.findName(CUT.subarray(0, 60), 1), refused(26, 12));
  assert.deepEqual(library.mend(CUT.subarray(0, 60)), refused(26, 12));
});

test("the words are those of the header's table, and every number has some", () => {
  const table = [...kept("include/lepsaino.h").toString().matchAll(/^ \* {1,2}(\d+)  (.+)$/gm)];
  assert.equal(table.length, 28);
  table.forEach(([, number, words], index) => {
    assert.equal(Number(number), index + 1);
    assert.equal(refusalOf(index + 1, 65536).words, words.replace(/\bN\b/, "65536"));
  });
});

test("a number out of range is an error, and none is cut", () => {
  const calls = {
    rate: [32, (rate) => library.list(SAMPLE, { ...READING, rate })],
    unit: [32, (unit) => library.line(SAMPLE, { ...READING, unit }, 0)],
    serial: [64, (serial) => library.list(SAMPLE, { ...READING, serial })],
    position: [64, (position) => library.event(SAMPLE, position)],
    pointer: [32, (pointer) => library.findName(SAMPLE, pointer)],
    offset: [64, (offset) => library.writeName(new Uint8Array(99), offset, { kind: "event", number: 5, name: NAMES })],
    number: [32, (number) => library.writeName(new Uint8Array(99), 0, { kind: "thread", number, name: NAMES })],
  };
  for (const [name, [bits, call]] of Object.entries(calls)) {
    const most = 2n ** BigInt(bits) - 1n;
    for (const value of [0, 0n, -0, 1, most]) call(value);
    if (bits === 32) call(Number(most));
    for (const value of [-1, -1n, most + 1n, most + 6n, 2n ** 100n]) assert.throws(() => call(value), new RangeError(`${name} must be from 0 to ${most}`));
    for (const value of [0.5, NaN, Infinity, 2 ** 53, -(2 ** 64), "5", "", null, undefined, true, {}, [5], new Number(5)]) {
      assert.throws(() => call(value), { name: "TypeError", message: `${name} must be a whole number: a BigInt, or a number that is a safe integer` });
    }
  }
  assert.throws(() => library.line(SAMPLE, READING, 2n ** 64n), /position must be/);
  for (const reading of [undefined, null, 7, {}, { rate: 1, unit: 1 }]) assert.throws(() => library.list(SAMPLE, reading), TypeError);
});

test("only bytes are a dump or a piece", () => {
  const others = [undefined, null, 7, "dump", [66, 84], {}, new Uint16Array(48), new Uint8ClampedArray(48), new DataView(new ArrayBuffer(48))];
  for (const other of others) {
    for (const call of ["check", "mend"]) assert.throws(() => library[call](other), /the dump must be a Uint8Array or an ArrayBuffer/);
    assert.throws(() => library.begin().feed(other), /the piece must be/);
  }
  const lent = new Uint8Array(1000).fill(7);
  lent.set(SAMPLE, 300);
  const within = lent.subarray(300, 300 + SAMPLE.length);
  for (const same of [within, within.slice().buffer, Buffer.from(within)]) assert.equal(library.list(same, READING).text, LINES);
  assert.deepEqual(lent.subarray(300, 300 + SAMPLE.length), Uint8Array.from(SAMPLE));
});

test("a dump of any length gets its refusal", () => {
  for (const [length, number] of [[0, 1], [47, 1], [48, 3], [65536, 3], [65537, 2], [131073, 2], [4000000, 2]]) {
    assert.deepEqual(library.check(new Uint8Array(length)), refused(number, 0));
    assert.deepEqual(library.mend(new Uint8Array(length)), refused(number, 0));
    assert.deepEqual(library.begin().feed(new Uint8Array(length)).finish(), refused(number, 0));
  }
});

/** A dump of 65,536 bytes that makes lines as long as they come: one thread, a name of 64 bytes that are not ASCII, the largest words. */
function longestLines() {
  const dump = new DataView(new ArrayBuffer(65536));
  const put = (at, ...words) => words.forEach((word, index) => dump.setUint32(at + 4 * index, word));
  put(0, 0x54585442, 0xffffffff, 0, 48, 64, 128, 128, 65536, 128);
  put(48, 0x00010000, 0xfffffffe);
  for (let at = 64; at < 128; at += 1) dump.setUint8(at, 0xff);
  // Each stamp is one less than the one before: a gap of 2^32 - 1 ticks.
  for (let slot = 0; slot < 2044; slot += 1) put(128 + 32 * slot, 0xfffffffe, ...Array(2).fill(0xffffffff), 9000 - slot, ...Array(4).fill(0xffffffff));
  return dump.buffer;
}

test("the longest lines have room", () => {
  const last = 4294967295n;
  const quoted = (number) => (number < 2n ** 53n ? number : `"${number}"`);
  const line = (position) =>
    `{"key":"${2n ** 64n - 2044n + position}","ticks":${position * last},"us":${quoted(position * last * 1000000n)},"id":${last},"ptr":4294967294,"by":"thread",` +
    `"name":"${"\\u00ff".repeat(64)}","gone":false,"field":${last},"info":[${last},${last},${last},${last}]}\n`;
  const lines = Array.from({ length: 2044 }, (_, position) => line(BigInt(position)));
  const { text } = library.list(longestLines(), { rate: 1, unit: 16777215, serial: 2n ** 40n - 2044n });
  assert.equal(text, lines.join(""));
});

/** A full ring whose every event has an own name of so many bytes that take six in the text. */
function longOwnNames(length) {
  const names = new Uint8Array(8 + length);
  assert.equal(library.writeName(names, 0, { kind: "event", number: 0xffffffff, name: new Uint8Array(length).fill(0xff) }).length, 8 + length);
  return names;
}

test("with a name file the longest line has room, and a listing that has none is refused", () => {
  const dump = longestLines();
  const reading = { rate: 1, unit: 16777215, serial: 2n ** 40n - 2044n };
  const [short, long] = [longOwnNames(300), longOwnNames(65528)];
  const own = (length) => `"event":"${"\\u00ff".repeat(length)}"`;
  const { text } = library.list(dump, reading, short);
  assert.equal(text, library.list(dump, reading).text.replaceAll('"id":4294967295', `"id":4294967295,${own(300)}`));
  assert.ok(text.length > 4000000);
  assert.deepEqual(library.list(dump, reading, long), refused(16, 0));
  for (const position of [0, 2043]) {
    const plain = library.line(dump, reading, position).text;
    assert.equal(library.line(dump, reading, position, long).text, plain.replace('"id":4294967295', `"id":4294967295,${own(65528)}`));
  }
});

test("mending gives a copy and six counts", () => {
  const { copy, counts, refusal } = library.mend(CUT);
  assert.equal(refusal, null);
  // The command's reference shows the same.
  assert.deepEqual({ length: copy.length, ...counts }, { length: 168, missing: 1, current: 0, types: 0, ids: 0, packed: 1, moved: 2 });
  const kept = copy.slice();
  assert.equal(library.check(copy).events, 2);
  const [first, , third] = LINES.match(/.*\n/g);
  assert.equal(library.list(copy, READING).text, first + third.replace("740994", "740993"));
  assert.deepEqual(copy, kept);
  assert.deepEqual(library.mend(copy), { refusal: null, copy, counts: { missing: 0, current: 0, types: 0, ids: 0, packed: 0, moved: 0 } });
});

test("pieces, however they are cut, give what the check gives", () => {
  for (const dump of [SAMPLE, CUT]) {
    const whole = library.check(dump);
    for (let cut = 0; cut <= dump.length; cut += 1) {
      const front = library.begin().feed(dump.subarray(0, cut)).feed(new Uint8Array(0));
      assert.deepEqual(front.feed(dump.subarray(cut)).finish(), whole);
      // The state is still that after the front alone.
      assert.deepEqual(front.finish(), library.check(dump.subarray(0, cut)));
    }
  }
  assert.deepEqual(library.begin().finish(), refused(1, 0));
});

test("the types name the calls and what they give", () => {
  const types = kept("page/library.d.mts").toString();
  const named = (type) => [...types.match(new RegExp(`interface ${type} [^]*?\\n}`))[0].matchAll(/^  (?:readonly )?(\w+)\??[:(]/gm)].map(([, name]) => name);
  const given = ({ refusal, ...found }) => Object.keys(found).sort();
  const isNamed = (type, names, more = []) => assert.deepEqual([...named(type), ...more].sort(), names);
  const methods = (object) => Object.getOwnPropertyNames(Object.getPrototypeOf(object)).filter((name) => name !== "constructor").sort();
  isNamed("Library", methods(library));
  isNamed("Pieces", methods(library.begin()));
  isNamed("Checked", given(library.check(SAMPLE)));
  isNamed("Text", given(library.list(SAMPLE, READING)));
  isNamed("Name", given(library.findName(SAMPLE, 1, NAMES)));
  isNamed("DumpEvent", given(library.event(SAMPLE, 0, NAMES)), named("Name"));
  isNamed("Written", given(library.writeName(new Uint8Array(8), 0, { kind: "event", number: 5, name: new Uint8Array(0) })));
  isNamed("Mended", given(library.mend(SAMPLE)));
  isNamed("Counts", given(library.mend(SAMPLE).counts));
  isNamed("Refusal", given(library.check(CUT).refusal));
});

test("answers cannot be changed", () => {
  for (const answer of [library.check(SAMPLE), library.list(SAMPLE, READING), library.event(SAMPLE, 0), library.check(CUT), library.check(CUT).refusal, library.event(SAMPLE, 0).info, library.mend(CUT).counts]) {
    assert.ok(Object.isFrozen(answer));
  }
});

/** Loads the library over instances whose check stops on the way, and counts them, until they are mended. */
async function withStoppingCheck(use) {
  const { Instance } = WebAssembly;
  const made = { count: 0, stops: true };
  WebAssembly.Instance = function (module) {
    const { exports } = new Instance(module);
    made.count += 1;
    const stop = () => { throw new WebAssembly.RuntimeError("unreachable"); };
    return { exports: { ...exports, lepsaino_check: (...given) => (made.stops ? stop() : exports.lepsaino_check(...given)) } };
  };
  try {
    use(await load(moduleBytes), made);
  } finally {
    WebAssembly.Instance = Instance;
  }
}

test("after a call that stopped on the way the next begins anew", () => withStoppingCheck((stopping, made) => {
  assert.equal(stopping.list(SAMPLE, READING).text, LINES);
  assert.equal(made.count, 1);
  assert.throws(() => stopping.check(SAMPLE), WebAssembly.RuntimeError);
  made.stops = false;
  assert.equal(stopping.check(SAMPLE).events, 3);
  assert.equal(made.count, 2);
}));

test("bytes of another page are bytes, and bytes that were moved away or lie about their length are not taken for others", () => {
  const other = runInNewContext("[Uint8Array, ArrayBuffer]");
  const from = new other[0](SAMPLE);
  for (const dump of [from, from.buffer]) assert.equal(library.list(dump, READING).text, LINES);
  const moved = Uint8Array.from(SAMPLE);
  structuredClone(moved.buffer, { transfer: [moved.buffer] });
  const short = new Uint8Array(new ArrayBuffer(168, { maxByteLength: 168 }), 100);
  short.buffer.resize(50);
  for (const gone of [moved, moved.buffer, short]) {
    const calls = [() => library.check(gone), () => library.mend(gone), () => library.begin().feed(gone), () => library.list(SAMPLE, READING, gone)];
    for (const call of calls) assert.throws(call, TypeError);
  }
  class Longer extends Uint8Array { get length() { return 168; } }
  library.check(SAMPLE);
  assert.deepEqual(library.check(new Longer(SAMPLE.subarray(0, 60))), refused(26, 12));
  assert.throws(() => library.check({ [Symbol.toStringTag]: "ArrayBuffer", length: 168 }), /must be a Uint8Array/);
});

test("a module that cannot be fetched is an error, and one that can is asked for anew", async () => {
  const { fetch } = globalThis;
  const asked = [];
  try {
    globalThis.fetch = async (source, { cache }) => { asked.push([`${source}`, cache]); return new Response(moduleBytes, { status: asked.length === 1 ? 404 : 200 }); };
    await assert.rejects(load("elsewhere.wasm"), /could not be fetched: status 404/);
    assert.equal((await load()).check(SAMPLE).events, 3);
  } finally {
    globalThis.fetch = fetch;
  }
  assert.deepEqual(asked, [["elsewhere.wasm", "no-cache"], [`${new URL("../lepsaino.wasm", import.meta.url)}`, "no-cache"]]);
});

test("another module is not taken for ours", async () => {
  const empty = Uint8Array.of(0, 0x61, 0x73, 0x6d, 1, 0, 0, 0);
  await assert.rejects(load(empty), /this is not lepsaino.wasm: it has no lepsaino_check/);
  const importing = Uint8Array.of(...empty, 2, 8, 1, 1, 0x61, 1, 0x62, 2, 0, 0);
  await assert.rejects(load(importing), /this is not lepsaino.wasm: it has imports/);
  await assert.rejects(load(moduleBytes.subarray(0, 1000)), WebAssembly.CompileError);
  for (const other of [null, 7, {}]) await assert.rejects(load(other), /the module must be/);
});

test("the loader that is given out takes modules of its own version alone", async () => {
  const { load: loadBuilt } = await import(addressOf("library.mjs"));
  const version = Number(kept("include/lepsaino.h").toString().match(/^#define LEPSAINO_VERSION (\d+)$/m)[1]);
  assert.equal((await loadBuilt(moduleBytes)).version, version);
  assert.equal(library.version, version);
  const digits = Buffer.from(`lepsaino.version${version}`);
  const at = moduleBytes.indexOf(digits);
  // Its digits are the last bytes of the module, and the section begins three bytes before its name.
  assert.equal(at + digits.length, moduleBytes.length);
  const other = Buffer.from(moduleBytes);
  other[other.length - 1] ^= 1;
  await assert.rejects(loadBuilt(other), new RegExp(`lepsaino.wasm has version ${version ^ 1}, and library.mjs ${version}$`));
  await assert.rejects(loadBuilt(moduleBytes.subarray(0, at - 3)), new RegExp(`lepsaino.wasm has version null, and library.mjs ${version}$`));
});

/** What a call that always has room enough would have given in less. */
function within(room, answer, size) {
  if (answer.refusal || size(answer) <= room) return { ...answer, changed: 0 };
  return { refusal: { number: 16, place: 0 }, changed: 0 };
}

/** The calls of library.mjs, and those of a raw answerer where a page has none. */
function loadedAnswerer(raw) {
  return {
    check: (dump) => library.check(dump),
    begin: () => library.begin(),
    event: (dump, position, names) => library.event(dump, position, names),
    findName: (dump, pointer, names) => library.findName(dump, pointer, names),
    line: (dump, reading, position, room, names) => within(room, library.line(dump, reading, position, names), ({ text }) => text.length),
    list: (dump, reading, room, names) => within(room, library.list(dump, reading, names), ({ text }) => text.length),
    writeName: (names, offset, thread, number, name) => {
      const { refusal, length } = library.writeName(names, offset, { kind: thread === 0 ? "event" : "thread", number, name });
      return { refusal, value: length };
    },
    mend: (dump, room) => within(room, library.mend(dump), ({ copy }) => copy.length),
    format: (buffer, format) => raw.format(buffer, format),
    record: (buffer, slot) => raw.record(buffer, slot),
    register: (buffer, object, name) => raw.register(buffer, object, name),
    remove: (buffer, pointer) => raw.remove(buffer, pointer),
  };
}

test("the corpus and the cases through the loader", () => {
  const { exports } = new WebAssembly.Instance(new WebAssembly.Module(moduleBytes));
  const answerer = loadedAnswerer(new RawAnswerer(exports));
  for (const { cases, printed } of [CORPUS, CASES]) {
    // Megabytes of text are not to be shown.
    assert.ok(repliesOf(cases.map(kept), answerer).text.equals(kept(printed)), `other replies than ${printed}`);
  }
});
