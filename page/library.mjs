// The proved library in a page: lepsaino.wasm has every call for C, this module those that a page needs. Nothing is sent anywhere.
import { refusalOf } from "./refusals.mjs";

// A longer dump is refused for its length alone, so one byte more than a dump may have is enough of it; of a name file and of a record's name, too.
const DUMP_ROOM = 65537;
// A dump has at most 2,046 events, and a line at most six bytes for each byte of its name, of which there are 64, and for 65 more. One line with two names of
// 65,528 bytes, as a name file may have them, is shorter; 2,046 of them can be longer than any memory here, and are then refused by 16.
const TEXT_ROOM = 2046 * 6 * (64 + 65);
const ANSWER_ROOM = 256;
const STATE_SIZE = 176;
// page/build puts the header's version here: a module of another could be misread.
const VERSION = null;

const CALLS = ["check", "event", "find_name", "line", "listing", "write_name", "mend", "begin", "feed", "finish"];
const CALLS_WITH_NAMES = ["event", "find_name", "line", "listing"].map((name) => `${name}_with_names`);
const CONTEXTS = { 1: "init", 2: "isr", 3: "thread" };
const NAMELESS = 0;
const GONE = 2;
const FILED = 3;
const KINDS = new Map([["event", 0], ["thread", 1]]);

/** A number that a call can take whole: a module cuts off, without a word, what is out of range. */
function whole(name, value, bits) {
  if (typeof value !== "bigint" && !Number.isSafeInteger(value)) {
    throw new TypeError(`${name} must be a whole number: a BigInt, or a number that is a safe integer`);
  }
  const number = BigInt(value);
  const most = (1n << BigInt(bits)) - 1n;
  if (number < 0n || number > most) throw new RangeError(`${name} must be from 0 to ${most}`);
  return number;
}

const TYPED_ARRAY = Object.getPrototypeOf(Uint8Array.prototype);

/** What the language itself knows of an array, whatever page it is from and whatever was defined over it. */
const known = (field, given) => Reflect.get(TYPED_ARRAY, field, given);

function isBuffer(given) {
  try {
    return Reflect.get(ArrayBuffer.prototype, "byteLength", given) >= 0;
  } catch {
    return false;
  }
}

/** The bytes, whole; an array whose bytes were moved elsewhere is an error, and not an empty dump. */
function bytesOf(name, given) {
  if (isBuffer(given)) return new Uint8Array(given);
  if (known(Symbol.toStringTag, given) !== "Uint8Array") throw new TypeError(`${name} must be a Uint8Array or an ArrayBuffer`);
  // Any look at bytes that are no longer there throws.
  Uint8Array.prototype.at.call(given, 0);
  return new Uint8Array(known("buffer", given), known("byteOffset", given), known("length", given));
}

function dumpOf(name, given) {
  return bytesOf(name, given).subarray(0, DUMP_ROOM);
}

/** A name file, which may be empty, or undefined where none is given. */
function namesOf(given) {
  return given === undefined ? undefined : dumpOf("the name file", given);
}

const callFor = (name, names) => (names === undefined ? name : `${name}_with_names`);

/** A reading as C hands it over: its 16 bytes as two words. */
function wordsOf(reading) {
  const { rate, unit, serial } = Object(reading);
  return [whole("rate", rate, 32) | (whole("unit", unit, 32) << 32n), whole("serial", serial, 64)];
}

/** A record as C hands it over: whether it is a thread's, the number, and the name's bytes. */
function recordOf(record) {
  const { kind, number, name } = Object(record);
  if (!KINDS.has(kind)) throw new TypeError('the kind of a record must be "event" or "thread"');
  return { words: [KINDS.get(kind), Number(whole("number", number, 32))], name: dumpOf("the name", name) };
}

const aligned = (at) => Math.ceil(at / 16) * 16;

/** A running module and the places in its memory that are lent to its calls, behind its stack and its constants. */
class Instance {
  constructor(module) {
    const { exports } = new WebAssembly.Instance(module);
    this.calls = exports;
    this.answer = aligned(exports.__heap_base.value);
    this.state = this.answer + ANSWER_ROOM;
    this.dump = this.state + STATE_SIZE;
    this.names = this.dump + aligned(DUMP_ROOM);
    this.out = this.names + aligned(DUMP_ROOM);
    this.bytes = new Uint8Array(exports.memory.buffer);
    this.view = new DataView(exports.memory.buffer);
    if (this.room < TEXT_ROOM) throw new TypeError("the memory of lepsaino.wasm is too small");
  }

  call(name, ...given) {
    this.calls[`lepsaino_${name}`](this.answer, ...given);
  }

  /** All that is left of the memory is the output's. */
  get room() {
    return this.bytes.length - this.out;
  }

  /** Lends bytes at a place: that place, and their length. */
  lent(bytes, place = this.dump) {
    this.bytes.set(bytes, place);
    return [place, BigInt(bytes.length)];
  }

  lentNames(names) {
    return names === undefined ? [] : this.lent(names, this.names);
  }

  lentOutput() {
    return [this.out, BigInt(this.room)];
  }

  lentState(bytes) {
    this.bytes.set(bytes, this.state);
    return this.state;
  }

  stateGiven() {
    return this.bytes.slice(this.answer, this.answer + STATE_SIZE);
  }

  word(at) {
    return this.view.getUint32(this.answer + at, true);
  }

  long(at) {
    return this.view.getBigUint64(this.answer + at, true);
  }

  /** A place, a length or a count, which are all far below 2^53. */
  count(at) {
    return Number(this.long(at));
  }

  /** A refusal, or what an accepted call gave. */
  answered(fields) {
    if (this.word(0) !== 0) return Object.freeze({ refusal: refusalOf(this.word(0), this.count(8)) });
    return Object.freeze({ refusal: null, ...fields() });
  }

  /** What was written at the front of the output: all of it ASCII. */
  text() {
    return { text: new TextDecoder().decode(this.bytes.subarray(this.out, this.out + this.count(16))) };
  }

  /** A name by the places of its kind, its start and its length: a character for each byte, and where it begins in the dump or the name file. */
  named(kind, start, length) {
    if (this.word(kind) === NAMELESS) return { text: null, at: null };
    const at = this.count(start);
    const from = (this.word(kind) === FILED ? this.names : this.dump) + at;
    const bytes = this.bytes.subarray(from, from + this.count(length));
    return { text: Array.from(bytes, (byte) => String.fromCharCode(byte)).join(""), at };
  }

  /** A thread's name; which of the two it lies in is told where there are two. */
  name(names, kind, start, length) {
    const { text, at } = this.named(kind, start, length);
    const name = { name: text, gone: this.word(kind) === GONE, nameAt: at };
    return names === undefined ? name : { ...name, filed: this.word(kind) === FILED };
  }

  /** An event's own name, where there is a file that could have it. */
  ownName(names) {
    if (names === undefined) return {};
    const { text, at } = this.named(80, 88, 96);
    return { event: text, eventAt: at };
  }

  checked() {
    return {
      big: this.word(16) === 1,
      id: this.word(20),
      mask: this.word(24),
      base: this.word(28),
      registryStart: this.word(32),
      nameSize: this.view.getUint16(this.answer + 36, true),
      registryEnd: this.word(40),
      bufferStart: this.word(44),
      bufferEnd: this.word(48),
      current: this.word(52),
      events: this.count(56),
    };
  }

  event(names) {
    return {
      ptr: this.word(16),
      field: this.word(20),
      id: this.word(24),
      stamp: this.word(28),
      info: Object.freeze([this.word(32), this.word(36), this.word(40), this.word(44)]),
      ticks: this.long(48),
      by: CONTEXTS[this.word(56)],
      ...this.name(names, 60, 64, 72),
      ...this.ownName(names),
    };
  }

  /** A record's length; its bytes become the caller's. */
  written(file, offset) {
    const length = this.count(16);
    const from = this.names + offset;
    file.set(this.bytes.subarray(from, from + length), offset);
    return { length };
  }

  mended() {
    return {
      copy: this.bytes.slice(this.out, this.out + this.count(16)),
      counts: Object.freeze({
        missing: this.count(24),
        current: this.count(32),
        types: this.count(40),
        ids: this.count(48),
        packed: this.count(56),
        moved: this.count(64),
      }),
    };
  }
}

/** The state of a check in pieces: it never changes, so it may be kept and fed in two ways. */
class Pieces {
  #bytes;
  #use;

  constructor(bytes, use) {
    this.#bytes = bytes;
    this.#use = use;
  }

  /** The state after one piece more, of any length: as with a dump, one byte more than may come settles all. */
  feed(piece) {
    const given = dumpOf("the piece", piece);
    const fed = this.#use((instance) => {
      instance.call("feed", instance.lentState(this.#bytes), ...instance.lent(given));
      return instance.stateGiven();
    });
    return new Pieces(fed, this.#use);
  }

  /** What `check` gives on all the bytes that were fed. */
  finish() {
    return this.#use((instance) => {
      instance.call("finish", instance.lentState(this.#bytes));
      return instance.answered(() => instance.checked());
    });
  }
}

/** The version that a module tells, in a section of its own. */
function versionOf(module) {
  const [section] = WebAssembly.Module.customSections(module, "lepsaino.version");
  return section === undefined ? null : Number(new TextDecoder().decode(section));
}

/** The calls over a compiled module. Each gives `refusal`, which is null where the call was accepted, and then what it found. */
class Library {
  #module;
  #version;
  #instance;

  constructor(module) {
    if (WebAssembly.Module.imports(module).length !== 0) throw new TypeError("this is not lepsaino.wasm: it has imports");
    const calls = new Set(WebAssembly.Module.exports(module).map(({ name }) => name));
    const missing = [...CALLS, ...CALLS_WITH_NAMES].find((name) => !calls.has(`lepsaino_${name}`));
    if (missing !== undefined) throw new TypeError(`this is not lepsaino.wasm: it has no lepsaino_${missing}`);
    this.#version = versionOf(module);
    if (VERSION !== null && VERSION !== this.#version) throw new TypeError(`lepsaino.wasm has version ${this.#version}, and library.mjs ${VERSION}`);
    this.#module = module;
    this.#instance = new Instance(module);
  }

  // No call is known to stop on the way. Were one to, its frames would stay on the stack: so the next then begins with a new instance.
  #use = (work) => {
    const instance = this.#instance ?? new Instance(this.#module);
    this.#instance = null;
    const result = work(instance);
    this.#instance = instance;
    return result;
  };

  #asked(name, dump, words, fields) {
    return this.#use((instance) => {
      instance.call(name, ...instance.lent(dump), ...words(instance));
      return instance.answered(() => fields(instance));
    });
  }

  #askedForText(name, dump, words, names) {
    const file = namesOf(names);
    const given = (instance) => [...words, ...instance.lentNames(file), ...instance.lentOutput()];
    return this.#asked(callFor(name, file), dumpOf("the dump", dump), given, (instance) => instance.text());
  }

  /** The version of the module. */
  get version() {
    return this.#version;
  }

  /** The byte order, the header's fields and the number of events: checks 1 to 13. */
  check(dump) {
    return this.#asked("check", dumpOf("the dump", dump), () => [], (instance) => instance.checked());
  }

  /** The text of all lines, oldest event first: checks 1 to 15; with a name file then 2, 27, 16. */
  list(dump, reading, names) {
    return this.#askedForText("listing", dump, wordsOf(reading), names);
  }

  /** The line of one event, with its line feed: checks 1 to 15; with a name file then 2, 27; then 25. */
  line(dump, reading, position, names) {
    return this.#askedForText("line", dump, [...wordsOf(reading), whole("position", position, 64)], names);
  }

  /** One event by its position, from 0, oldest first: checks 1 to 13; with a name file then 2, 27; then 25. */
  event(dump, position, names) {
    const place = whole("position", position, 64);
    const file = namesOf(names);
    const words = (instance) => [...instance.lentNames(file), place];
    return this.#asked(callFor("event", file), dumpOf("the dump", dump), words, (instance) => instance.event(file));
  }

  /** The name for a thread's pointer, a live one's or else one's that is gone, or else one of the name file: checks 1 to 11; with a file then 2, 27. */
  findName(dump, pointer, names) {
    const wanted = Number(whole("pointer", pointer, 32));
    const file = namesOf(names);
    const words = (instance) => [...instance.lentNames(file), wanted];
    return this.#asked(callFor("find_name", file), dumpOf("the dump", dump), words, (instance) => instance.name(file, 16, 24, 32));
  }

  /** Writes a record of a name file into bytes of the caller's, at an offset, and gives its length: checks 28, 16. No other byte changes. */
  writeName(names, offset, record) {
    const file = bytesOf("the name file", names);
    const at = whole("offset", offset, 64);
    const { words, name } = recordOf(record);
    return this.#use((instance) => {
      instance.call("write_name", ...instance.lent(file.subarray(0, DUMP_ROOM), instance.names), at, ...words, ...instance.lent(name));
      return instance.answered(() => instance.written(file, Number(at)));
    });
  }

  /** A mended copy of a dump, which passes every check, and what was mended: checks 1 to 9, save 26 for the slots' end. */
  mend(dump) {
    return this.#asked("mend", dumpOf("the dump", dump), (instance) => instance.lentOutput(), (instance) => instance.mended());
  }

  /** The check of a dump in pieces, before any byte. */
  begin() {
    const begun = this.#use((instance) => {
      instance.call("begin");
      return instance.stateGiven();
    });
    return new Pieces(begun, this.#use);
  }
}

/** Loads the module, from where it lies beside this file, from another address, or from its bytes. */
export async function load(source = new URL("lepsaino.wasm", import.meta.url)) {
  if (typeof source !== "string" && !(source instanceof URL)) return new Library(await WebAssembly.compile(bytesOf("the module", source)));
  // A module that the browser kept from an earlier version would be misread.
  const answer = await fetch(source, { cache: "no-cache" });
  if (!answer.ok) throw new Error(`lepsaino.wasm could not be fetched: status ${answer.status}`);
  return new Library(await WebAssembly.compile(await answer.arrayBuffer()));
}
