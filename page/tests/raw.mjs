// The module's calls, each made as hostilely as the header for C allows.

const STACK_SIZE = 196608;
// Looked at after each call is the upper part of the stack, more than any call is known to take; the rest when all is over.
const LOOKED_AT_FROM = STACK_SIZE - 144 * 1024;
// A dump, a buffer, a name file or a name: at most two to a call, each with its margins.
const LONGEST_LENT = 70000;
const MOST_LENT = 2;
const LONGEST_OUTPUT = 1599000;
const STATE_SIZE = 176;
const MARGIN = 64;

const POISON = Buffer.alloc(STACK_SIZE, 0xa5);
const DOTS = Buffer.alloc(LONGEST_OUTPUT + MARGIN, ".");
const GUARD = Buffer.from(Array.from({ length: MARGIN }, (none, index) => (index * 37 + 11) % 256));

// The answers' sizes, and the padding between the fields behind the place, which may hold anything.
const ANSWER = { size: 24, padding: [] };
const CHECKED = { size: 64, padding: [38, 39] };
const EVENT = { size: 104, padding: [84, 85, 86, 87] };
const FOUND = { size: 40, padding: [20, 21, 22, 23] };
const MENDED = { size: 72, padding: [] };
const BEHIND_PLACE = 16;

const ORDERS = [false, true];
const CONTEXTS = [undefined, "init", "isr", "thread"];
const [NAMELESS, LIVE, GONE, FILED] = [0, 1, 2, 3];

/** The first place from a start on at which two stretches of bytes differ, or else their end. Found by halving: whole stretches are compared fast. */
export function firstDifference(one, other, start = 0, end = Math.min(one.length, other.length)) {
  if (one.compare(other, start, end, start, end) === 0) return end;
  let [same, differing] = [start, end];
  while (differing - same > 1) {
    const middle = (same + differing) >> 1;
    if (one.compare(other, same, middle, same, middle) === 0) same = middle;
    else differing = middle;
  }
  return same;
}

/** Each of these is another call where a name file is given. */
const callFor = (name, names) => (names === undefined ? name : `${name}_with_names`);

const aligned = (at) => Math.ceil(at / 16) * 16;

/** A state of a check in pieces: the bytes of its struct. */
class RawPieces {
  constructor(answerer, bytes) {
    this.answerer = answerer;
    this.bytes = bytes;
  }

  feed(piece) {
    return new RawPieces(this.answerer, this.answerer.fed(this.bytes, piece));
  }

  finish() {
    return this.answerer.finished(this.bytes);
  }
}

/**
 * The calls that an instance of the module exports, with answers in the form of library.mjs. Before each call the stack, the
 * room around the structs, and 64 bytes on each side of all other bytes that are lent are set to known bytes. A call that changes one of them, or a
 * byte that is lent to be read, or gives an answer that the header rules out, throws; bytes changed past the output are counted.
 */
export class RawAnswerer {
  #calls;
  #bytes;
  #before;
  // The lowest byte of the stack that each call took so far, and that of the last call, from which the poison is put anew.
  #lowest = new Map();
  #lastLowest = 0;
  // What the next call is lent: the places that it may change, and where the last of it ends.
  #changing;
  #end;
  // The places in memory, in their order: bytes that are lent lie one behind the other, the dump or the buffer first.
  #answer;
  #struct;
  #first;
  #out;

  constructor(exports) {
    this.#calls = exports;
    this.#bytes = Buffer.from(exports.memory.buffer);
    const base = exports.__heap_base.value;
    if (base < STACK_SIZE) throw new Error("the stack is not the front of the module's memory");
    // No better aligned than C asks: structs to 8 bytes, bytes not at all.
    this.#answer = aligned(base) + 2 * MARGIN + 8;
    this.#struct = this.#answer + STATE_SIZE + MARGIN;
    this.#first = this.#struct + STATE_SIZE + 2 * MARGIN + 1;
    this.#out = this.#first + MOST_LENT * (LONGEST_LENT + 2 * MARGIN) + 1;
    if (this.#out + LONGEST_OUTPUT + MARGIN > this.#bytes.length) throw new Error("the module's memory is too small for the longest output");
    this.#before = Buffer.alloc(this.#out);
  }

  /** The most bytes of stack that each call took, by its name. Bytes at the end that a call takes and does not write are not seen. */
  get stack() {
    if (this.#bytes.compare(POISON, 0, LOOKED_AT_FROM, 0, LOOKED_AT_FROM) !== 0) throw new Error("a call took more stack than was looked at");
    return new Map([...this.#lowest].map(([name, at]) => [name, STACK_SIZE - at]));
  }

  // Lending. A null pointer is allowed where there are no bytes.

  #freshen() {
    this.#bytes.fill(POISON[0], this.#lastLowest, STACK_SIZE);
    this.#bytes.fill(POISON[0], this.#answer - MARGIN, this.#first - MARGIN);
    this.#changing = [];
    this.#end = this.#first - MARGIN;
  }

  #lendToRead(bytes) {
    const place = this.#end + MARGIN;
    this.#end = place + bytes.length + MARGIN;
    if (this.#end > this.#out - MARGIN) throw new Error(`there is no room to lend ${bytes.length} bytes`);
    this.#bytes.set(GUARD, place - MARGIN);
    this.#bytes.set(bytes, place);
    this.#bytes.set(GUARD, place + bytes.length);
    return [bytes.length === 0 ? 0 : place, BigInt(bytes.length)];
  }

  #lendToChange(bytes) {
    this.#changing.push([this.#end + MARGIN, bytes.length]);
    return this.#lendToRead(bytes);
  }

  #lendNames(names) {
    return names === undefined ? [] : this.#lendToRead(names);
  }

  /** Room for so many bytes: dots, and more behind them. */
  #lendRoom(room) {
    this.#bytes.set(GUARD, this.#out - MARGIN);
    this.#bytes.fill(DOTS[0], this.#out, this.#out + room + MARGIN);
    return [this.#out, BigInt(room)];
  }

  /** A struct of so many bytes, which is the call's own. The fields are put in by their places. */
  #lendStruct(size, put) {
    this.#changing.push([this.#struct, size]);
    put(this.#bytes.subarray(this.#struct, this.#struct + size));
    return this.#struct;
  }

  // Looking

  #measureStack(name) {
    const known = this.#lowest.get(name) ?? STACK_SIZE;
    this.#lastLowest = firstDifference(this.#bytes, POISON, LOOKED_AT_FROM, known);
    this.#lowest.set(name, this.#lastLowest);
  }

  /** From the constants behind the stack to the last guard, only what was lent to be changed may have changed. */
  #lookAround(name) {
    for (const [at, size] of this.#changing) this.#bytes.copy(this.#before, at, at, at + size);
    const at = firstDifference(this.#bytes, this.#before, STACK_SIZE, this.#end);
    if (at === this.#end) return;
    throw new Error(`lepsaino_${name} changed the byte at ${at}: the answer is at ${this.#answer}, the first bytes lent are at ${this.#first}`);
  }

  /** Makes a call on what is lent to it, and looks at what it must leave alone. */
  #make(name, lend) {
    this.#freshen();
    const given = lend();
    this.#bytes.copy(this.#before, STACK_SIZE, STACK_SIZE, this.#end);
    const result = this.#calls[`lepsaino_${name}`](...given);
    this.#measureStack(name);
    this.#lookAround(name);
    return result;
  }

  #word(at) {
    return this.#bytes.readUInt32LE(this.#answer + at);
  }

  #long(at) {
    return this.#bytes.readBigUInt64LE(this.#answer + at);
  }

  /** The field at a place is an index of what it stands for. */
  #oneOf(meanings, at) {
    const meaning = meanings[this.#word(at)];
    if (meaning === undefined) throw new Error(`the field at ${at} of an answer is ${this.#word(at)}`);
    return meaning;
  }

  #mustBeZeros(name, { size, padding }) {
    for (let at = BEHIND_PLACE; at < size; at += 1) {
      const isZero = this.#bytes[this.#answer + at] === 0;
      if (!isZero && !padding.includes(at)) throw new Error(`lepsaino_${name} refused, and byte ${at} of its answer is not 0`);
    }
  }

  /** A refusal, or what an accepted call gave. */
  #ask(name, layout, lend, fields) {
    this.#make(name, () => {
      this.#changing.push([this.#answer, layout.size]);
      return [this.#answer, ...lend()];
    });
    const [number, place] = [this.#word(0), this.#long(8)];
    if (number === 0 && place !== 0n) throw new Error(`lepsaino_${name} accepted, and its place is ${place}`);
    if (number === 0) return { refusal: null, ...fields() };
    this.#mustBeZeros(name, layout);
    return { refusal: { number, place } };
  }

  #checked() {
    return {
      big: this.#oneOf(ORDERS, 16),
      id: this.#word(20),
      mask: this.#word(24),
      base: this.#word(28),
      registryStart: this.#word(32),
      nameSize: this.#bytes.readUInt16LE(this.#answer + 36),
      registryEnd: this.#word(40),
      bufferStart: this.#word(44),
      bufferEnd: this.#word(48),
      current: this.#word(52),
      events: this.#long(56),
    };
  }

  /** A name by the places of its kind, its start and its length, as a part of the dump or of the name file. */
  #named(dump, names, kinds, [kindAt, startAt, lengthAt]) {
    const kind = this.#oneOf(kinds, kindAt);
    const [start, length] = [this.#long(startAt), this.#long(lengthAt)];
    if (kind === NAMELESS && (start !== 0n || length !== 0n)) throw new Error("there is no name, and its place or its length is not 0");
    if (kind === NAMELESS) return { kind, text: null, at: null };
    const source = kind === FILED ? names : dump;
    if (source === undefined || start + length > BigInt(source.length)) throw new Error("a name lies outside of the dump and of the name file");
    const at = Number(start);
    return { kind, text: source.latin1Slice(at, at + Number(length)), at };
  }

  /** A thread's name; without a name file none can lie there. */
  #threadName(dump, names, places) {
    const kinds = names === undefined ? [NAMELESS, LIVE, GONE] : [NAMELESS, LIVE, GONE, FILED];
    const { kind, text, at } = this.#named(dump, names, kinds, places);
    return { name: text, gone: kind === GONE, nameAt: at, filed: kind === FILED };
  }

  /** An event's own name lies in the name file; without one its three fields are 0. */
  #ownName(names) {
    const kinds = names === undefined ? [NAMELESS] : [NAMELESS, undefined, undefined, FILED];
    const { text, at } = this.#named(undefined, names, kinds, [80, 88, 96]);
    return names === undefined ? {} : { event: text, eventAt: at };
  }

  #shownEvent(dump, names) {
    return {
      ptr: this.#word(16),
      field: this.#word(20),
      id: this.#word(24),
      stamp: this.#word(28),
      info: [this.#word(32), this.#word(36), this.#word(40), this.#word(44)],
      ticks: this.#long(48),
      by: this.#oneOf(CONTEXTS, 56),
      ...this.#threadName(dump, names, [60, 64, 72]),
      ...this.#ownName(names),
    };
  }

  #counts() {
    return {
      missing: this.#long(24),
      current: this.#long(32),
      types: this.#long(40),
      ids: this.#long(48),
      packed: this.#long(56),
      moved: this.#long(64),
    };
  }

  /** What was written of the output, and how many bytes changed past it. */
  #output(room, length) {
    if (length > BigInt(room)) throw new Error(`${length} bytes cannot have been written into room for ${room}`);
    if (this.#bytes.compare(GUARD, 0, MARGIN, this.#out - MARGIN, this.#out) !== 0) throw new Error("a byte before the output changed");
    const [end, limit] = [this.#out + Number(length), this.#out + room + MARGIN];
    return { bytes: this.#bytes.subarray(this.#out, end), changed: this.#countChanged(end, limit) };
  }

  #countChanged(from, to) {
    if (this.#bytes.compare(DOTS, 0, to - from, from, to) === 0) return 0;
    return this.#bytes.subarray(from, to).reduce((count, byte) => count + (byte === DOTS[0] ? 0 : 1), 0);
  }

  #askForOutput(name, layout, room, lend, fields) {
    const answer = this.#ask(name, layout, lend, () => ({ length: this.#long(16), ...fields() }));
    const { bytes, changed } = this.#output(room, answer.length ?? 0n);
    return { ...answer, bytes, changed };
  }

  #askForText(name, dump, { rate, unit, serial }, position, room, names) {
    const words = [BigInt(rate) | (BigInt(unit) << 32n), serial, ...position];
    const lend = () => [...this.#lendToRead(dump), ...words, ...this.#lendNames(names), ...this.#lendRoom(room)];
    const { refusal, bytes, changed } = this.#askForOutput(callFor(name, names), ANSWER, room, lend, () => ({}));
    return refusal ? { refusal, changed } : { refusal, text: bytes.latin1Slice(), changed };
  }

  /** A call that changes the buffer, or the name file, where it accepts. */
  #askToChange(name, buffer, lend) {
    const answer = this.#ask(name, ANSWER, () => [...this.#lendToChange(buffer), ...lend()], () => ({ value: this.#long(16) }));
    buffer.set(this.#bytes.subarray(this.#first, this.#first + buffer.length));
    return answer;
  }

  #askForState(name, lend) {
    this.#make(name, () => {
      this.#changing.push([this.#answer, STATE_SIZE]);
      return [this.#answer, ...lend()];
    });
    return Buffer.from(this.#bytes.subarray(this.#answer, this.#answer + STATE_SIZE));
  }

  #lendState(state) {
    return this.#lendStruct(STATE_SIZE, (struct) => struct.set(state));
  }

  // The calls, in the header's order

  check(dump) {
    return this.#ask("check", CHECKED, () => this.#lendToRead(dump), () => this.#checked());
  }

  begin() {
    return new RawPieces(this, this.#askForState("begin", () => []));
  }

  fed(state, piece) {
    return this.#askForState("feed", () => [this.#lendState(state), ...this.#lendToRead(piece)]);
  }

  finished(state) {
    return this.#ask("finish", CHECKED, () => [this.#lendState(state)], () => this.#checked());
  }

  event(dump, position, names) {
    const lend = () => [...this.#lendToRead(dump), ...this.#lendNames(names), position];
    return this.#ask(callFor("event", names), EVENT, lend, () => this.#shownEvent(dump, names));
  }

  findName(dump, pointer, names) {
    const lend = () => [...this.#lendToRead(dump), ...this.#lendNames(names), pointer];
    return this.#ask(callFor("find_name", names), FOUND, lend, () => this.#threadName(dump, names, [16, 24, 32]));
  }

  line(dump, reading, position, room, names) {
    return this.#askForText("line", dump, reading, [position], room, names);
  }

  list(dump, reading, room, names) {
    return this.#askForText("listing", dump, reading, [], room, names);
  }

  writeName(names, offset, thread, number, name) {
    return this.#askToChange("write_name", names, () => [offset, thread, number, ...this.#lendToRead(name)]);
  }

  /** The text of a number, its length as the call gave it, and how many bytes changed past it. */
  number(number, room) {
    const length = this.#make("number", () => [...this.#lendRoom(room), number]);
    const { bytes, changed } = this.#output(room, BigInt.asUintN(64, length));
    return { text: bytes.latin1Slice(), changed };
  }

  mend(dump, room) {
    const lend = () => [...this.#lendToRead(dump), ...this.#lendRoom(room)];
    const { bytes, length, ...answer } = this.#askForOutput("mend", MENDED, room, lend, () => ({ counts: this.#counts() }));
    return { ...answer, copy: Buffer.from(bytes) };
  }

  format(buffer, { big, base, mask, nameSize, entries }) {
    return this.#askToChange("format", buffer, () => [this.#lendStruct(24, (struct) => {
      [big, base, mask].forEach((word, index) => struct.writeUInt32LE(word, 4 * index));
      struct.writeUInt16LE(nameSize, 12);
      struct.writeBigUInt64LE(entries, 16);
    })]);
  }

  record(buffer, slot) {
    return this.#askToChange("record", buffer, () => [this.#lendStruct(32, (struct) => {
      slot.forEach((word, index) => struct.writeUInt32LE(word, 4 * index));
    })]);
  }

  register(buffer, { type, words, reserved }, name) {
    return this.#askToChange("register", buffer, () => [this.#lendStruct(20, (struct) => {
      struct.writeUInt8(type, 0);
      words.forEach((word, index) => struct.writeUInt32LE(word, 4 + 4 * index));
      struct.set(reserved, 16);
    }), ...this.#lendToRead(name)]);
  }

  remove(buffer, pointer) {
    return this.#askToChange("remove", buffer, () => [pointer]);
  }
}
