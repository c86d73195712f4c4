// Reads a listing's lines as docs/RULES.md has them, and refuses every line of another form; no number is kept as a float unless it is safe.
import { refusalOf } from "./refusals.mjs";

const LARGEST_OF_64_BITS = "18446744073709551615";
const LARGEST_OF_32_BITS = "4294967295";
const KEYS_OF_A_UNIT = 1n << 40n;
const MOST_EVENTS = 2046;
const TIMER_RANGE = 1n << 32n;
// 2,045 gaps of 2^32 - 1 ticks.
const LARGEST_TICKS = "8783208118275";
const MICROSECONDS_OF_A_SECOND = 1000000n;
// A zero byte ends a name in a dump; in a name file a name goes to its record's end.
const OF_A_DUMP = { longest: 64, hasZeros: false };
const OF_A_FILE = { longest: 65528, hasZeros: true };

// What the command prints in the place of a listing: the refusal's number and its place, which are small.
const REFUSAL = /^([1-9][0-9]?) (0|[1-9][0-9]{0,14})\n$/;
const PLAIN_DIGITS = /^(?:0|[1-9][0-9]*)$/;
const LEADING_ZEROS = /^0[0-9]+$/;
const NUMBER_TOKEN = /"[^"]*"?|[^",\]}]*/y;
const SHORT_ESCAPE = /\\(["\\])/y;
const BYTE_ESCAPE = /\\u00([0-9a-f]{2})/y;

/** Thrown for a text that is not such a line: the line from 1, the column from 1, and the reason in words. */
export class RefusedLine extends Error {
  constructor(line, column, reason) {
    super(`line ${line}, column ${column}: ${reason}`);
    this.name = "RefusedLine";
    this.line = line;
    this.column = column;
    this.reason = reason;
  }
}

/** Thrown where a refusal was given in the place of a listing: its number, its place, and both in words. */
export class RefusedListing extends Error {
  constructor({ number, place, words }) {
    super(`${number} ${place}: ${words}`);
    this.name = "RefusedListing";
    this.number = number;
    this.place = place;
    this.words = words;
  }
}

/** The refusal that a text is, as the command prints it, or null. */
export function refusalIn(text) {
  const [, number, place] = REFUSAL.exec(text) ?? [];
  return number === undefined ? null : refusalOf(Number(number), Number(place));
}

/** One event, from the text of one line without its line feed. */
export function readLine(text) {
  return readNumberedLine(text, 1);
}

/** All events of a whole listing, whose every line ends in a line feed. Where `events` is given there must be so many: no text and a lost tail look like fewer. */
export function readListing(text, { events: expected } = {}) {
  mustBeText(text);
  const refusal = refusalIn(text);
  if (refusal !== null) throw new RefusedListing(refusal);
  const lines = text.split("\n");
  const rest = lines.pop();
  if (rest !== "") {
    throw new RefusedLine(lines.length + 1, rest.length + 1, "the last line is cut off: it does not end in a line feed");
  }
  if (lines.length > MOST_EVENTS) {
    throw new RefusedLine(MOST_EVENTS + 1, 1, `a listing has at most ${MOST_EVENTS} lines`);
  }
  if (expected !== undefined) checkCount(lines.length, countIn(expected));
  const events = lines.map((line, index) => readNumberedLine(line, index + 1));
  events.forEach((event, index) => checkKeyAfter(events, index));
  events.forEach((event, index) => checkMembers(events, index));
  events.forEach((event, index) => checkTicksAfter(events, index));
  return events;
}

function countIn(expected) {
  if (typeof expected === "bigint" || Number.isSafeInteger(expected)) return BigInt(expected);
  if (typeof expected === "string" && PLAIN_DIGITS.test(expected)) return BigInt(expected);
  throw new TypeError("the number of events must be a whole number, or its digits");
}

function checkCount(count, expected) {
  if (BigInt(count) !== expected) throw new RefusedLine(count + 1, 1, `the number of events is ${count}: expected ${expected}`);
}

// The keys before this one are consecutive, so one in their range is one of them.
function checkKeyAfter(events, index) {
  if (index === 0) return;
  const first = events[0].key;
  const expected = first + BigInt(index);
  const { key } = events[index];
  const refuse = (reason) => { throw new RefusedLine(index + 1, 1, reason); };
  if (key >= first && key < expected) refuse(`the key ${key} is that of line ${key - first + 1n} already`);
  if (key !== expected) refuse(`the key ${key} does not follow ${expected - 1n}: keys go up by one`);
  if (key % KEYS_OF_A_UNIT === 0n) refuse(`the key ${key} belongs to the next unit`);
}

// Ticks are the sum of the gaps since the oldest event, and a gap is less than the range of the widest timer.
function checkTicksAfter(events, index) {
  const { ticks } = events[index];
  const refuse = (reason) => { throw new RefusedLine(index + 1, 1, reason); };
  if (index === 0) {
    if (ticks !== 0n) refuse(`the oldest event has ${ticks} ticks: expected 0`);
    return;
  }
  const before = events[index - 1].ticks;
  if (ticks < before) refuse(`the ticks go back from ${before} to ${ticks}`);
  if (ticks - before >= TIMER_RANGE) refuse(`the ticks leap from ${before} to ${ticks}: a gap is below ${TIMER_RANGE}`);
}

// A listing is made with a name file or without one, so either every line tells its event's name or none does.
function checkMembers(events, index) {
  const { event } = events[index];
  if ((event === undefined) === (events[0].event === undefined)) return;
  const [here, first] = event === undefined ? ["no", "one"] : ["an", "none"];
  throw new RefusedLine(index + 1, 1, `the line has ${here} "event", and the first line has ${first}`);
}

function mustBeText(text) {
  if (typeof text !== "string") throw new RefusedLine(1, 1, "what was given is not a text");
}

function readNumberedLine(text, line) {
  mustBeText(text);
  const scanner = new Scanner(text, line);
  const keyText = scanner.after('{"key":').digits();
  const ticks = BigInt(scanner.after(',"ticks":').atMost(LARGEST_TICKS));
  // The slowest clock has a rate of 1.
  const us = BigInt(scanner.after(',"us":').atMost(`${ticks * MICROSECONDS_OF_A_SECOND}`));
  const id = scanner.after(',"id":').wordFromOne();
  const own = scanner.ownName();
  const ptr = scanner.after(',"ptr":').wordFromOne();
  const by = contextOf(ptr);
  scanner.after(`,"by":"${by}"`);
  const name = scanner.after(',"name":').threadName(by, own === undefined ? OF_A_DUMP : OF_A_FILE);
  const gone = scanner.after(',"gone":').gone(name);
  const field = scanner.after(',"field":').word();
  const info = [scanner.after(',"info":[').word()];
  while (info.length < 4) info.push(scanner.after(",").word());
  scanner.after("]}").end();
  const event = own === undefined ? {} : { event: own };
  return Object.freeze({
    key: BigInt(keyText), keyText, ticks, us, id, ...event, ptr, by, name, gone, field, info: Object.freeze(info),
  });
}

function contextOf(pointer) {
  if (pointer === 0xf0f0f0f0) return "init";
  return pointer === 0xffffffff ? "isr" : "thread";
}

// Plain digits compare by their count and then as text, without becoming a number.
function isAtMost(digits, limit) {
  return digits.length < limit.length || (digits.length === limit.length && digits <= limit);
}

function isOfADump(name) {
  return name.length <= OF_A_DUMP.longest && !name.includes("\0");
}

function isPrintedAsItself(code) {
  return code >= 0x20 && code <= 0x7e;
}

/** A place in one line; each method takes the next part of the line or refuses the line. */
class Scanner {
  constructor(text, line) {
    this.text = text;
    this.line = line;
    this.at = 0;
  }

  refuse(reason) {
    throw new RefusedLine(this.line, this.at + 1, reason);
  }

  /** The next characters that fit a sticky pattern, not yet taken. */
  match(pattern) {
    pattern.lastIndex = this.at;
    return pattern.exec(this.text);
  }

  /** The next characters as a reason shows them. */
  next() {
    return shown(this.text.slice(this.at, this.at + 40));
  }

  after(expected) {
    if (!this.text.startsWith(expected, this.at)) {
      this.refuse(`expected ${expected} but found ${this.next()}`);
    }
    this.at += expected.length;
    return this;
  }

  end() {
    if (this.at !== this.text.length) this.refuse("text follows the end of the line's object");
  }

  /** The checked digits of a whole number, bare or in quotes. */
  digits() {
    const [token] = this.match(NUMBER_TOKEN);
    if (token === "") this.refuse("expected a number");
    const quoted = token.startsWith('"');
    if (quoted && (token.length === 1 || !token.endsWith('"'))) this.refuse("a quoted number is cut off");
    const digits = quoted ? token.slice(1, -1) : token;
    const reason = reasonAgainst(digits) ?? (quoted ? reasonAgainstQuoted(digits) : reasonAgainstBare(digits));
    if (reason) this.refuse(`the number ${shown(token)} ${reason}`);
    this.at += token.length;
    return digits;
  }

  /** The checked digits of a number that is never above a limit. */
  atMost(limit) {
    const start = this.at;
    const digits = this.digits();
    if (!isAtMost(digits, limit)) {
      this.at = start;
      this.refuse(`the number ${digits} is above ${limit}, the most that can stand here`);
    }
    return digits;
  }

  /** A number of 32 bits, which a float holds exactly. */
  word() {
    return Number(this.atMost(LARGEST_OF_32_BITS));
  }

  /** An event has an id, and its slot is in use: neither word is 0. */
  wordFromOne() {
    if (this.text.startsWith("0,", this.at)) this.refuse("this number is never 0");
    return this.word();
  }

  /** The event's own name or null, and undefined in a line that was made without a name file. */
  ownName() {
    const member = ',"event":';
    return this.text.startsWith(member, this.at) ? this.after(member).name(OF_A_FILE) : undefined;
  }

  threadName(context, source) {
    if (context === "init" && !this.text.startsWith("null", this.at)) this.refuse("an init event has no name: expected null");
    return this.name(source);
  }

  /** A name that a source may have, or null. */
  name(source) {
    if (this.text.startsWith("null", this.at)) {
      this.at += 4;
      return null;
    }
    this.after('"');
    let name = "";
    while (this.text[this.at] !== '"') {
      if (name.length === source.longest) this.refuse(`the name is longer than ${source.longest} bytes`);
      name += this.nameCharacter(source);
    }
    this.at += 1;
    return name;
  }

  /** Whether the name is that of a removed thread, which the dump alone can tell; where there is no name, it never is. */
  gone(name) {
    const text = ["true", "false"].find((each) => this.text.startsWith(each, this.at));
    if (text === undefined) this.refuse(`expected true or false but found ${this.next()}`);
    if (text === "true" && name === null) this.refuse("there is no name, so none is gone: expected false");
    if (text === "true" && !isOfADump(name)) this.refuse("no dump has such a name, so it is not gone: expected false");
    this.at += text.length;
    return text === "true";
  }

  nameCharacter(source) {
    const character = this.text[this.at];
    if (character === undefined) this.refuse("the name is cut off");
    if (!isPrintedAsItself(character.charCodeAt(0))) this.refuse("the name holds a character that must be escaped");
    if (character !== "\\") {
      this.at += 1;
      return character;
    }
    return this.escaped(source);
  }

  escaped(source) {
    const short = this.match(SHORT_ESCAPE);
    if (short) {
      this.at += 2;
      return short[1];
    }
    const long = this.match(BYTE_ESCAPE);
    if (!long) this.refuse('the name holds an escape other than \\", \\\\ and \\u00 with two lowercase hex digits');
    const code = parseInt(long[1], 16);
    if (isPrintedAsItself(code)) this.refuse(`the name holds ${long[0]}, a byte that is not printed so`);
    if (code === 0 && !source.hasZeros) this.refuse("the name holds a zero byte, which ends a name");
    this.at += long[0].length;
    return String.fromCharCode(code);
  }
}

function reasonAgainst(digits) {
  if (digits === "") return "has no digits";
  if (LEADING_ZEROS.test(digits)) return "has leading zeros";
  if (!PLAIN_DIGITS.test(digits)) return "is not plain digits: no sign, fraction, exponent or space is allowed";
  return null;
}

// No other whole number has the double of a safe one, so digits whose double is safe are that number's.
function isPrintedBare(digits) {
  return Number.isSafeInteger(Number(digits));
}

function reasonAgainstBare(digits) {
  return isPrintedBare(digits) ? null : `is bare and above ${Number.MAX_SAFE_INTEGER}: a float may have changed it`;
}

function reasonAgainstQuoted(digits) {
  if (isPrintedBare(digits)) return `is in quotes though not above ${Number.MAX_SAFE_INTEGER}`;
  return isAtMost(digits, LARGEST_OF_64_BITS) ? null : "does not fit 64 bits";
}

function shown(text) {
  if (text === "") return "the end of the line";
  return text.length > 40 ? `${text.slice(0, 40)}...` : text;
}
