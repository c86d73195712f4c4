// The replies to a file of cases, as the programs of cases print them, whoever answers the calls.
import { casesIn } from "./cases.mjs";

const BASE = 511;
const PRIME = 36028797018963913n;
const LOW_PART = 2 ** 26;
const HIGH_PART = 2 ** 29;
const MOST_IN_HEX = 1024;

/**
 * The bytes as digits to the base 511, modulo a prime before each step. The prime is 2^55 - 55, so what is above 55 bits counts 55 times below.
 * Two bytes are a step here, and the total is kept in two parts, which are always safe integers.
 */
function workedOut(bytes) {
  if (bytes.length === 0) return 1n;
  const last = bytes.length - 1;
  const odd = last % 2;
  let [high, low] = [0, odd ? BASE + bytes[0] : 1];
  for (let at = odd; at < last; at += 2) {
    low = low * BASE ** 2 + bytes[at] * BASE + bytes[at + 1];
    const carry = Math.floor(low / LOW_PART);
    high = high * BASE ** 2 + carry;
    const above = Math.floor(high / HIGH_PART);
    low += above * 55 - carry * LOW_PART;
    high -= above * HIGH_PART;
  }
  const total = (BigInt(high) * BigInt(LOW_PART) + BigInt(low)) % PRIME;
  return total * BigInt(BASE) + BigInt(bytes[last]);
}

const remembered = [];
const MOST_REMEMBERED = 4;

/** The digest of a buffer or a name file. Most calls leave both as they were, so the latest digests are remembered. */
function digest(bytes) {
  const known = remembered.find((each) => each.bytes.equals(bytes));
  if (known !== undefined) return known.digest;
  remembered.unshift({ bytes: Buffer.from(bytes), digest: workedOut(bytes) });
  remembered.length = Math.min(remembered.length, MOST_REMEMBERED);
  return remembered[0].digest;
}

const refused = ({ number, place }) => `${number} ${place}`;
const escaped = (character) => (/["\\]/.test(character) ? `\\${character}` : `\\u00${character.charCodeAt(0).toString(16).padStart(2, "0")}`);
const quoted = (name) => `"${name.replace(/["\\]|[^ -~]/g, escaped)}"`;
const kindOf = ({ gone, filed }) => (filed ? "filed" : gone ? "gone" : "live");
const called = (given) => (given.name === null ? "null" : `${quoted(given.name)} ${kindOf(given)}`);

function verdict(checked) {
  if (checked.refusal) return refused(checked.refusal);
  const { big, id, mask, base, registryStart, nameSize, registryEnd, bufferStart, bufferEnd, current, events } = checked;
  return [big ? "big" : "little", id, mask, base, registryStart, nameSize, registryEnd, bufferStart, bufferEnd, current, events].join(" ");
}

function shownEvent(event) {
  if (event.refusal) return refused(event.refusal);
  const { ptr, field, id, stamp, info, ticks, by, event: own } = event;
  const ownName = own === undefined ? [] : [called({ name: own, filed: true })];
  return [ptr, field, id, stamp, ...info, ticks, by, called(event), ...ownName].join(" ");
}

function foundName(found) {
  if (found.refusal) return `${refused(found.refusal)} 0`;
  return found.name === null ? "null 0" : `${called(found)} ${found.name.length} ${found.nameAt}`;
}

function written({ refusal, text, changed }) {
  return refusal ? `${refused(refusal)} ${changed}\n` : `${text.length} ${changed}\n${text}`;
}

function mendedCopy({ refusal, copy, counts, changed }, answerer) {
  if (refusal) return `${refused(refusal)} ${changed}`;
  const { missing, current, types, ids, packed, moved } = counts;
  const told = [copy.length, missing, current, types, ids, packed, moved, changed, digest(copy)].join(" ");
  return `${told}\n${verdict(answerer.check(copy))}`;
}

/** One piece of so many bytes, an empty one, and then pieces of a step. */
function checkedInPieces(answerer, dump, first, step) {
  const cut = Math.min(first, dump.length);
  let state = answerer.begin().feed(dump.subarray(0, cut)).feed(dump.subarray(0, 0));
  for (let at = cut; at < dump.length; at += step) state = state.feed(dump.subarray(at, at + step));
  return state.finish();
}

const outcome = ({ refusal, value }, buffer) => `${refusal ? refused(refusal) : `done ${value}`} ${digest(buffer)}`;

// The reply to a call by its letter, with the case's name file where the call is made with one.
const FORMS = {
  c: (answerer, { buffer }) => `${verdict(answerer.check(buffer))}\n`,
  p: (answerer, { buffer }, first, step) => `${verdict(checkedInPieces(answerer, buffer, first, step))}\n`,
  e: (answerer, { buffer }, position) => `${shownEvent(answerer.event(buffer, position))}\n`,
  E: (answerer, { buffer, names }, position) => `${shownEvent(answerer.event(buffer, position, names))}\n`,
  n: (answerer, { buffer }, pointer) => `${foundName(answerer.findName(buffer, pointer))}\n`,
  N: (answerer, { buffer, names }, pointer) => `${foundName(answerer.findName(buffer, pointer, names))}\n`,
  l: (answerer, { buffer }, reading, position, room) => written(answerer.line(buffer, reading, position, room)),
  L: (answerer, { buffer, names }, reading, position, room) => written(answerer.line(buffer, reading, position, room, names)),
  a: (answerer, { buffer }, reading, room) => written(answerer.list(buffer, reading, room)),
  A: (answerer, { buffer, names }, reading, room) => written(answerer.list(buffer, reading, room, names)),
  m: (answerer, { buffer }, room) => `${mendedCopy(answerer.mend(buffer, room), answerer)}\n`,
  b: (answerer, { buffer }) => `${buffer.length <= MOST_IN_HEX ? buffer.toString("hex") : ""}\n`,
  f: (answerer, { buffer }, format) => `${outcome(answerer.format(buffer, format), buffer)}\n`,
  w: (answerer, { buffer }, slot) => `${outcome(answerer.record(buffer, slot), buffer)}\n`,
  o: (answerer, { buffer }, object, name) => `${outcome(answerer.register(buffer, object, name), buffer)}\n`,
  x: (answerer, { buffer }, pointer) => `${outcome(answerer.remove(buffer, pointer), buffer)}\n`,
  r: (answerer, { names }, thread, number, offset, name) => `${outcome(answerer.writeName(names, offset, thread, number, name), names)}\n`,
};

/** What is printed for each case, one after another; the cases themselves stay as they are. */
function* repliesTo(cases, answerer) {
  for (const { title, buffer, names, calls } of cases) {
    const changing = { buffer: Buffer.from(buffer), names: Buffer.from(names) };
    const replies = [`${title}: ${digest(changing.buffer)} ${digest(changing.names)}\n`];
    for (const { letter, given } of calls) replies.push(FORMS[letter](answerer, changing, ...given));
    yield replies.join("");
  }
}

/** All that is printed for files of cases, one after another, and how many calls they have. */
export function repliesOf(files, answerer) {
  const cases = files.flatMap(casesIn);
  const text = Buffer.from([...repliesTo(cases, answerer)].join(""), "latin1");
  return { text, calls: cases.reduce((count, { calls }) => count + calls.length, 0) };
}
