// A reader and a recorder of dumps in plain JavaScript, as a page's developer would write them by hand.
const ID = 0x54585442;
export const LIMIT = 2n ** 53n;

export class Refused extends Error {
  constructor(number, place = 0) {
    super(`${number} ${place}`);
  }
}

function orderOf(view) {
  if (view.getUint32(0, true) === ID) return true;
  if (view.getUint32(0, false) === ID) return false;
  throw new Refused(3);
}

/** An end past any dump has the number, one past this dump 26 with the count of missing bytes. A sound end is tested once. */
function past(number, end, length) {
  return end > 65536 ? new Refused(number) : new Refused(26, end - length);
}

/** Checks 1 to 7, 26, 8, 9, 26 and 10; the places come back as offsets. */
function readHeader(bytes) {
  if (bytes.length < 48) throw new Refused(1);
  if (bytes.length > 65536) throw new Refused(2);
  const view = new DataView(bytes.buffer, bytes.byteOffset, bytes.length);
  const little = orderOf(view);
  const mask = view.getUint32(4, little);
  if (mask === 0 || (mask & (mask + 1)) !== 0) throw new Refused(4);
  const nameSize = view.getUint16(18, little);
  if (nameSize < 4 || nameSize > 64 || nameSize % 4 !== 0) throw new Refused(5);
  const base = view.getUint32(8, little);
  const offset = (at) => (view.getUint32(at, little) - base) >>> 0;
  if (offset(12) !== 48) throw new Refused(6);
  const entrySize = 16 + nameSize;
  const start = offset(20);
  if (start < 48 || (start - 48) % entrySize !== 0) throw new Refused(7);
  if (start > bytes.length) throw past(7, start, bytes.length);
  if (offset(24) !== start) throw new Refused(8);
  const end = offset(28);
  if (end <= start || (end - start) % 32 !== 0) throw new Refused(9);
  if (end > bytes.length) throw past(9, end, bytes.length);
  const current = offset(32);
  if (current < start || current >= end || (current - start) % 32 !== 0) throw new Refused(10);
  return { bytes, view, little, base, mask, entrySize, start, end, current };
}

function checkEntries({ bytes, entrySize, start }) {
  for (let at = 48; at < start; at += entrySize) {
    const type = bytes[at + 1];
    const allowed = (type >= 1 && type <= 14) || (type >= 21 && type <= 28);
    if (bytes[at] !== 1 && !allowed) throw new Refused(11, (at - 48) / entrySize);
  }
}

function checkSlots({ view, little, start, end, current }) {
  const full = view.getUint32(current, little) !== 0;
  let without = -1;
  for (let at = start; at < end; at += 32) {
    const used = view.getUint32(at, little) !== 0;
    if (used !== (full || at < current)) throw new Refused(12, (at - start) / 32);
    if (used && without < 0 && view.getUint32(at + 8, little) === 0) without = (at - start) / 32;
  }
  if (without >= 0) throw new Refused(13, without);
  return full;
}

/** Checks 1 to 13 with 26; the header comes back with the oldest slot and the event count. */
export function check(bytes) {
  const header = readHeader(bytes);
  checkEntries(header);
  const full = checkSlots(header);
  header.oldest = full ? header.current : header.start;
  header.events = ((full ? header.end : header.current) - header.start) / 32;
  return header;
}

/** Checks 14 and 15. */
export function checkReading({ rate, unit, serial }, events) {
  if (rate === 0) throw new Refused(14);
  if (unit >= 2 ** 24 || serial + events > 2 ** 40) throw new Refused(15);
}

/** What a line says where no thread has the pointer. */
export const NAMELESS = { name: null, gone: false };

/** Each thread's name by its pointer, as written by the function given; the lowest live entry counts, or else the lowest that is gone. */
export function readNames({ bytes, view, little, entrySize, start }, written) {
  const names = new Map();
  for (let at = 48; at < start; at += entrySize) {
    if (bytes[at + 1] !== 1) continue;
    const pointer = view.getUint32(at + 4, little);
    const gone = bytes[at] === 1;
    const known = names.get(pointer);
    if (known !== undefined && (gone || !known.gone)) continue;
    names.set(pointer, { name: written(bytes.toString("latin1", at + 16, at + entrySize).split("\0", 1)[0]), gone });
  }
  return names;
}

/** A large number is written by the function given; floats suffice where the product is below the limit. */
export function microseconds(ticks, rate, written) {
  // Below the limit the floor of the rounded quotient is the exact one.
  if (ticks <= 9007199254) return Math.floor((ticks * 1e6) / rate);
  return written((BigInt(ticks) * 1000000n) / BigInt(rate));
}

/** The key by its position; floats suffice where the last key is below the limit. */
export function keys({ unit, serial }, events, written) {
  const first = BigInt(unit) * 2n ** 40n + BigInt(serial);
  if (first + BigInt(events) <= LIMIT) {
    const small = Number(first);
    return (position) => small + position;
  }
  return (position) => written(first + BigInt(position));
}

/** A little-endian buffer with no entries, base 0x20000000 and all bits of the timer. */
export function formatted(length) {
  const bytes = Buffer.alloc(length);
  const base = 0x20000000;
  const end = length - ((length - 48) % 32);
  [ID, 0xffffffff, base, base + 48, 4 << 16, base + 48, base + 48, base + end, base + 48]
    .forEach((word, index) => bytes.writeUInt32LE(word, index * 4));
  return bytes;
}

/** Checks 1 to 10 with 26, then 17 and 18, fills the slot at current and moves on; the slot's index comes back. */
export function record(bytes, words) {
  const { view, little, base, mask, start, end, current } = readHeader(bytes);
  if (words[0] === 0) throw new Refused(17);
  if (words[2] === 0) throw new Refused(18);
  for (let index = 0; index < 8; index += 1) view.setUint32(current + index * 4, words[index], little);
  view.setUint32(current + 12, words[3] & mask, little);
  view.setUint32(32, base + (current + 32 === end ? start : current + 32), little);
  return (current - start) / 32;
}
