// Lines written by JSON.stringify of an object for each event; the same text while names are plain ASCII.
import { check, checkReading, keys, LIMIT, microseconds, NAMELESS, readNames } from "./trace.mjs";

const asIs = (name) => name;
/** A large number becomes a string, which gets its quotes later. */
const value = (number) => (number < LIMIT ? Number(number) : String(number));

export function listing(bytes, reading) {
  const header = check(bytes);
  const { view, little, mask, start, end, oldest, events } = header;
  checkReading(reading, events);
  const names = readNames(header, asIs);
  const keyAt = keys(reading, events, value);
  const lines = [];
  let ticks = 0;
  let before = view.getUint32(oldest + 12, little);
  for (let position = 0, at = oldest; position < events; position += 1) {
    const word = (place) => view.getUint32(at + place, little);
    const stamp = word(12);
    ticks += ((stamp - before) & mask) >>> 0;
    before = stamp;
    const ptr = word(0);
    const field = word(4);
    const by = ptr === 0xffffffff ? "isr" : ptr === 0xf0f0f0f0 ? "init" : "thread";
    const { name, gone } = by === "init" ? NAMELESS : names.get(by === "isr" ? field : ptr) ?? NAMELESS;
    const key = keyAt(position);
    const us = microseconds(ticks, reading.rate, value);
    const info = [word(16), word(20), word(24), word(28)];
    lines.push(JSON.stringify({ key, ticks, us, id: word(8), ptr, by, name, gone, field, info }), "\n");
    at = at + 32 === end ? start : at + 32;
  }
  return lines.join("");
}
