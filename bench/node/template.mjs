// Lines written by template literals, to the letter as the documents have them.
import { check, checkReading, keys, LIMIT, microseconds, NAMELESS, readNames } from "./trace.mjs";

const ESCAPED = /["\\]|[^ -~]/g;
const escape = (character) =>
  character === '"' || character === "\\" ? `\\${character}` : `\\u00${character.charCodeAt(0).toString(16).padStart(2, "0")}`;
const nameText = (name) => `"${name.replace(ESCAPED, escape)}"`;

export const printed = (number) => (number < LIMIT ? String(number) : `"${number}"`);

export function listing(bytes, reading) {
  const header = check(bytes);
  const { view, little, mask, start, end, oldest, events } = header;
  checkReading(reading, events);
  const names = readNames(header, nameText);
  const key = keys(reading, events, printed);
  const lines = [];
  let ticks = 0;
  let before = view.getUint32(oldest + 12, little);
  for (let position = 0, at = oldest; position < events; position += 1) {
    const word = (place) => view.getUint32(at + place, little);
    const stamp = word(12);
    ticks += ((stamp - before) & mask) >>> 0;
    before = stamp;
    const pointer = word(0);
    const field = word(4);
    const by = pointer === 0xffffffff ? "isr" : pointer === 0xf0f0f0f0 ? "init" : "thread";
    const { name, gone } = by === "init" ? NAMELESS : names.get(by === "isr" ? field : pointer) ?? NAMELESS;
    const us = microseconds(ticks, reading.rate, printed);
    lines.push(`{"key":${key(position)},"ticks":${ticks},"us":${us},"id":${word(8)},"ptr":${pointer},"by":"${by}","name":${name},"gone":${gone},"field":${field},"info":[${word(16)},${word(20)},${word(24)},${word(28)}]}\n`);
    at = at + 32 === end ? start : at + 32;
  }
  return lines.join("");
}
