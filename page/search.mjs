// What an engineer types, and which events it means.

/** The whole number that plain digits say, or null for any other text. */
export function numberIn(text) {
  const digits = text.trim();
  return /^[0-9]+$/.test(digits) ? BigInt(digits) : null;
}

/** A name as the listing prints it, so that names of other bytes never look alike. */
export function nameText(name) {
  const escaped = (character) =>
    '"\\'.includes(character) ? `\\${character}` : `\\u00${character.charCodeAt(0).toString(16).padStart(2, "0")}`;
  return name.replace(/["\\]|[^ -~]/g, escaped);
}

const inQuotes = (name) => (name === null ? "none" : `"${nameText(name)}"`);

/** A thread's name in a table. The mark stands outside the name's quotes, so that no name can look like a marked one. */
export function shownName({ name, gone }) {
  return gone ? `${inQuotes(name)} (removed)` : inQuotes(name);
}

/** An event's own name in a table; undefined where no name file was given. */
export function shownOwnName({ event }) {
  return event === undefined ? undefined : inQuotes(event);
}

const isWithin = (part, text) => text.toLowerCase().includes(part.toLowerCase());

/** A name whose bytes are read as UTF-8. */
const asText = (name) => new TextDecoder().decode(Uint8Array.from(name, (character) => character.charCodeAt(0)));

/** A test of names: the text is a part of the thread's name or of the event's own, byte by byte, as it is shown, or as UTF-8. */
function nameTest(text) {
  const isIn = (name, shown) => (name ?? null) !== null && [name, shown, asText(name)].some((each) => isWithin(text, each));
  return (event) => isIn(event.name, shownName(event)) || isIn(event.event, shownOwnName(event));
}

/** A test of events by key, by name or by id, or null where the text can be none. No text is every event's. */
export function testFor(by, text) {
  const given = text.trim();
  if (given === "") return () => true;
  if (by === "name") return nameTest(given);
  const wanted = numberIn(given);
  return wanted === null ? null : (event) => BigInt(event[by]) === wanted;
}
