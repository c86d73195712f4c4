// What an editor makes of the types: each line below must be taken, and each behind @ts-expect-error refused.
import { fetchListing } from "../fetched.mjs";
import { load, type Answer, type Checked, type Library, type Pieces } from "../library.mjs";
import { readLine, readListing, RefusedLine, RefusedListing, type ListedEvent } from "../lepsaino.mjs";

export function use(library: Library, dump: Uint8Array): void {
  const answer = library.list(dump, { rate: 3000000, unit: 8192n, serial: 0 });
  // @ts-expect-error: there may be a refusal and no text.
  readListing(answer.text);
  if (answer.refusal === null) readListing(answer.text).map(({ key }): bigint => key);
  const version: number | null = library.version;
  // @ts-expect-error: a module's version cannot be changed.
  library.version = 1;
  void version;
}

export function counted(text: string, digits: string): readonly ListedEvent[][] {
  // @ts-expect-error: a header that is missing is no number of events.
  readListing(text, { events: null });
  return [[...readListing(text, { events: 3 })], [...readListing(text, { events: 3n })], [...readListing(text, { events: digits })], [readLine(text)]];
}

export async function fetched(asked: URLSearchParams): Promise<bigint[]> {
  // @ts-expect-error: what is not in an address is no number of events.
  await fetchListing("pump.jsonl", asked.get("events"));
  return (await fetchListing("pump.jsonl", asked.get("events") ?? "")).map(({ key }) => key);
}

export function named(library: Library, dump: Uint8Array, names: ArrayBuffer | undefined): (string | null | undefined)[] {
  const answer = library.list(dump, { rate: 3000000, unit: 8192, serial: 0 }, names);
  const listed = answer.refusal === null ? readListing(answer.text).map(({ event }) => event) : [];
  // @ts-expect-error: without a name file a line tells no event's name.
  const own: string | null = readLine("").event;
  const event = library.event(dump, 0, names);
  const found = library.findName(dump, 5n, names);
  // @ts-expect-error: null is no name file.
  library.list(dump, { rate: 3000000, unit: 8192, serial: 0 }, null);
  return [...listed, own, event.event, found.filed ? found.name : null];
}

export function written(library: Library, names: Uint8Array): number {
  const name = new TextEncoder().encode("start");
  const answer = library.writeName(names, 0, { kind: "event", number: 5, name });
  // @ts-expect-error: a text is no name, since its bytes hang on an encoding.
  library.writeName(names, 13n, { kind: "thread", number: 0x20002000, name: "valve" });
  // @ts-expect-error: a record is an event's or a thread's.
  library.writeName(names, 13n, { kind: "timer", number: 0x20002000, name });
  return answer.refusal === null ? answer.length : 0;
}

// As docs/PAGE.md has it.
export function newestFirst(text: string): ListedEvent[] {
  return [...readListing(text)].sort((one, other) => (one.key < other.key ? 1 : -1));
}

export function reasonFor(text: string): string | null {
  try {
    readListing(text);
    return null;
  } catch (error) {
    if (error instanceof RefusedListing) return `${error.number + error.place}: ${error.words}`;
    if (error instanceof RefusedLine) return error.message;
    throw error;
  }
}

// As the README has it.
export async function embed(file: Blob): Promise<readonly ListedEvent[]> {
  const { refusal, text } = (await load()).list(await file.arrayBuffer(), { rate: 3000000, unit: 8192, serial: 0 });
  if (refusal) throw new Error(`${refusal.number} ${refusal.place}: ${refusal.words}`);
  const events = readListing(text);
  return events;
}

export function inPieces(library: Library, pieces: Uint8Array[]): Answer<Checked> {
  const fed = pieces.reduce((state: Pieces, piece) => state.feed(piece), library.begin());
  return fed.finish();
}

export function others(library: Library, dump: ArrayBuffer): void {
  const event = library.event(dump, 2n ** 40n);
  if (event.refusal === null) {
    const ticks: bigint = event.ticks;
    const info: number = event.info[3];
    const name: string | null = event.name;
    // @ts-expect-error: an answer cannot be changed.
    event.gone = true;
    // @ts-expect-error: there are four information words.
    event.info[4];
    void [ticks, info, name];
  }
  const mended = library.mend(dump);
  if (mended.refusal === null) library.check(mended.copy), mended.counts.moved + 1;
  // @ts-expect-error: a text is no dump.
  library.check("dump");
  // @ts-expect-error: a reading has three numbers.
  library.list(dump, { rate: 1, unit: 1 });
  // @ts-expect-error: a position is a number.
  library.line(dump, { rate: 1, unit: 1, serial: 1 }, "0");
  const found = library.findName(dump, 0x20001000);
  if (!found.refusal && found.nameAt !== null) found.nameAt + 1;
  const refused: number = new RefusedLine(1, 2, "why").column;
  void refused;
}
