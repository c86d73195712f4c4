// The types of library.mjs, for editors.

/** A whole number: a BigInt, or a number that is a safe integer. One out of its range is a RangeError, anything else a TypeError. */
export type Whole = number | bigint;
export type Bytes = Uint8Array | ArrayBuffer;

/** The clock rate in Hz and the unit number, of 32 bits, and the first event's serial, of 64. */
export interface Reading {
  readonly rate: Whole;
  readonly unit: Whole;
  readonly serial: Whole;
}

/** A refusal by the table of docs/RULES.md. */
export interface Refusal {
  readonly number: number;
  readonly place: number;
  /** Both in words. */
  readonly words: string;
}

/** `refusal` tells the two apart: it is null where the call was accepted, and otherwise nothing else is there. */
export type Answer<Found> =
  | ({ readonly refusal: Refusal } & { readonly [Field in keyof Found]?: undefined })
  | ({ readonly refusal: null } & Readonly<Found>);

/** The byte order, the header's fields as they are stored, and the number of events. */
export interface Checked {
  big: boolean;
  id: number;
  mask: number;
  base: number;
  registryStart: number;
  nameSize: number;
  registryEnd: number;
  bufferStart: number;
  bufferEnd: number;
  current: number;
  events: number;
}

export interface Text {
  text: string;
}

/** A name, a character for each byte, and where in the dump it begins; both null where there is none. `gone` is true for a removed thread's. */
export interface Name {
  name: string | null;
  gone: boolean;
  nameAt: number | null;
  /** There where a name file is given: true where the name lies in it and not in the dump, and then `nameAt` is its place in the file. */
  filed?: boolean;
}

/** One event: its slot's eight words, its ticks, its context and its name. */
export interface DumpEvent extends Name {
  /** There where a name file is given: the event's own name and where in the file it begins; both null where there is none. */
  event?: string | null;
  eventAt?: number | null;
  ptr: number;
  field: number;
  id: number;
  stamp: number;
  info: readonly [number, number, number, number];
  ticks: bigint;
  by: "init" | "isr" | "thread";
}

/** A record of a name file: the id of an event or the pointer of a thread, of 32 bits, and its name, of any bytes. */
export interface NameRecord {
  readonly kind: "event" | "thread";
  readonly number: Whole;
  readonly name: Bytes;
}

export interface Written {
  /** The record's length, 8 more than its name's: added to the offset it is where the next record goes. */
  length: number;
}

/** What was mended, in six counts. */
export interface Counts {
  /** Slots zeroed as missing, or partly missing. */
  readonly missing: number;
  /** 1 where current was bad and became the start. */
  readonly current: number;
  /** Entries freed for a type that is not allowed. */
  readonly types: number;
  /** Used slots zeroed for the id 0. */
  readonly ids: number;
  /** 1 where the used slots were packed. */
  readonly packed: number;
  /** Used slots whose index packing changed. */
  readonly moved: number;
}

export interface Mended {
  copy: Uint8Array;
  counts: Counts;
}

/** The state of a check in pieces. It never changes, so it may be kept and fed in two ways. */
export interface Pieces {
  /** The state after one piece more, of any length. */
  feed(piece: Bytes): Pieces;
  /** What `check` gives on all the bytes that were fed. */
  finish(): Answer<Checked>;
}

export interface Library {
  /** The version of the module. */
  readonly version: number | null;
  /** Checks 1 to 13. */
  check(dump: Bytes): Answer<Checked>;
  /** The text of all lines, oldest event first: checks 1 to 15; with a name file then 2, 27, 16. `readListing` of lepsaino.mjs gives its events. */
  list(dump: Bytes, reading: Reading, names?: Bytes): Answer<Text>;
  /** The line of one event, with its line feed: checks 1 to 15; with a name file then 2, 27; then 25. */
  line(dump: Bytes, reading: Reading, position: Whole, names?: Bytes): Answer<Text>;
  /** One event by its position, from 0, oldest first: checks 1 to 13; with a name file then 2, 27; then 25. */
  event(dump: Bytes, position: Whole, names?: Bytes): Answer<DumpEvent>;
  /** The name for a thread's pointer, in the dump or else in the name file: checks 1 to 11; with a file then 2, 27. */
  findName(dump: Bytes, pointer: Whole, names?: Bytes): Answer<Name>;
  /** Writes one record of a name file into the bytes given, at an offset: checks 28, 16. No byte outside the record changes, and none in a refusal. */
  writeName(names: Bytes, offset: Whole, record: NameRecord): Answer<Written>;
  /** A mended copy, which passes every check: checks 1 to 9, save 26 for the slots' end. */
  mend(dump: Bytes): Answer<Mended>;
  /** The check of a dump in pieces, before any byte. */
  begin(): Pieces;
}

/** Loads the module: from where it lies beside library.mjs, from another address, or from its bytes. */
export function load(source?: string | URL | Bytes): Promise<Library>;
