// The types of lepsaino.mjs, for editors.
import type { Refusal } from "./library.mjs";

/** One line of a listing. `key` and `us` may pass 2^53, and are BigInts, as `ticks` is. */
export interface ListedEvent {
  readonly key: bigint;
  readonly keyText: string;
  readonly ticks: bigint;
  readonly us: bigint;
  readonly id: number;
  /** The event's own name, or null where there is none; not there in a line that was made without a name file. */
  readonly event?: string | null;
  readonly ptr: number;
  readonly by: "init" | "isr" | "thread";
  /** A character for each byte; null where there is no name. */
  readonly name: string | null;
  /** Whether the name is that of a removed thread. */
  readonly gone: boolean;
  readonly field: number;
  readonly info: readonly number[];
}

/** Thrown for a text of another form: the line and the column, from 1, and the reason in words. */
export class RefusedLine extends Error {
  readonly line: number;
  readonly column: number;
  readonly reason: string;
  constructor(line: number, column: number, reason: string);
}

/** Thrown where a refusal was given in the place of a listing: its number, its place, and both in words. */
export class RefusedListing extends Error {
  readonly number: number;
  readonly place: number;
  readonly words: string;
  constructor(refusal: Refusal);
}

/** The refusal that a text is, as the command prints it, or null. */
export function refusalIn(text: string): Refusal | null;

/** One event, from the text of one line without its line feed. */
export function readLine(text: string): ListedEvent;

/** All events of a whole listing, whose every line ends in a line feed. Where `events` is given, as a number or in digits, there must be so many. */
export function readListing(text: string, expected?: { readonly events?: number | bigint | string }): readonly ListedEvent[];
