// The types of fetched.mjs, for editors.
import type { ListedEvent } from "./lepsaino.mjs";

/** The events of a listing at an address, which must be so many, as a number or in digits; anything else is thrown. */
export function fetchListing(address: string | URL, events: number | bigint | string): Promise<readonly ListedEvent[]>;
