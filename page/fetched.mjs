// A listing that is fetched. A call that failed, a refusal and a lost tail are errors, and never an empty ring.
import { RefusedListing, readListing, refusalIn } from "./lepsaino.mjs";

/** The events of a listing at an address; `events` is how many there must be, which whoever took the dump knows from its check. */
export async function fetchListing(address, events) {
  if (events === undefined) throw new TypeError("the number of events must be given");
  // A listing that the browser kept could be another dump's.
  const answer = await fetch(address, { cache: "no-store" });
  const text = await answer.text();
  if (answer.ok) return readListing(text, { events });
  const refusal = refusalIn(text);
  throw refusal ? new RefusedListing(refusal) : new Error(`the server answered with status ${answer.status}`);
}
