// Tests of a listing that is fetched: only a whole listing with as many events as are expected is one.
import assert from "node:assert/strict";
import { createServer } from "node:http";
import test from "node:test";
import { fetchListing } from "../fetched.mjs";
import { RefusedLine, RefusedListing } from "../lepsaino.mjs";
import { kept } from "./built.mjs";

const LINES = kept("crates/lepsaino/stdout").toString();

/** Serves one text with a status, and hands its address on. */
async function served(status, text, use) {
  const server = createServer((request, answer) => answer.writeHead(status, { "content-type": "text/plain" }).end(text));
  await new Promise((listening) => server.listen(0, "127.0.0.1", listening));
  try {
    return await use(`http://127.0.0.1:${server.address().port}/listing`);
  } finally {
    server.closeAllConnections();
    server.close();
  }
}

const fetched = (status, text, events) => served(status, text, (address) => fetchListing(address, events));

test("a whole listing gives its events", async () => {
  const events = await fetched(200, LINES, 3);
  assert.deepEqual(events.map(({ key }) => key), [9007199254740992n, 9007199254740993n, 9007199254740994n]);
  assert.equal((await fetched(200, LINES, "3")).length, 3);
  assert.deepEqual(await fetched(200, "", 0), []);
});

test("what failed is never an empty ring", async () => {
  for (const status of [404, 422, 500]) await assert.rejects(fetched(status, "", 0), new RegExp(`status ${status}$`));
  await assert.rejects(fetched(200, "", 3), RefusedLine);
  await assert.rejects(fetched(200, LINES.split("\n").slice(0, 2).join("\n") + "\n", 3), /the number of events is 2: expected 3/);
  await assert.rejects(fetched(200, LINES.slice(0, -1), 3), /cut off/);
  for (const status of [200, 422, 500]) {
    await assert.rejects(fetched(status, "26 18\n", 3), (error) => error instanceof RefusedListing && error.number === 26 && error.place === 18);
  }
  await assert.rejects(fetched(422, LINES, 3), /status 422$/);
  await assert.rejects(fetched(200, "<!DOCTYPE html>\n", 1), RefusedLine);
});

test("the number of events is asked for", async () => {
  for (const events of [undefined, null, ""]) await assert.rejects(fetched(200, "", events), /the number of events must be/);
});
