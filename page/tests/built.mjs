// What page/build and peer/build-module made, in the folder that LEPSAINO_BUILT names; checks/page.py sees to it.
import { readFileSync } from "node:fs";
import { pathToFileURL } from "node:url";

/** Where a file of it lies. */
export function addressOf(name) {
  const folder = process.env.LEPSAINO_BUILT;
  if (!folder) throw new Error("LEPSAINO_BUILT must name the folder that page/build made, with lepsaino-O0.wasm beside");
  return pathToFileURL(`${folder}/${name}`);
}

export function built(name) {
  return readFileSync(addressOf(name));
}

/** A file of the project. */
export function kept(path) {
  return readFileSync(new URL(`../../${path}`, import.meta.url));
}

/** Files of cases, and what must be printed for them one after another: by the peer, and by the reader, the writer and the mender in Python. */
export const CORPUS = { cases: ["crates/corpus/data/cases"], printed: "crates/corpus/stdout", fewestCalls: 31000 };
export const CASES = {
  cases: ["check", "pieces", "reader", "writer", "mender", "names"].map((name) => `crates/cases/data/${name}`),
  printed: "crates/cases/stdout",
  fewestCalls: 30000,
};
