// node main.mjs FOLDER JOB WAY prints the answer to a job on the folder's dumps; with ROUNDS behind, the best and the median nanoseconds.
import { readFileSync } from "node:fs";
import { load } from "../../page/library.mjs";
import { fixedNumbers } from "./numbers.mjs";
import * as stringify from "./stringify.mjs";
import * as template from "./template.mjs";
import { check, formatted, record } from "./trace.mjs";

const RECORDED = 1000000;
// The loader as a page uses it, over the module that LEPSAINO_MODULE names.
const library = await load(readFileSync(process.env.LEPSAINO_MODULE));
const LISTINGS = {
  template: template.listing,
  stringify: stringify.listing,
  module: (bytes, reading) => library.list(bytes, reading).text,
};
const CHECKS = { plain: check, module: (bytes) => library.check(bytes) };

/** A job is a call, the calls in a row that are timed, the parts of a call whose time is told, and what is printed of its answer. */
function listingJob(folder, name, way) {
  const bytes = readFileSync(`${folder}/${name}.dump`);
  const [rate, unit, serial] = readFileSync(`${folder}/${name}.reading`, "utf8").trim().split(" ").map(Number);
  const call = () => LISTINGS[way](bytes, { rate, unit, serial });
  return { call, calls: 2, parts: 1, answer: (text) => text };
}

function recordJob() {
  const call = () => {
    const bytes = formatted(65536);
    for (let stamp = 0; stamp < RECORDED; stamp += 1) record(bytes, [0x20001000, 16, 5, stamp, 1, 2, 3, 4]);
    return bytes;
  };
  return { call, calls: 1, parts: RECORDED, answer: (bytes) => bytes };
}

const jobs = {
  "listing-full": (folder, way) => listingJob(folder, "full", way),
  "listing-names": (folder, way) => listingJob(folder, "names", way),
  "listing-gone": (folder, way) => listingJob(folder, "gone", way),
  check(folder, way) {
    const bytes = readFileSync(`${folder}/full.dump`);
    return { call: () => CHECKS[way](bytes).events, calls: 20, parts: 1, answer: (events) => `${events}\n` };
  },
  record: recordJob,
  numbers() {
    const numbers = fixedNumbers();
    const call = () => numbers.map(template.printed).join("\n");
    return { call, calls: 2, parts: numbers.length, answer: (text) => `${text}\n` };
  },
};

/** Half a second of calls, in which the code is compiled for good. */
function warmUp({ call }) {
  const begin = performance.now();
  while (performance.now() - begin < 500) call();
}

/** The length of a text is asked for, so that its parts are joined. */
function time({ call, calls, parts }) {
  const begin = process.hrtime.bigint();
  for (let turn = 0; turn < calls; turn += 1) if (call().length === 0) throw new Error("an empty answer");
  return Number(process.hrtime.bigint() - begin) / calls / parts;
}

const [folder, name, way, rounds] = process.argv.slice(2);
const job = jobs[name](folder, way);
if (rounds === undefined) {
  process.stdout.write(job.answer(job.call()));
} else {
  warmUp(job);
  const times = Array.from({ length: Number(rounds) }, () => time(job)).sort((one, other) => one - other);
  console.log(`${name} node-${way} ${times[0].toFixed(2)} ${times[times.length >> 1].toFixed(2)}`);
}
