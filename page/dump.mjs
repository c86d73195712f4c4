// The page: a dump is chosen or dropped, checked, listed, with names from the build or without, searched, mended and saved, all here.
import { FileField } from "./field.mjs";
import { readListing } from "./lepsaino.mjs";
import { load } from "./library.mjs";
import { numberIn, testFor } from "./search.mjs";
import { EventTable } from "./table.mjs";

const COUNTS = ["missing", "current", "types", "ids", "packed", "moved"];
const READING = {
  rate: { title: "the clock rate", least: 1n, most: 2n ** 32n - 1n },
  unit: { title: "the unit number", least: 0n, most: 2n ** 32n - 1n },
  serial: { title: "the first serial", least: 0n, most: 2n ** 64n - 1n },
};
// What is said while a field has no file, by why it has none.
const OF_A_DUMP = {
  none: "Choose a dump, or drop one on this page.",
  many: "Give one file at a time.",
  reading: "Reading.",
  unreadable: "This file could not be read.",
};
const OF_NAMES = {
  none: null,
  many: "Give one name file at a time.",
  reading: "Reading the name file.",
  unreadable: "The name file could not be read.",
};
// Once the dump has passed its check, these are refusals of the name file, or of what it makes of the listing.
const NAMES_REFUSED = {
  2: "The name file is refused. ",
  16: "With these names the listing is longer than this page has room for. ",
  27: "The name file is refused. ",
};

const part = (id) => document.getElementById(id);
const table = new EventTable(part("table"));
const saves = [part("save-copy"), part("save-listing")];

const dump = new FileField(part("file"), OF_A_DUMP, takeDump);
const names = new FileField(part("names"), OF_NAMES, takeNames);

let library = null;
/** What is said while there is no library. */
let loading = "";
/** The copy where the dump was mended and it is shown in its place, and whether mending was not refused yet. */
let mended = null;
let mayBeMended = true;

function say(text) {
  part("answer").textContent = text;
}

/** Takes away all that was shown, so that nothing of another dump or reading stays. */
function clear() {
  for (const id of ["about", "mend", "mended", "events"]) part(id).hidden = true;
  for (const link of saves) release(link);
  table.clear();
}

function release(link) {
  if (link.href !== "") URL.revokeObjectURL(link.href);
  link.removeAttribute("href");
}

function offer(link, name, content) {
  link.download = name;
  link.href = URL.createObjectURL(new Blob([content], { type: "application/octet-stream" }));
}

function refusalText({ number, place, words }) {
  return `Refusal ${number}, place ${place}: ${words}.`;
}

function eventCount(count) {
  return `${count.toLocaleString("en")} ${count === 1 ? "event" : "events"}`;
}

/** What is wrong with a number that was typed, or null. A rate of 0 is left to the library, which refuses it by its number. */
function fault(number, { title, least, most }) {
  if (number === null) return `give ${title}, in digits`;
  return number > most ? `${title} must be from ${least} to ${most}` : null;
}

/** The three numbers that were typed, and what is wrong with them; a field with a wrong text is marked. */
function readingGiven() {
  const faults = [];
  const reading = {};
  for (const [id, kind] of Object.entries(READING)) {
    reading[id] = numberIn(part(id).value);
    const wrong = fault(reading[id], kind);
    if (wrong !== null) faults.push(wrong);
    part(id).setAttribute("aria-invalid", String(wrong !== null && part(id).value.trim() !== ""));
  }
  return { reading, faults };
}

function showEvents(text, count) {
  const events = readListing(text, { events: count });
  table.show(events);
  const marked = "A name marked (removed) is that of a thread which had been removed when the dump was taken.";
  part("caption").textContent = events.some(({ gone }) => gone) ? `Oldest first. ${marked}` : "Oldest first.";
  offer(part("save-listing"), `${dump.file.name}${mended ? ".mended" : ""}.jsonl`, text);
  part("events").hidden = false;
  search();
}

function search() {
  const test = testFor(part("by").value, part("wanted").value);
  part("wanted").setAttribute("aria-invalid", String(test === null));
  const { found, of } = table.keep(test ?? (() => false));
  part("found").textContent = test === null ? "This is searched for by digits alone." : `${found.toLocaleString("en")} of ${eventCount(of)}`;
}

function showMended() {
  for (const id of COUNTS) part(id).textContent = mended.counts[id];
  offer(part("save-copy"), `${dump.file.name}.mended`, mended.copy);
  part("mended").hidden = false;
}

/** Lists what passed the check. */
function list(bytes, count, { reading, faults }) {
  const copy = mended ? "The mended copy: " : "";
  const file = names.file?.bytes;
  // Finding any name checks the name file too.
  const { refusal, text } = faults.length > 0 ? library.findName(bytes, 0, file) : library.list(bytes, reading, file);
  if (refusal) return say(`${NAMES_REFUSED[refusal.number] ?? copy}${refusalText(refusal)}`);
  if (faults.length > 0) return say(`${copy}${eventCount(count)}, and every check passes. To list them: ${faults.join("; ")}.`);
  showEvents(text, count);
  const keys = count === 0 ? "the ring is empty" : count === 1 ? "under a key of its own" : "each under a key of its own";
  say(`${copy}${eventCount(count)}, ${keys}.`);
}

/** The name stands by itself, apart from what is said, so that no name can change what is read. */
function showAbout() {
  part("kind").textContent = mended ? "a mended copy of the file" : "the file";
  part("source").textContent = mended ? "the mended copy of" : "";
  for (const name of document.querySelectorAll(".file")) name.textContent = dump.file.name;
  part("names-file").textContent = names.file?.name ?? "";
  part("named").hidden = names.file === null;
  part("about").hidden = false;
}

function show() {
  clear();
  const given = readingGiven();
  if (library === null) return say(loading);
  for (const { awaited } of [dump, names]) if (awaited !== null) return say(awaited);
  showAbout();
  if (mended) showMended();
  const bytes = mended ? mended.copy : dump.file.bytes;
  const { refusal, events } = library.check(bytes);
  if (!refusal) return list(bytes, events, given);
  part("mend").hidden = !mayBeMended;
  say(mayBeMended ? refusalText(refusal) : `It cannot be mended. ${refusalText(refusal)}`);
}

/** Shows all anew. An error that nobody thought of is told, and leaves nothing that could pass for an answer. */
function showSafely() {
  try {
    show();
  } catch (error) {
    clear();
    say(`Nothing is shown: ${error.message}.`);
  }
}

function mend() {
  const answer = library.mend(dump.file.bytes);
  if (answer.refusal) mayBeMended = false;
  else mended = answer;
  showSafely();
  // The button that was pressed is gone.
  part(mended ? "save-copy" : "file").focus();
}

function discard() {
  mended = null;
  showSafely();
  part("mend").focus();
}

/** Of another dump nothing stays: no copy, and no search. */
function takeDump() {
  mended = null;
  mayBeMended = true;
  part("wanted").value = "";
  showSafely();
}

function takeNames() {
  part("forget").hidden = names.file === null && names.awaited === null;
  showSafely();
}

function forget() {
  names.give([]);
  // The button that was pressed is gone.
  names.focus();
}

const holdsFiles = ({ dataTransfer }) => dataTransfer.types.includes("Files");

function drop(event) {
  if (!holdsFiles(event)) return;
  event.preventDefault();
  const field = part("names-field").contains(event.target) ? names : dump;
  field.give(event.dataTransfer.files);
}

/** One file with all of it holds the module as text; otherwise the module lies beside the page. */
function held() {
  const text = part("module")?.textContent;
  return text && Uint8Array.from(atob(text.trim()), (character) => character.charCodeAt(0));
}

async function start() {
  loading = "The library is being loaded.";
  try {
    library = await load(held());
  } catch (error) {
    loading = `The library could not be loaded: ${error.message}.`;
  }
  showSafely();
}

part("form").addEventListener("submit", (event) => event.preventDefault());
document.addEventListener("dragover", (event) => { if (holdsFiles(event)) event.preventDefault(); });
document.addEventListener("drop", drop);
for (const id of Object.keys(READING)) part(id).addEventListener("input", showSafely);
for (const id of ["by", "wanted"]) part(id).addEventListener("input", search);
part("mend").addEventListener("click", mend);
part("discard").addEventListener("click", discard);
part("forget").addEventListener("click", forget);
start();
