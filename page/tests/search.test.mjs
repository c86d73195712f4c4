// Tests of what an engineer types: numbers, names as they are shown, and the events that a search finds.
import assert from "node:assert/strict";
import test from "node:test";
import { nameText, numberIn, shownName, shownOwnName, testFor } from "../search.mjs";

const events = [
  { key: 9007199254740992n, id: 5, name: "pump" },
  { key: 9007199254740993n, id: 1025, name: null },
  { key: 9007199254740994n, id: 6, name: 'Valve "2"\n' },
  { key: 18446744073709551615n, id: 4294967295, name: "" },
  { key: 7n, id: 7, name: "L\u00c3\u00bcfter" },
];
const foundAmong = (all, by, text) => all.flatMap((event, index) => (testFor(by, text)(event) ? [index] : []));
const found = (by, text) => foundAmong(events, by, text);

test("a number is plain digits", () => {
  for (const [text, number] of [["0", 0n], [" 8192 ", 8192n], ["007", 7n], ["9007199254740993", 9007199254740993n], ["9".repeat(40), 10n ** 40n - 1n]]) {
    assert.equal(numberIn(text), number);
  }
  for (const text of ["", " ", "-1", "+1", "1.0", "1e3", "0x10", "1 000", "1,000", "1_0", "１", "ten", "8192x"]) assert.equal(numberIn(text), null);
});

test("a key is found and its neighbours are not", () => {
  assert.deepEqual(found("key", "9007199254740993"), [1]);
  assert.deepEqual(found("key", "9007199254740992"), [0]);
  assert.deepEqual(found("key", "18446744073709551615"), [3]);
  assert.deepEqual(found("key", "18446744073709551616"), []);
  assert.deepEqual(found("key", "900719925474099"), []);
});

test("an id is found whole", () => {
  assert.deepEqual(found("id", "5"), [0]);
  assert.deepEqual(found("id", "1025"), [1]);
  assert.deepEqual(found("id", "102"), []);
  assert.deepEqual(found("id", "4294967295"), [3]);
});

test("a name is found by a part of it, in either case, also as it is shown", () => {
  assert.deepEqual(found("name", "PU"), [0]);
  assert.deepEqual(found("name", "e \"2"), [2]);
  assert.deepEqual(found("name", "\\u000a"), [2]);
  assert.deepEqual(found("name", "null"), []);
  assert.deepEqual(found("name", '"pump"'), [0]);
  assert.deepEqual(found("name", " pump "), [0]);
  assert.deepEqual(found("name", "L\u00fcfter"), [4]);
  assert.deepEqual(found("name", "L\u00dcFTER"), [4]);
});

test("an event's own name is found as a thread's is", () => {
  const named = [
    { name: "pump", event: "start" }, { name: null, event: "pump \0" }, { name: "valve", event: null }, { name: null, event: "T\u00c3\u00bcr" }, { name: null, event: "" },
  ];
  assert.deepEqual(foundAmong(named, "name", "pump"), [0, 1]);
  assert.deepEqual(foundAmong(named, "name", "STAR"), [0]);
  assert.deepEqual(foundAmong(named, "name", '"start"'), [0]);
  assert.deepEqual(foundAmong(named, "name", "\\u0000"), [1]);
  assert.deepEqual(foundAmong(named, "name", "t\u00dcr"), [3]);
  assert.deepEqual(foundAmong(named, "name", '""'), [4]);
  for (const text of ["null", "none", "undefined"]) assert.deepEqual(foundAmong(named, "name", text), []);
});

test("no text finds every event, and what is no number is told apart from a number that is not there", () => {
  for (const by of ["key", "name", "id"]) assert.deepEqual(found(by, " "), [0, 1, 2, 3, 4]);
  for (const by of ["key", "id"]) assert.equal(testFor(by, "pump"), null);
});

test("a name is shown as the listing prints it", () => {
  assert.equal(nameText('A"\n'), 'A\\"\\u000a');
  assert.equal(nameText("\\ ~\u007f\u0080\u00ff"), "\\\\ ~\\u007f\\u0080\\u00ff");
});

test("a removed thread's name is marked, and no live one can look so", () => {
  assert.equal(shownName({ name: "pump", gone: false }), '"pump"');
  assert.equal(shownName({ name: "pump", gone: true }), '"pump" (removed)');
  assert.equal(shownName({ name: 'pump" (removed)', gone: false }), '"pump\\" (removed)"');
  assert.equal(shownName({ name: "", gone: false }), '""');
  assert.equal(shownName({ name: null, gone: false }), "none");
});

test("an event's own name is shown as a name, and not at all where no name file was given", () => {
  assert.equal(shownOwnName({ event: 'A"\0' }), '"A\\"\\u0000"');
  assert.equal(shownOwnName({ event: "none" }), '"none"');
  assert.equal(shownOwnName({ event: null }), "none");
  assert.equal(shownOwnName({}), undefined);
});
