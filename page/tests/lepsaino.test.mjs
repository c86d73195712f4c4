// Tests of the page's reader: what it accepts, what it refuses, what a careless page would see, and the corpus.
import assert from "node:assert/strict";
import { readFileSync } from "node:fs";
import test from "node:test";
import { RefusedLine, RefusedListing, readLine, readListing } from "../lepsaino.mjs";

const CORPUS_ANSWERS = new URL("../../crates/corpus/stdout", import.meta.url);
const PEER_KEYS = new URL("../../peer/keys", import.meta.url);
const FEWEST_CORPUS_KEYS = 1000;
const FEWEST_CORPUS_LISTINGS = 100;

const DOCUMENT_LINES = [
  '{"key":"9007199254740992","ticks":0,"us":0,"id":5,"ptr":536875008,"by":"thread","name":"pump","gone":false,"field":16,"info":[1,2,3,4]}',
  '{"key":"9007199254740993","ticks":56,"us":18,"id":1025,"ptr":4294967295,"by":"isr","name":"pump","gone":false,"field":536875008,"info":[0,0,0,0]}',
  '{"key":"9007199254740994","ticks":56,"us":18,"id":6,"ptr":536879104,"by":"thread","name":null,"gone":false,"field":16,"info":[7,0,0,0]}',
];

// The same with a name file that names the event 5 and the thread 0x20002000.
const NAMED_LINES = [
  '{"key":"9007199254740992","ticks":0,"us":0,"id":5,"event":"start","ptr":536875008,"by":"thread","name":"pump","gone":false,"field":16,"info":[1,2,3,4]}',
  '{"key":"9007199254740993","ticks":56,"us":18,"id":1025,"event":null,"ptr":4294967295,"by":"isr","name":"pump","gone":false,"field":536875008,"info":[0,0,0,0]}',
  '{"key":"9007199254740994","ticks":56,"us":18,"id":6,"event":null,"ptr":536879104,"by":"thread","name":"valve","gone":false,"field":16,"info":[7,0,0,0]}',
];
const LONGEST = 65528;

/** A line in which each member is the text given, or a sound one; the event's own name is there where it is given. */
function line(members = {}) {
  const own = "event" in members ? { event: "null" } : {};
  const sound = {
    key: "7", ticks: "0", us: "0", id: "5", ...own, ptr: "536875008", by: '"thread"', name: '"pump"', gone: "false", field: "16", info: "[1,2,3,4]",
  };
  const texts = Object.entries({ ...sound, ...members }).map(([member, text]) => `"${member}":${text}`);
  return `{${texts.join(",")}}`;
}

const listing = (...lines) => lines.map((each) => `${each}\n`).join("");
const listingOfKeys = (...keys) => listing(...keys.map((key) => line({ key })));
const unquotedKeys = (text) => text.replace(/"key":"([0-9]+)"/g, '"key":$1');

/** An event as the documents print it: an accepted text must be this one, so nothing else is accepted and nothing is lost. */
function printed(event) {
  const number = (value) => (value < 2n ** 53n ? `${value}` : `"${value}"`);
  const escape = (character) => (/["\\]/.test(character) ? `\\${character}` : `\\u00${character.charCodeAt(0).toString(16).padStart(2, "0")}`);
  const text = (name) => (name === null ? "null" : `"${name.replace(/["\\]|[^ -~]/g, escape)}"`);
  const own = "event" in event ? { event: text(event.event) } : {};
  return line({
    key: number(event.key), ticks: number(event.ticks), us: number(event.us), id: number(event.id), ...own, ptr: number(event.ptr),
    by: `"${event.by}"`, name: text(event.name), gone: `${event.gone}`, field: number(event.field), info: `[${event.info.map(number).join(",")}]`,
  });
}

/** Where no column is given, any will do. */
function isRefusal(error, lineNumber, reason, column = error.column) {
  assert.ok(error instanceof RefusedLine, String(error));
  assert.equal(error.line, lineNumber);
  assert.match(error.reason, reason);
  assert.equal(error.column, column);
  assert.equal(error.message, `line ${error.line}, column ${error.column}: ${error.reason}`);
  return true;
}

function refuses(text, reason, column) {
  assert.throws(() => readLine(text), (error) => isRefusal(error, 1, reason, column), text);
}

function refusesListing(text, lineNumber, reason, column) {
  assert.throws(() => readListing(text), (error) => isRefusal(error, lineNumber, reason, column));
}

/** The column, from 1, at which a part of a line begins. */
const columnOf = (text, part) => text.indexOf(part) + 1;

test("the three lines of the whole case", () => {
  const events = readListing(listing(...DOCUMENT_LINES));
  assert.deepEqual(events.map((event) => event.key), [9007199254740992n, 9007199254740993n, 9007199254740994n]);
  assert.deepEqual(events[1], {
    key: 9007199254740993n, keyText: "9007199254740993", ticks: 56n, us: 18n, id: 1025, ptr: 4294967295,
    by: "isr", name: "pump", gone: false, field: 536875008, info: [0, 0, 0, 0],
  });
  assert.equal(events[0].keyText, "9007199254740992");
  assert.equal(events[2].name, null);
  assert.deepEqual(events.map((event) => event.gone), [false, false, false]);
  assert.deepEqual(events[0].info, [1, 2, 3, 4]);
  assert.deepEqual(DOCUMENT_LINES.map(readLine), events);
});

test("the three lines of the whole case with a name file", () => {
  const events = readListing(listing(...NAMED_LINES));
  assert.deepEqual(events.map(({ event }) => event), ["start", null, null]);
  assert.deepEqual(events.map(({ name }) => name), ["pump", "pump", "valve"]);
  assert.deepEqual(events[0], {
    key: 9007199254740992n, keyText: "9007199254740992", ticks: 0n, us: 0n, id: 5, event: "start", ptr: 536875008,
    by: "thread", name: "pump", gone: false, field: 16, info: [1, 2, 3, 4],
  });
  assert.deepEqual(NAMED_LINES.map(readLine), events);
  assert.deepEqual(DOCUMENT_LINES.map((each) => "event" in readLine(each)), [false, false, false]);
});

test("an event cannot be changed", () => {
  const event = readLine(DOCUMENT_LINES[0]);
  assert.throws(() => { event.key = 1n; }, TypeError);
  assert.throws(() => { event.gone = true; }, TypeError);
  assert.throws(() => { event.event = "start"; }, TypeError);
  assert.throws(() => { readLine(NAMED_LINES[0]).event = "stop"; }, TypeError);
  assert.throws(() => { event.info[0] = 9; }, TypeError);
});

test("keys on both sides of each limit", () => {
  const read = (key) => readLine(line({ key })).key;
  assert.equal(read("0"), 0n);
  assert.equal(read("9007199254740991"), 2n ** 53n - 1n);
  assert.equal(read('"9007199254740992"'), 2n ** 53n);
  assert.equal(read('"9007199254740993"'), 2n ** 53n + 1n);
  assert.equal(read('"18446744073709551615"'), 2n ** 64n - 1n);
  const not = (key, reason) => refuses(line({ key }), reason, columnOf(line(), "7,"));
  not('"9007199254740990"', /in quotes though not above/);
  not('"9007199254740991"', /in quotes though not above 9007199254740991/);
  not("9007199254740992", /bare and above 9007199254740991/);
  not("9007199254740993", /bare and above/);
  not("18446744073709551615", /bare and above/);
  not("9".repeat(400), /bare and above/);
  not('"18446744073709551616"', /does not fit 64 bits/);
  not(`"${"9".repeat(100000)}"`, /does not fit 64 bits/);
});

test("ticks on both sides of their limit", () => {
  const read = (ticks) => readLine(line({ ticks })).ticks;
  for (const ticks of ["0", "1", "4294967295", "4294967296", "8783208118274", "8783208118275"]) assert.equal(read(ticks), BigInt(ticks));
  const not = (ticks, reason) => refuses(line({ ticks }), reason, columnOf(line(), '0,"us"'));
  not("8783208118276", /8783208118276 is above 8783208118275, the most that can stand here/);
  not("9007199254740991", /is above 8783208118275/);
  not('"9007199254740992"', /is above 8783208118275/);
  not('"18446744073709551615"', /is above 8783208118275/);
  not('"8783208118275"', /in quotes though not above/);
  not("9007199254740992", /bare and above/);
  not('"18446744073709551616"', /does not fit 64 bits/);
});

test("microseconds on both sides of each limit", () => {
  const read = (ticks, us) => readLine(line({ ticks, us })).us;
  assert.equal(read("1", "0"), 0n);
  assert.equal(read("56", "56000000"), 56000000n);
  assert.equal(read("9007199255", "9007199254740991"), 2n ** 53n - 1n);
  assert.equal(read("9007199255", '"9007199254740992"'), 2n ** 53n);
  assert.equal(read("9007199255", '"9007199254740993"'), 2n ** 53n + 1n);
  assert.equal(read("8783208118275", '"8783208118275000000"'), 8783208118275000000n);
  const not = (ticks, us, reason) => refuses(line({ ticks, us }), reason, columnOf(line({ ticks, us }), '"us":') + 5);
  not("0", "1", /the number 1 is above 0, the most that can stand here/);
  not("0", "5", /is above 0/);
  not("56", "56000001", /is above 56000000/);
  not("8783208118275", '"8783208118275000001"', /is above 8783208118275000000/);
  not("8783208118275", '"18446744073709551615"', /is above 8783208118275000000/);
  not("8783208118275", "8783208118275000000", /bare and above/);
  not("9007199255", '"9007199254740991"', /in quotes though not above/);
  not("9007199255", "9007199254740992", /bare and above/);
  not("9007199255", "9007199254740993", /bare and above/);
});

test("32-bit numbers on both sides of each limit", () => {
  for (const member of ["id", "ptr", "field"]) {
    const read = (text) => readLine(line({ [member]: text, by: member === "ptr" && text === "4294967295" ? '"isr"' : '"thread"' }))[member];
    assert.equal(read("1"), 1);
    assert.equal(read("4294967295"), 4294967295);
    refuses(line({ [member]: "4294967296" }), /is above 4294967295, the most that can stand here/);
    refuses(line({ [member]: '"9007199254740993"' }), /is above 4294967295, the most that can stand here/);
    refuses(line({ [member]: '"5"' }), /in quotes though not above/);
  }
  assert.equal(readLine(line({ field: "0" })).field, 0);
  refuses(line({ id: "0" }), /never 0/);
  refuses(line({ ptr: "0" }), /never 0/);
  assert.deepEqual(readLine(line({ info: "[0,4294967295,1,2]" })).info, [0, 4294967295, 1, 2]);
  refuses(line({ info: "[0,0,0,4294967296]" }), /is above 4294967295, the most that can stand here/);
});

test("every other form of a number is refused, in every member", () => {
  const notPlain = ["1e3", "1E3", "1.0", "-1", "-0", "+1", "0x10", "1_000", "12n", " 1", "1 ", "NaN", "null", "true", "\u0661"];
  for (const member of ["key", "ticks", "us", "id", "ptr", "field"]) {
    for (const text of notPlain) refuses(line({ [member]: text }), /not plain digits/);
    for (const text of notPlain) refuses(line({ [member]: `"${text}"` }), /not plain digits/);
    for (const text of ["007", "00", "09007199254740993", '"09007199254740993"']) refuses(line({ [member]: text }), /leading zeros/);
    refuses(line({ [member]: "" }), /expected a number/);
    refuses(line({ [member]: '""' }), /no digits/);
    refuses(line({ [member]: "[1]" }), /not plain digits/);
    refuses(line({ [member]: '"9007199254740993' }), /not plain digits/);
  }
  for (const text of notPlain) refuses(line({ info: `[1,2,${text},4]` }), /not plain digits/);
  for (const cut of ['{"key":"', '{"key":"9007199254740993']) refuses(cut, /cut off/);
});

test("names byte by byte", () => {
  for (let byte = 0; byte < 256; byte += 1) {
    const character = String.fromCharCode(byte);
    const escape = `\\u00${byte.toString(16).padStart(2, "0")}`;
    const plain = byte >= 0x20 && byte <= 0x7e;
    if (plain) refuses(line({ name: `"${escape}"` }), /not printed so/);
    else if (byte === 0) refuses(line({ name: `"${escape}"` }), /zero byte/);
    else assert.equal(readLine(line({ name: `"${escape}"` })).name, character);
    if (!plain) refuses(line({ name: `"${character}"` }), /must be escaped/);
    else if (character !== '"' && character !== "\\") assert.equal(readLine(line({ name: `"${character}"` })).name, character);
  }
  assert.equal(readLine(line({ name: '"A\\"\\u000a"' })).name, 'A"\n');
  assert.equal(readLine(line({ name: '"\\\\"' })).name, "\\");
  assert.equal(readLine(line({ name: '""' })).name, "");
});

// A line with a name in either place: the event's own, or the thread's in a line that was made with a name file.
const WITH_A_FILE = [["event", (text) => line({ event: text })], ["name", (text) => line({ event: "null", name: text })]];

test("with a name file, names byte by byte, zeros too", () => {
  for (const [member, lineOf] of WITH_A_FILE) {
    for (let byte = 0; byte < 256; byte += 1) {
      const character = String.fromCharCode(byte);
      const escape = `\\u00${byte.toString(16).padStart(2, "0")}`;
      const plain = byte >= 0x20 && byte <= 0x7e;
      if (plain) refuses(lineOf(`"${escape}"`), /not printed so/);
      else assert.equal(readLine(lineOf(`"${escape}"`))[member], character);
      if (!plain) refuses(lineOf(`"${character}"`), /must be escaped/);
      else if (character !== '"' && character !== "\\") assert.equal(readLine(lineOf(`"${character}"`))[member], character);
    }
    assert.equal(readLine(lineOf('"A\\"\\u000a\\u0000"'))[member], 'A"\n\0');
    assert.equal(readLine(lineOf('""'))[member], "");
    assert.equal(readLine(lineOf('"null"'))[member], "null");
    assert.equal(readLine(lineOf("null"))[member], null);
  }
});

test("every other form of a name is refused", () => {
  for (const lineOf of [(text) => line({ name: text }), ...WITH_A_FILE.map(([, lineOf]) => lineOf)]) {
    for (const text of ["\\n", "\\/", "\\b", "\\t", "\\u000A", "\\u0100", "\\ud800", "\\u00", "\\U000a", "\\x0a"]) {
      refuses(lineOf(`"${text}"`), /escape other than/);
    }
    for (const text of ["\u0100", "\u20ac", "\ud83d\ude00", "\ud800"]) refuses(lineOf(`"${text}"`), /must be escaped/);
    for (const text of ["Null", "pump", "0", "'pump'", "", "[]", "{}", "undefined", "false"]) refuses(lineOf(text), /expected "/);
  }
  for (const text of [line(), line({ event: '"pump"' })]) refuses(text.slice(0, text.indexOf('mp",')), /the name is cut off/);
});

test("names on both sides of their limits", () => {
  const named = (length, character = "p") => `"${character.repeat(length)}"`;
  for (const character of ["\\\\", "\\u00ff"]) assert.equal(readLine(line({ name: named(64, character) })).name.length, 64);
  refuses(line({ name: named(65) }), /longer than 64/);
  refuses(line({ name: named(65, "\\u00ff") }), /longer than 64/);
  for (const [member, lineOf] of WITH_A_FILE) {
    for (const length of [64, 65, LONGEST - 1, LONGEST]) assert.equal(readLine(lineOf(named(length)))[member].length, length);
    for (const character of ["\\u0000", "\\\\"]) assert.equal(readLine(lineOf(named(LONGEST, character)))[member].length, LONGEST);
    refuses(lineOf(named(LONGEST + 1)), /longer than 65528/);
    refuses(lineOf(named(LONGEST + 1, "\\u00ff")), /longer than 65528/);
  }
});

test("only a name that a dump can have is gone", () => {
  const gone = (name) => line({ event: "null", name, gone: "true" });
  for (const name of ['"pump"', '""', `"${"p".repeat(64)}"`, '"\\u0001"']) assert.equal(readLine(gone(name)).gone, true);
  for (const name of [`"${"p".repeat(65)}"`, '"\\u0000"', '"pump\\u0000"']) {
    refuses(gone(name), /no dump has such a name, so it is not gone: expected false/, columnOf(gone(name), "true"));
    assert.equal(readLine(line({ event: "null", name })).gone, false);
  }
  refuses(gone("null"), /there is no name, so none is gone/);
});

test("the event's own name stands behind the id, once, whatever the context", () => {
  const member = ',"event":"start"';
  const without = line();
  const named = without.replace(',"ptr"', `${member},"ptr"`);
  assert.equal(readLine(named).event, "start");
  for (const before of ['"key"', ',"ticks"', ',"us"', ',"id"', ',"by"', ',"name"', ',"gone"', ',"field"', ',"info"', "]}", "}"]) {
    refuses(without.replace(before, `${member}${before}`), /expected|plain digits/);
    refuses(named.replace(before, `${member}${before}`), /expected|plain digits/);
  }
  refuses(named.replace(member, member + member), /expected ,"ptr"/);
  for (const other of ['"Event"', "event", "'event'", '"event "', '"own"']) refuses(named.replace('"event"', other), /expected ,"ptr"/);
  refuses(named.replace('"event":', '"event" :'), /expected ,"ptr"/);
  const init = { ptr: "4042322160", by: '"init"', name: "null" };
  assert.equal(readLine(line({ ...init, event: '"start"' })).event, "start");
  refuses(line({ ...init, event: '"start"', name: '"pump"' }), /init event has no name/);
  assert.equal(readLine(line({ ptr: "4294967295", by: '"isr"', event: '"start"' })).event, "start");
});

test("all lines of a listing tell their event's name, or none does", () => {
  const [bare, named, none] = [{}, { event: '"start"' }, { event: "null" }].map((own) => (key) => line({ key, ...own }));
  assert.equal(readListing(listing(named("7"), none("8"), named("9"))).length, 3);
  assert.equal(readListing(listing(bare("7"), bare("8"), bare("9"))).length, 3);
  refusesListing(listing(named("7"), none("8"), bare("9")), 3, /the line has no "event", and the first line has one/, 1);
  refusesListing(listing(none("7"), bare("8")), 2, /the line has no "event"/, 1);
  refusesListing(listing(bare("7"), none("8")), 2, /the line has an "event", and the first line has none/, 1);
  refusesListing(listing(bare("7"), bare("8"), named("9")), 3, /the line has an "event"/, 1);
});

test("the context is that of the pointer, and init has no name", () => {
  assert.equal(readLine(line({ ptr: "4042322160", by: '"init"', name: "null" })).by, "init");
  assert.equal(readLine(line({ ptr: "4294967295", by: '"isr"' })).by, "isr");
  refuses(line({ ptr: "4042322160", by: '"init"' }), /init event has no name/);
  refuses(line({ ptr: "4042322160" }), /expected ,"by":"init"/);
  for (const by of ['"isr"', '"init"', '"Thread"', "null", "thread"]) refuses(line({ by }), /expected ,"by":"thread"/);
});

test("a name is gone or not, and only a name is", () => {
  for (const name of ['"pump"', '""', '"null"', '"A\\"\\u000a"']) {
    assert.equal(readLine(line({ name, gone: "true" })).gone, true);
    assert.equal(readLine(line({ name, gone: "false" })).gone, false);
  }
  const interrupt = { ptr: "4294967295", by: '"isr"' };
  const init = { ptr: "4042322160", by: '"init"', name: "null" };
  assert.equal(readLine(line({ ...interrupt, gone: "true" })).gone, true);
  for (const nameless of [{ name: "null" }, { ...interrupt, name: "null" }, init]) {
    assert.equal(readLine(line({ ...nameless, gone: "false" })).gone, false);
    const text = line({ ...nameless, gone: "true" });
    refuses(text, /there is no name, so none is gone: expected false/, columnOf(text, "true"));
  }
  refuses(line({ ...init, name: '"pump"', gone: "true" }), /init event has no name/);
});

test("every other form of gone is refused", () => {
  const others = [
    "0", "1", '"true"', '"false"', "'true'", "True", "False", "TRUE", "FALSE", "t", "f", "tru", "fals", "yes", "no", "null", "undefined", "{}", "[true]",
    "!0", "\\u0074rue", " true", " false", "\ttrue", "\ufefftrue", "",
  ];
  for (const name of ['"pump"', "null"]) {
    const place = columnOf(line({ name }), '"gone":') + 7;
    for (const gone of others) refuses(line({ name, gone }), /expected true or false but found/, place);
    for (const gone of ["false ", "falsey", "falsetrue", "false\r", "false\u0000"]) refuses(line({ name, gone }), /expected ,"field"/, place + 5);
  }
  for (const gone of ["true ", "trues", "truefalse", "true\t"]) refuses(line({ gone }), /expected ,"field"/);
  for (const member of ['"Gone"', "gone", "'gone'", '"gone "', '"removed"']) refuses(line().replace('"gone"', member), /expected ,"gone":/);
  refuses(line().replace('"gone":', '"gone" :'), /expected ,"gone":/);
});

test("gone stands behind the name, once", () => {
  const lineWithout = (text) => text.replace(/,"gone":(?:true|false)/, "");
  for (const gone of ["true", "false"]) {
    const without = lineWithout(line({ gone }));
    assert.equal(without.includes("gone"), false);
    refuses(without, /expected ,"gone": but found ,"field":16/, columnOf(without, ',"field"'));
    for (const before of [',"name"', ',"by"', ',"info"']) refuses(without.replace(before, `,"gone":${gone}${before}`), /expected ,"(?:gone|name|by)"/);
    refuses(without.replace("]}", `],"gone":${gone}}`), /expected ,"gone":/);
    refuses(without.replace("{", `{"gone":${gone},`), /expected {"key":/);
    for (const again of ["true", "false"]) refuses(line({ gone: `${gone},"gone":${again}` }), /expected ,"field"/);
  }
  for (const each of DOCUMENT_LINES) refuses(lineWithout(each), /expected ,"gone":/);
  refusesListing(listing(DOCUMENT_LINES[0], lineWithout(DOCUMENT_LINES[1])), 2, /expected ,"gone":/);
});

test("missing, repeated, reordered and extra members are refused", () => {
  for (const text of [line(), line({ event: '"start"' })]) {
    const members = text.slice(1, -1).match(/"[a-z]+":(?:\[[^\]]*\]|[^,]*)/g);
    assert.equal(`{${members.join(",")}}`, text);
    for (let index = 0; index < members.length; index += 1) {
      const without = members.filter((_, other) => other !== index);
      const put = (at, member) => `{${[...without.slice(0, at), member, ...without.slice(at)].join(",")}}`;
      // A line may lack the event's own name, and nothing else.
      if (members[index] !== '"event":"start"') refuses(`{${without.join(",")}}`, /expected/);
      for (let at = 0; at < members.length; at += 1) {
        if (at !== index) refuses(put(at, members[index]), /expected/);
        refuses(put(at, `${members[index]},"more":1`), /expected/);
        refuses(put(at, `${members[index]},${members[index]}`), /expected/);
      }
    }
  }
  for (const info of ["[]", "[1,2,3]", "[1,2,3,4,5]", "{}", "[1,2,3,4,]", "[1,2,3,[4]]"]) refuses(line({ info }), /expected|plain digits/);
});

test("text before, after or between, another text, a cut line and no text at all are refused", () => {
  for (const rest of [" ", "\r", "\n", ",", "}", line()]) refuses(line() + rest, /text follows/);
  for (const before of [" ", "\ufeff", "[", "\n"]) refuses(before + line(), /expected/);
  for (const other of ["", "{}", "[]", "4 0", "null", "7"]) refuses(other, /expected/);
  for (const mark of [",", ":", "{", "}", "[", "]"]) {
    refuses(line().replace(mark, ` ${mark}`), /expected|plain digits/);
    refuses(line().replace(mark, `${mark} `), /expected|plain digits|text follows/);
  }
  for (let length = 0; length < line().length; length += 1) refuses(line().slice(0, length), /expected|cut off|plain digits/);
  for (const other of [undefined, null, 7, {}, new String(line())]) refuses(other, /not a text/);
});

test("a line with one character changed, added or taken away is refused or says what it prints", () => {
  const characters = '0159"\\,:{}[]-+.eEu nflatrsA\u0000\n\u007f\u00e9\u0660\uff11';
  const lines = [
    ...DOCUMENT_LINES, ...NAMED_LINES, line({ gone: "true" }), line({ ptr: "4042322160", by: '"init"', name: "null" }),
    line({ event: '"A\\"\\u0000"', name: '"\\u0000"' }), line({ event: '""', gone: "true" }),
    line({ name: '"A\\"\\u000a\\\\"', ticks: "9007199255", us: '"9007199255000000"' }),
  ];
  let accepted = 0;
  const isRefusedOrSame = (text) => {
    try {
      assert.equal(printed(readLine(text)), text);
      accepted += 1;
    } catch (error) {
      if (!(error instanceof RefusedLine)) throw error;
    }
  };
  for (const each of lines) {
    isRefusedOrSame(each);
    for (let at = 0; at < each.length; at += 1) {
      isRefusedOrSame(each.slice(0, at) + each.slice(at + 1));
      for (const character of characters) {
        isRefusedOrSame(each.slice(0, at) + character + each.slice(at + 1));
        isRefusedOrSame(each.slice(0, at) + character + each.slice(at));
      }
    }
  }
  assert.ok(accepted > lines.length, "some changed digits make other sound lines");
});

test("a listing is whole lines whose keys go up by one", () => {
  assert.deepEqual(readListing(""), []);
  assert.equal(readListing(listingOfKeys("9007199254740990", "9007199254740991")).length, 2);
  assert.equal(readListing(listingOfKeys('"9007199254740992"', '"9007199254740993"')).length, 2);
  refusesListing(line(), 1, /cut off/);
  refusesListing(listingOfKeys("7") + line({ key: "8" }), 2, /cut off/);
  refusesListing(listingOfKeys("7") + "{", 2, /cut off/);
  for (const text of ["\n", "\r\n"]) refusesListing(text, 1, /expected/);
  refusesListing(`${listingOfKeys("7")}\n`, 2, /expected/);
  refusesListing(listingOfKeys("7").replace("\n", "\r\n"), 1, /text follows/);
  refusesListing(listingOfKeys("7", "8", "1e3"), 3, /not plain digits/);
  refusesListing(listingOfKeys("7", "8", "8"), 3, /8 is that of line 2 already/);
  refusesListing(listingOfKeys("7", "8", "7"), 3, /7 is that of line 1 already/);
  refusesListing(listingOfKeys("7", "9"), 2, /go up by one/);
  refusesListing(listingOfKeys("7", "6"), 2, /go up by one/);
  refusesListing(listingOfKeys("1099511627775", "1099511627776"), 2, /next unit/);
  refusesListing(listingOfKeys("9007199254740991", '"9007199254740992"'), 2, /next unit/);
  for (const given of [undefined, null, 7, [line()]]) refusesListing(given, 1, /not a text/);
});

test("a refusal in the place of a listing is told as one", () => {
  const refusal = { name: "RefusedListing", number: 11, place: 3, words: "entry 3 is in use with a type that is not allowed" };
  const isTold = (error) => error instanceof RefusedListing && !(error instanceof RefusedLine);
  assert.throws(() => readListing("11 3\n"), { ...refusal, message: "11 3: entry 3 is in use with a type that is not allowed" });
  for (const text of ["1 0\n", "2 0\n", "15 0\n", "26 65488\n", "99 0\n", "26 999999999999999\n"]) assert.throws(() => readListing(text), isTold);
  // Also where a number of events is expected.
  assert.throws(() => readListing("11 3\n", { events: 0 }), refusal);
  assert.throws(() => readListing("27 5\n"), { number: 27, place: 5, words: /^the record at offset 5 of the name file / });
  assert.throws(() => readListing("29 5\n"), { number: 29, place: 5, words: "a refusal that is not known here" });
  for (const text of ["11 3", "11", "11 3\r\n", " 11 3\n", "11  3\n", "11 3 \n", "011 3\n", "0 0\n", "11 03\n", "100 3\n", "-1 0\n", "11 3\n\n", "11 3\n11 3\n", "26 1e3\n"]) {
    refusesListing(text, 1, /expected|cut off/);
  }
  refusesListing(`${listingOfKeys("7")}11 3\n`, 2, /expected/);
  refuses("11 3", /expected/);
});

test("a listing has as many events as are expected, where a number is given", () => {
  const two = listingOfKeys("7", "8");
  for (const events of [2, 2n, "2", undefined]) assert.equal(readListing(two, { events }).length, 2);
  for (const events of [0, 0n, "0", -0]) assert.deepEqual(readListing("", { events }), []);
  assert.equal(readListing(two, {}).length, 2);
  const isAnother = (text, events, line) =>
    assert.throws(() => readListing(text, { events }), (error) => isRefusal(error, line, new RegExp(`number of events is ${line - 1}: expected ${events}$`), 1));
  isAnother("", 3, 1);
  isAnother(two, 3, 3);
  isAnother(two, 1n, 3);
  isAnother(two, "0", 3);
  // A tail that is lost within a line is found without a number.
  refusesListing(two.slice(0, -1), 2, /cut off/);
  // A number that is missing, or that a float has changed, is a mistake of the page, and never 0.
  for (const events of [null, "", " 2", "2 ", "2.0", "02", "two", 2.5, NaN, 2 ** 53, true, {}, [2]]) assert.throws(() => readListing(two, { events }), TypeError);
});

test("a listing's ticks begin at 0 and go on by less than the widest timer's range", () => {
  const ofTicks = (...all) => listing(...all.map((ticks, index) => line({ key: `${7 + index}`, ticks: `${ticks}` })));
  assert.equal(readListing(ofTicks(0, 0, 4294967295, 8589934590)).length, 4);
  refusesListing(ofTicks(1), 1, /the oldest event has 1 ticks/, 1);
  refusesListing(ofTicks(9, 9), 1, /the oldest event has 9 ticks/, 1);
  refusesListing(ofTicks(0, 5, 4), 3, /go back from 5 to 4/, 1);
  refusesListing(ofTicks(0, 5, 0), 3, /go back from 5 to 0/, 1);
  refusesListing(ofTicks(0, 4294967296), 2, /leap from 0 to 4294967296/, 1);
  refusesListing(ofTicks(0, 1, 4294967297), 3, /leap from 1 to 4294967297/, 1);
});

test("a listing has at most 2,046 lines", () => {
  const farthest = (count) => Array.from({ length: count }, (_, index) => line({ key: `${index}`, ticks: `${Math.min(index, 2045) * 4294967295}` }));
  const events = readListing(listing(...farthest(2046)));
  assert.equal(events.length, 2046);
  assert.equal(events[2045].ticks, 8783208118275n);
  refusesListing(listing(...farthest(2047)), 2047, /at most 2046 lines/, 1);
});

test("a refusal tells where the line stops being one of the listing", () => {
  const place = (text, part, reason) => refuses(text, reason, columnOf(text, part));
  refuses("", /expected/, 1);
  refuses(` ${line()}`, /expected/, 1);
  refuses(`${line()} `, /text follows/, line().length + 1);
  refuses('{"key":"', /cut off/, 8);
  place(line({ id: "0" }), '0,"ptr"', /never 0/);
  place(line({ ptr: "4294967296" }), "4294967296", /is above/);
  place(line({ info: "[1,2,03,4]" }), "03", /leading zeros/);
  place(line({ by: '"isr"' }), ',"by"', /expected/);
  place(line({ name: '"pu\\n"' }), "\\n", /escape other than/);
  place(line({ gone: "1" }), '1,"field"', /expected true or false/);
  place(line({ name: `"${"p".repeat(65)}"` }), 'p","gone"', /longer than 64/);
  place(line({ event: `"${"p".repeat(LONGEST + 1)}"` }), 'p","ptr"', /longer than 65528/);
  place(line({ event: '"pu\\n"' }), "\\n", /escape other than/);
  place(line({ event: "1" }), '1,"ptr"', /expected "/);
  refusesListing(listingOfKeys("7", "8").slice(0, -1), 2, /cut off/, line().length + 1);
  refusesListing(listingOfKeys("7", "9"), 2, /go up by one/, 1);
  refusesListing(listing(line(), line({ key: "8", ticks: "1.0" })), 2, /not plain digits/, columnOf(line(), '0,"us"'));
});

test("a careless page sees one key for two events, and this reader does not", () => {
  const highest = [0n, 1n, 2n].map((serial) => `"${16777215n * 2n ** 40n + serial}"`);
  for (const printed of [listing(...DOCUMENT_LINES), listingOfKeys(...highest)]) {
    const careless = unquotedKeys(printed);
    const carelessKeys = careless.trimEnd().split("\n").map((each) => JSON.parse(each).key);
    assert.equal(carelessKeys.length, 3);
    assert.ok(new Set(carelessKeys).size < 3, "two of three neighbouring keys became one float");
    refusesListing(careless, 1, /bare and above/);
    assert.equal(new Set(readListing(printed).map((event) => event.key)).size, 3);
    assert.equal(new Set(readListing(printed).map((event) => event.keyText)).size, 3);
  }
});

test("a page that parses the lines itself sees a boolean", () => {
  for (const gone of [true, false]) {
    const text = line({ gone: `${gone}` });
    assert.equal(JSON.parse(text).gone, gone);
    assert.equal(readLine(text).gone, gone);
  }
  for (const each of DOCUMENT_LINES) assert.equal(JSON.parse(each).gone, false);
  // In quotes either word would count as true.
  assert.ok(JSON.parse(line({ gone: '"false"' })).gone);
});

test("a page that compares loosely takes no bare key for a quoted one", () => {
  const parsed = (key) => JSON.parse(line({ key })).key;
  const printed = ["9007199254740990", "9007199254740991", '"9007199254740992"', '"9007199254740993"'].map((key) => readLine(line({ key })) && parsed(key));
  for (const one of printed) for (const other of printed) assert.equal(one == other, one === other);
  assert.ok(parsed("9007199254740992") == parsed('"9007199254740993"'), "so it would if 2^53 were bare");
});

const isEventLine = (each) => each.startsWith('{"key":');
const corpusLines = () => readFileSync(CORPUS_ANSWERS, "latin1").split("\n");
const peerKeys = () => readFileSync(PEER_KEYS, "latin1").trimEnd().split("\n").map((each) => each.split(" "));

/** The events' lines of each answer with the line before them, which tells the answer's length and parts it from the one before. */
function corpusAnswers() {
  const answers = [];
  let before = "";
  for (const each of corpusLines()) {
    if (isEventLine(each) && !isEventLine(before)) answers.push({ before, lines: [] });
    if (isEventLine(each)) answers.at(-1).lines.push(each);
    before = each;
  }
  return answers;
}

test("every line of the corpus is read, under the peer's key", () => {
  const lines = corpusLines().filter(isEventLine);
  const peer = peerKeys();
  assert.equal(lines.length, peer.length);
  const ofListings = new Map();
  const [names, owns] = [new Set(), new Set()];
  lines.forEach((each, index) => {
    const [kind, keyText] = peer[index];
    const event = readLine(each);
    assert.match(kind, /^[aAlL]$/);
    assert.equal("event" in event, kind === kind.toUpperCase());
    assert.equal(event.keyText, keyText, `line ${index + 1} of the corpus`);
    assert.equal(event.key, BigInt(keyText));
    assert.equal(printed(event), each);
    names.add(event.name === null ? "none" : event.gone ? "gone" : "live");
    if ("event" in event) owns.add(event.event === null ? "none" : "some");
    if (kind !== "a") return;
    assert.ok(!ofListings.has(event.key), `the key ${keyText} comes twice`);
    ofListings.set(event.key, each.startsWith('{"key":"') ? "quoted" : "bare");
  });
  assert.ok(ofListings.size >= FEWEST_CORPUS_KEYS, `only ${ofListings.size} keys of whole listings`);
  assert.deepEqual([...new Set(ofListings.values())].sort(), ["bare", "quoted"]);
  assert.deepEqual([...names].sort(), ["gone", "live", "none"]);
  assert.deepEqual([...owns].sort(), ["none", "some"]);
});

test("every whole listing of the corpus is read as one and prints back", () => {
  const kinds = peerKeys().map(([kind]) => kind);
  const counts = { a: 0, A: 0 };
  for (const { before, lines } of corpusAnswers()) {
    const text = listing(...lines);
    assert.equal(before, `${text.length} 0`);
    const [kind, ...others] = kinds.splice(0, lines.length);
    assert.ok(others.every((other) => other === kind && kind in counts), "only a whole listing has several lines");
    if (!(kind in counts)) continue;
    counts[kind] += 1;
    assert.equal(listing(...readListing(text).map(printed)), text);
  }
  assert.deepEqual(kinds, []);
  for (const count of Object.values(counts)) assert.ok(count >= FEWEST_CORPUS_LISTINGS, `only ${count} whole listings`);
});
