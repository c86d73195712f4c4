// Tests of the page as one file: it holds the module, its policy lets just its own script and style pass, and it names no other file.
import assert from "node:assert/strict";
import { execFileSync } from "node:child_process";
import { createHash } from "node:crypto";
import test from "node:test";
import { built } from "./built.mjs";

const page = built("lepsaino.html").toString();
const between = (begin, end) => page.slice(page.indexOf(begin) + begin.length, page.indexOf(end, page.indexOf(begin)));
const script = between('<script type="module">', "</script>");
const style = between("<style>", "</style>");
const hash = (text) => `'sha256-${createHash("sha256").update(text).digest("base64")}'`;

test("the module in it is the module", () => {
  const held = Buffer.from(between('<script type="application/wasm" id="module">', "</script>"), "base64");
  assert.deepEqual(held, built("lepsaino.wasm"));
});

test("its policy lets nothing pass but its own script and style", () => {
  const policy = between('Content-Security-Policy" content="', '">').split("; ");
  assert.deepEqual(policy, [
    "default-src 'none'", `script-src ${hash(script)} 'wasm-unsafe-eval'`, `style-src ${hash(style)}`, "img-src data:", "base-uri 'none'", "form-action 'none'",
  ]);
});

test("it names no other file", () => {
  // An empty icon, so that a browser asks for none.
  assert.doesNotMatch(page.replace(script, "").replace(style, "").replace('href="data:,"', ""), /(?:src|href)=/);
  assert.doesNotMatch(script, /^(?:import|export)\b/m);
  assert.doesNotMatch(style, /url\(|@import/);
});

test("its script is one that can be read", () => {
  execFileSync(process.execPath, ["--check", "--input-type=module", "-"], { input: script });
});
