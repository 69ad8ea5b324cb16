// What the tests of the page share: what is held to what, the project's files, and how something is asked of the page.
"use strict";
const fs = require("fs");
const path = require("path");

const project = path.join(__dirname, "../..");
const read = name => fs.readFileSync(path.join(project, name), "utf8");
const hex = bytes => Buffer.from(bytes).toString("hex");
const sheetIn = name => Uint8Array.from(read(`hosts/${name}.inc`).match(/0x../g), Number);
const sample = sheetIn("sample_sheet"), pump = sheetIn("pump_sheet");
const PARTS = ["start", "sheet", "two", "device", "trace", "demo"];
// the stored run of trace_play: a sheet, and behind it a trace of 59 events on it
const stored = fs.readFileSync(path.join(project, "crates/trace_play/stdin")), storedLength = stored.readUInt16BE(4);
const played = { sheet: stored.subarray(0, storedLength), trace: stored.subarray(storedLength) };
const accident = name => fs.readFileSync(path.join(project, "examples/accident", name));

// pieces of script for the page: the text of an element, a value, bytes
const text = selector => `document.querySelector(${JSON.stringify(selector)}).textContent`;
const given = value => JSON.stringify(value);
const bytesOf = bytes => `Uint8Array.from(${JSON.stringify([...bytes])})`;

const tally = { checks: 0, faults: [], said: [] };
function expect(what, got, wanted) {
    tally.checks++;
    const [a, b] = [JSON.stringify(got), JSON.stringify(wanted)];
    if (a === b) return;
    // from where they differ on
    let at = 0;
    while (a && b && a[at] === b[at]) at++;
    const from = Math.max(0, at - 40), cut = t => (from ? "…" : "") + String(t).slice(from, from + 300);
    tally.faults.push(`${what}\n    got      ${cut(a)}\n    expected ${cut(b)}`);
}
const holds = (what, got) => expect(what, Boolean(got), true);
const has = (what, got, part) => holds(`${what}: “${got}” has no “${part}”`, String(got).includes(part));

module.exports = { project, read, hex, sample, pump, PARTS, played, accident, text, given, bytesOf, tally, expect, holds, has };
