// The facts that the page shows of an explanation, and what it says of files: the accident by hand, and a file of every kind.
"use strict";
const fs = require("fs");
const path = require("path");
const { project, read, sample, expect, holds } = require("./common.js");

const bytes = text => new TextEncoder().encode(text);
const file = name => new Uint8Array(fs.readFileSync(path.join(project, name)));
const picked = (from, ...fields) => Object.fromEntries(fields.map(field => [field, from[field]]));

// the accident, from the recording to the named culprit
function accident(p) {
    const [before, after] = ["before", "after"].map(name => p.SheetText.bytes(read(`examples/accident/${name}.txt`)));
    const made = p.makeTrace(p.proved, { name: "laptop.hex", bytes: file("examples/accident/laptop.hex") }, before);
    expect("its trace", made.traces.map(trace => [trace.name, trace.events.length]), [["laptop.trace", 9]]);
    expect("its files", made.files.map(one => one.name), ["laptop.trace", "laptop.trace.times", "laptop.trace.evidence"]);
    const told = p.explain(p.proved, { before: { name: "before.sheet", bytes: before }, traces: made.traces, after: { name: "after.sheet", bytes: after } });
    // line by line what docs/TRACE.md has of it, and of the other morning
    const document = read("docs/TRACE.md"), due = command => document.split(`    $ build/trace ${command}\n`)[1].split(/\n(?! {4}[^$]|\n)/)[0].trimEnd().split("\n").map(line => line.slice(4));
    expect("the accident is made", made.said, due("make hex examples/accident/laptop.hex laptop.trace --sheet before.sheet"));
    expect("the accident's lines", told.lines, due("explain before.sheet laptop.trace --final after.sheet"));
    const stopped = p.makeTrace(p.proved, { name: "stopped.xml", bytes: file("examples/accident/stopped.xml") }, before);
    expect("the other morning is made", stopped.said, due("make ets examples/accident/stopped.xml stopped.trace --sheet before.sheet"));
    expect("its lines", p.explain(p.proved, { before: { name: "before.sheet", bytes: before }, traces: stopped.traces }).lines, due("explain before.sheet stopped.trace"));
    const [height, group] = told.changes;
    expect("the height", picked(height, "at", "length", "name", "words", "location", "first", "last", "firstNumber", "lastNumber", "doubts", "left"),
        { at: 64, length: 2, name: "property 1/51 element 1", words: ["property 1/51 element 1: 1000 → 1020"], location: true, first: "1000", last: "1020", firstNumber: 1000, lastNumber: 1020, doubts: [], left: [] });
    expect("who wrote it", picked(height.by[0].event, "number", "index", "time", "from", "connection", "level", "outcome", "done"),
        { number: 3, index: 2, time: "2026-03-02T08:02:12.512", from: "1.1.251", connection: 0, level: 1, outcome: 0, done: true });
    expect("by which offer", picked(height.by[0].event.offer, "number", "words"), { number: 2, words: "authorize_request key=hidden" });
    expect("its plot", height.plot.map(point => [point.event, point.time, point.value, point.refused]),
        [[0, null, 1000, false], [3, "2026-03-02T08:02:12.512", 1020, false], [8, "2026-03-02T08:15:02.118", 640, true]]);
    expect("the group", [group.location, group.by[0].event.level, group.by[0].event.connection, group.by[0].event.offer], [false, 3, null, null]);
    const [culprit] = told.final.places[0].refused;
    expect("the culprit", [culprit.event.from, culprit.event.number, culprit.why, culprit.askedNumber, culprit.askedWords, culprit.otherwise, culprit.doubts],
        ["1.1.250", 8, "needs level 1, the connection has level 2", 640, "640", false, []]);
    expect("the dump", picked(told.final, "kind", "follows"), { kind: "past", follows: "somebody wrote past the device, or the traces lack events" });
    expect("its place", picked(told.final.places[0], "at", "never", "dumpNumber", "words"), { at: 64, never: true, dumpNumber: 640, words: ["property 1/51 element 1: 1020 → 640"] });
    // a place that nobody touched, and one whose key nobody sees
    expect("a byte of memory", picked(p.placeAt(told, 60), "name", "first", "words", "steps"), { name: "memory 0100h", first: "a0", words: [], steps: [] });
    expect("a key", picked(p.placeAt(told, 20), "name", "first", "last", "firstNumber"), { name: "key of level 0", first: null, last: null, firstNumber: null });
    holds("no key is told", !JSON.stringify(told.lines.concat(told.events.map(event => event.words))).includes("22222222"));
    return { before, made };
}

// why a request was refused, of each kind of place
function refusals(p, before) {
    const cases = [
        ["43d10022222222", "47d70133100103fc", 64, null], // allowed
        ["43d100ffffffff", "47d7013310010280", 64, "needs level 1, the connection has level 2"],
        ["43d10013579bdf", "46810100ff", 60, "needs level 2, the connection has level 3"],
        ["43d10022222222", "47d30011223344", 18, "needs level 0, the connection has level 1"],
        ["43d10022222222", "47d701331001028000", 64, "no such elements, or data of another length"],
        ["43d10022222222", "468501000000000000", 60, "the range is not within one region"],
    ];
    for (const [offer, write, at, why] of cases) {
        const text = `connect connection=0\nrequest mode=3 connection=0 apdu=${offer}\nrequest mode=3 connection=0 apdu=${write}\nend\n`;
        const made = p.makeTrace(p.proved, { name: "a.txt", bytes: bytes(text) }, null);
        const told = p.explain(p.proved, { before: { name: "before", bytes: before }, traces: made.traces }), place = p.placeAt(told, at);
        expect(`${write} after ${offer}`, [made.refused, place.refused.map(one => one.why)], [null, why ? [why] : []]);
    }
}

// every kind of file
function kinds(p, before, made) {
    const old = before.slice(), bad = before.slice(), digits = Buffer.from(before).toString("hex");
    old[0] = 1;
    bad[47] = 3;
    const cases = [
        ["before.sheet", before, "sheet", "a sheet, 69 bytes", null],
        ["before.txt", file("examples/accident/before.txt"), "sheet", "a sheet as text, 69 bytes", null],
        ["digits", bytes(digits), "sheet", "a sheet in hex digits, 69 bytes", null],
        ["digits in lines", bytes(digits.replace(/(..)/g, "$1 ").replace(/(.{48})/g, "$1\n")), "sheet", "a sheet in hex digits, 69 bytes", null],
        ["sample.inc", file("hosts/sample_sheet.inc"), "sheet", `a sheet as a list of bytes for C, ${sample.length} bytes`, null],
        ["old", old, "old sheet", "an old sheet, 69 bytes", "old: convert it"],
        ["bad", bad, "bad sheet", "a sheet that is not accepted, 69 bytes", "S7: property 1/51, count 3 above maximum 2"],
        ["hidden.txt", bytes(read("examples/accident/before.txt").replace("5a17c0de", "hidden")), "bad sheet", "a sheet as text", "line 9: key 0 is hidden: show the sheet with --keys"],
        ["cut", before.slice(0, 60), "cut sheet", "no whole dump: 60 of 69 bytes", "no whole dump: 60 of 69 bytes"],
        ["cut digits", bytes(digits.slice(0, 120)), "cut sheet", "no whole dump: 60 of 69 bytes, in hex digits", "no whole dump: 60 of 69 bytes"],
        ["laptop.hex", file("examples/accident/laptop.hex"), "hex", "a recording in hex, 25 frames", null],
        ["confirmed", bytes("08:00:01 2e00b06011fb11050080\n"), "hex", "a recording in hex, 1 frame", null],
        ["newest first", file("tools/trace/tests/evidence/newest-first.hex"), "hex", "a recording in hex, 10 frames, the newest first", null],
        ["spoiled", bytes(read("examples/accident/laptop.hex").replace("2900b06011fb11050080", "2900b06011fb1105008")), "hex", "a recording in hex", "line 4, column 44: half a byte"],
        ["stopped.xml", file("examples/accident/stopped.xml"), "ets", "a recording of ETS, 11 frames", null],
        ["utf-16.xml", file("tools/trace/tests/evidence/utf-16.xml"), "ets", "a recording of ETS, 10 frames", null],
        ["knxtool", file("tools/trace/tests/evidence/knxtool-whole.knxtool"), "knxtool", "a recording of knxtool, 20 frames", null],
        ["bare monitor", bytes("B0 11 FB 11 05 60 80 51\nCC\n"), "knxtool", "a recording of knxtool, 2 frames", null],
        ["trace text", bytes("1 connect connection=0\nend\n"), "trace text", "a trace as text, 1 event", null],
        ["cut trace text", bytes("1 connect connection=0\n"), "trace text", "a trace as text", "line 1: end is missing as the last line: the text may have been cut off"],
        [made.files[0].name, made.files[0].bytes, "trace", "a trace of 9 events", null],
        ["trace in digits", bytes(Buffer.from(made.files[0].bytes).toString("hex")), "trace", "a trace of 9 events, in hex digits", null],
        [made.files[1].name, made.files[1].bytes, "times", "the times of a trace", null],
        [made.files[2].name, made.files[2].bytes, "evidence", "the evidence of a trace", null],
        ["store", Uint8Array.from([0, 1, 0, 1, 0, 0, 0, 0, 0, 1, 0, 1, 0, 16, 0, 2, 0, 0]), "store", "a store of 1 version, 18 bytes", null],
        ["README.md", file("README.md"), "text", "a text", "it is no sheet, store, trace or recording"],
        ["json", bytes("{}"), "json", "JSON", "it is no sheet, store, trace or recording"],
        ["zip", Uint8Array.from([0x50, 0x4b, 3, 4, 0xff]), "archive", "an archive", "it is no sheet, store, trace or recording"],
        ["picture", Uint8Array.from([0x89, 0x50, 0x4e, 0x47, 13, 10, 26, 10]), "unknown", "no sheet, store, trace or recording, 8 bytes", "what it is nobody can tell"],
        ["zeros", new Uint8Array(60), "unknown", "no sheet, store, trace or recording, 60 bytes", "what it is nobody can tell"],
        ["empty", new Uint8Array(0), "unknown", "an empty file", "it has no bytes"],
    ];
    for (const [name, of, ...due] of cases) {
        const { kind, words, fault } = p.whatIs(p.proved, name, of);
        expect(name, [kind, words, fault], due);
    }
    expect("a sheet's text is its bytes", [...p.whatIs(p.proved, "a", file("examples/accident/before.txt")).bytes], [...before]);
    return cases.length;
}

// what is refused, with why
function refused(p, before, made) {
    const laptop = file("examples/accident/laptop.hex"), trace = made.files[0], why = call => {
        try {
            return call() && null;
        } catch (error) {
            if (!(error instanceof p.Fault)) throw error;
            return error.message;
        }
    };
    const make = (name, of, sheet, options) => p.makeTrace(p.proved, { name, bytes: of }, sheet, options).refused;
    expect("a sheet as a recording", make("a", before, before), "a: this is a sheet, and a recording in hex is wanted");
    expect("no sheet", make("a", laptop, null), "a: whose frames these are is told by the device's sheet at their start, and there is none");
    expect("a trace as the sheet", make("a", laptop, trace.bytes), "the sheet at their start: this is a trace, and a sheet is wanted");
    const newest = file("tools/trace/tests/evidence/newest-first.hex");
    expect("the newest first", p.makeTrace(p.proved, { name: "a", bytes: newest }, before).reversible, true);
    expect("and in reverse", make("a", newest, before, { reverse: true }), null);
    expect("a sheet as a trace", why(() => p.readTrace(p.proved, { name: "a", bytes: before })), "a: this is a sheet, and a trace is wanted");
    const other = { name: "b.times", bytes: bytes("times of a trace: events=1 bytes=10 sum=00000000\nend\n") };
    expect("another's times", why(() => p.readTrace(p.proved, trace, { times: other })), "b.times: line 1: it is not of this trace");
    const explain = (sheet, after) => why(() => p.explain(p.proved, { before: { name: "x", bytes: sheet }, traces: made.traces, after: after && { name: "y", bytes: after } }));
    expect("a cut sheet", explain(before.slice(0, 60)), "x: S4: the head states 69 bytes, the sheet has 60");
    expect("a trace as the dump", explain(before, trace.bytes), "y: this is a trace, and a sheet is wanted");
    expect("a cut dump is told", explain(before, before.slice(0, 60)), null);
    // what is long and odd does not hold the page up
    const long = { blanks: `${" ".repeat(300000)}x\n`, digits: "2".repeat(300001), lost: Array.from({ length: 150000 }, (_, i) => `(${(8 | (i & 7)).toString(16)}, ${i}) CC\n`).join(""), tags: "<a>".repeat(70000) };
    const faults = Object.entries(long).map(([name, text]) => [name, make(name, bytes(text), before, { form: name === "lost" ? "knxtool" : name === "tags" ? "ets" : "hex" })]);
    expect("long files", faults, [["blanks", "blanks: line 1, column 300001: no hex digit"], ["digits", "digits: line 1, column 300002: half a byte"], ["lost", null], ["tags", "tags: line 1, column 196: more than 64 elements in each other"]]);
}

function facts(p) {
    const { before, made } = accident(p);
    refusals(p, before);
    const files = kinds(p, before, made);
    refused(p, before, made);
    return `the accident from recording to culprit, ${files} files by what they are`;
}

module.exports = { facts };
