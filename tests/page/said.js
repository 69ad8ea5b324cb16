#!/usr/bin/env node
// tests/page/said.js PAGE RANDOM SCRIPTS..: what the page says of files is what the trace tool says, byte by byte: of every recording of
// tools/trace/tests/evidence, which has the whole of it beside it, and of those in the file RANDOM, with their side files, which
// tools/trace/tests/true_or_marked.rs wrote. SCRIPTS are those of the page that need no document.
"use strict";
const fs = require("fs");
const path = require("path");
const { project, hex, tally, expect } = require("./common.js");
const { facts } = require("./facts.js");
const { library } = require("./library.js");

const [page, random, ...scripts] = process.argv.slice(2);
const FORMS = { hex: "hex", xml: "ets", knxtool: "knxtool" };
const bytes = name => new Uint8Array(fs.readFileSync(name));

// what a recording has for a command, such as # make: --reverse
const wordsFor = (text, command) => (text.split("\n").find(line => line.startsWith(`# ${command}: `)) ?? "").split(" ").slice(2).filter(Boolean);

// what `make` and `explain` say of a recording, as tools/trace/tests/evidence.rs writes it, by the page
function said(p, file, name, form, before) {
    const recording = path.basename(file), text = fs.readFileSync(file, "latin1"), make = wordsFor(text, "make"), trace = `${name}.trace`;
    const made = p.makeTrace(p.proved, { name: recording, bytes: bytes(file) }, before, { form, reverse: make.includes("--reverse"), trace });
    let out = `$ trace ${["make", form, recording, trace, "--sheet", "before", ...make].join(" ")}\n`;
    if (made.refused) return `${out}trace: ${made.refused}\nstatus 2\n`;
    out += made.said.map(line => line + "\n").join("");
    const explain = wordsFor(text, "explain"), dump = file.replace(/\.[a-z]+$/, ".final"), there = fs.existsSync(dump);
    const after = there ? { name: "dump", bytes: p.SheetText.bytes(fs.readFileSync(dump, "utf8")) } : null;
    const told = p.explain(p.proved, { before: { name: "before", bytes: before }, traces: made.traces, after, all: explain.includes("--all") });
    out += `$ trace ${["explain", "before", trace, ...explain, ...(there ? ["--final", "dump"] : [])].join(" ")}\n`;
    return out + told.lines.map(line => line + "\n").join("") + (told.explained ? "" : "status 1\n");
}

// the same of a recording of RANDOM: what is made with its side files, and what is explained
function saidOf(p, { form, text, sheet, dump, all }) {
    const encode = text => new TextEncoder().encode(text), decode = bytes => new TextDecoder().decode(bytes), sheetBytes = Buffer.from(sheet, "hex");
    const made = p.makeTrace(p.proved, { name: "a", bytes: encode(text) }, new Uint8Array(sheetBytes), { form, trace: "a.trace" });
    if (made.refused) return made.refused.replace("a: ", "") + "\n";
    const sides = made.files.filter(file => !file.name.endsWith(".trace")), named = (name, ending) => sides.find(file => file.name === `${name}.${ending}`);
    // once more from the files, as a person has them
    const traces = made.files.filter(file => file.name.endsWith(".trace")).map(file => p.readTrace(p.proved, file, { times: named(file.name, "times"), evidence: named(file.name, "evidence") }));
    const after = dump === null ? null : { name: "dump", bytes: new Uint8Array(Buffer.from(dump, "hex")) };
    const told = p.explain(p.proved, { before: { name: "before", bytes: new Uint8Array(sheetBytes) }, traces, after, all });
    return [...made.said.map(line => line + "\n"), ...sides.map(file => decode(file.bytes)), ...told.lines.map(line => line + "\n")].join("");
}

// what the page says of another file of RANDOM, or what is wrong with it; a text as it is, also with a mark in front
const raw = of => new TextDecoder("utf-8", { ignoreBOM: true }).decode(of);
const OTHERS = {
    trace: (p, of) => `${p.Events.read(of).length} events`,
    sheet: (p, of) => p.brokenRule(of)?.text ?? "good",
    "sheet text": (p, of) => hex(p.SheetText.bytes(raw(of))),
    times: (p, of, trace) => p.Times.write(trace, p.Times.read(raw(of), trace, trace[0] * 256 + trace[1])) ?? "",
    evidence: (p, of, trace) => p.Evidence.read(raw(of), trace, trace[0] * 256 + trace[1]).write(trace),
    "trace text": (p, of) => {
        const all = p.Texts.events(raw(of)), bytes = p.traceOf(all.map(([event]) => event));
        return `${hex(bytes)}\n${p.Times.write(bytes, all.map(one => one[1])) ?? ""}`;
    },
    kind: (p, of) => p.Kinds.NAMES[p.Kinds.of(of)] ?? "nobody can tell",
    text: (p, of) => p.textOf(of),
};
function saidOther(p, { what, of, trace }) {
    const unhex = digits => new Uint8Array(Buffer.from(digits, "hex"));
    try {
        return OTHERS[what](p, unhex(of), unhex(trace));
    } catch (error) {
        if (!(error instanceof p.Fault)) throw error;
        return error.message;
    }
}

/** Faults to plant, each of which must be seen. */
const PLANTED = [
    ["static LIMIT = 6", "static LIMIT = 7"],
    ["static AT_ONCE = 12", "static AT_ONCE = 1"],
    ["const NAMED = 4", "const NAMED = 5"],
    ["const REFUSED = 4, SHORT = 4", "const REFUSED = 3, SHORT = 4"],
    ["if (!transport.wasDue(partner, r.number) && !transport.ended(partner))", "if (!transport.wasDue(partner, r.number))"],
    ['if (ended) out.push({ doubt: "ended", at: ended.at });', ""],
    ["if (this.own() !== own) this.former.add(own);", ""],
    ['if (before) line.waiting = line.waiting.filter(w => w.number !== number);', ""],
    ["if (!fits && otherFits && !evidence.gaps.length) return other.made;", ""],
    ["if (last.nanos - (now.nanos + days) > DAY / 2n) days += DAY;", ""],
    ["(before[p] !== last[p] && last[p] === dump[p])", "(last[p] === dump[p])"],
    ["this.was ||= same(last, dump);", ""],
    ["while (this.writes.get(number)?.pdu.kind === MEMORY_BIT_WRITE)", "while (false)"],
    ["return answer || (connected && (connect <= gap || offered));", "return answer || (connected && connect <= gap);"],
    ["&& known(p.at) === known(first.at);", ";"],
    ["if (status & LOST)", "if (false)"],
    ["indication[control] |= FIRST_SENT;", ""],
    ["all.slice(0, 24)", "all.slice(0, 25)"],
];

const held = (what, got, due) => {
    const [a, b] = [got.split("\n"), due.split("\n")];
    for (let i = 0; i < Math.max(a.length, b.length); i++) expect(`${what}, line ${i + 1}`, a[i], b[i]);
    return tally.faults.length === 0;
};

// holds all to what the tool says; for a planted fault until something is other
function all(p, lines, planted) {
    const folder = path.join(project, "tools/trace/tests/evidence"), counts = { recording: 0 };
    const before = p.SheetText.bytes(fs.readFileSync(path.join(project, "examples/accident/before.txt"), "utf8"));
    const files = fs.readdirSync(folder).filter(file => FORMS[path.extname(file).slice(1)]).sort();
    for (const file of files) {
        const name = path.parse(file).name, form = FORMS[path.extname(file).slice(1)];
        if (!held(file, said(p, path.join(folder, file), name, form, before), fs.readFileSync(path.join(folder, `${name}.out`), "utf8")) && planted) return "";
    }
    for (const [i, one] of lines.entries()) {
        counts[one.what] = (counts[one.what] ?? 0) + 1;
        if (!held(`random ${one.what} ${i}`, one.what === "recording" ? saidOf(p, one) : saidOther(p, one), one.said) && planted) return "";
    }
    if (files.length < 50) tally.faults.push(`${files.length} recordings in ${folder}`);
    return `${files.length} recordings of the trace tool's tests, ${counts.recording} random ones and ${lines.length - counts.recording} other files: ${tally.checks} lines`;
}

async function main() {
    const lines = fs.readFileSync(random, "utf8").trimEnd().split("\n").map(line => JSON.parse(line));
    const p = await library(page, scripts), told = `${all(p, lines, false)}; ${facts(p)}`, faults = tally.faults.splice(0);
    for (const fault of faults.slice(0, 20)) console.log(`page: ${fault}`);
    console.log(`page: ${told}; ${faults.length} other than due`);
    const unseen = [];
    for (const fault of faults.length ? [] : PLANTED) {
        try {
            all(await library(page, scripts, fault), lines, true);
        } catch (error) {
            tally.faults.push(error.message);
        }
        if (process.env.SEEN) console.log(`page: ${fault[0]}: ${tally.faults[0]?.split("\n")[0]}`);
        if (!tally.faults.splice(0).length) unseen.push(fault[0]);
    }
    for (const fault of unseen) console.log(`page: a planted fault was not seen: ${fault}`);
    if (!faults.length) console.log(`page: ${PLANTED.length - unseen.length} of ${PLANTED.length} planted faults were seen in what it says`);
    process.exitCode = faults.length || unseen.length ? 1 : 0;
}
main();
