#!/usr/bin/env node
// tests/page/page.js BROWSER PAGE SHEET TRACE OUT: the page in a browser, as a person uses it, with SHEET and TRACE (build/sheet, build/trace)
// to hold it to; leaves pictures in OUT. Says what was tried, and ends with status 1 if anything was other than it should be. ONLY in the environment
// names the tests to run, with commas between them.
"use strict";
const fs = require("fs");
const path = require("path");
const { Browser } = require("./browser.js");
const { tally } = require("./common.js");
const { deviceVectors, otherVectors } = require("./vectors.js");
const { sheetPart, brokenSheets } = require("./part_sheet.js");
const { hostile } = require("./hostile.js");
const { twoPart } = require("./part_two.js");
const { devicePart } = require("./part_device.js");
const { tracePart } = require("./part_trace.js");
const { files } = require("./files.js");
const { accidentTest } = require("./accident.js");
const { demoPart } = require("./part_demo.js");
const { keys } = require("./keys.js");
const { looks, names } = require("./looks.js");
const { quick } = require("./quick.js");
const { network } = require("./network.js");

const [program, page, sheetTool, traceTool, out] = process.argv.slice(2);
const url = "file://" + path.resolve(page);
const tests = {
    vectors: deviceVectors,
    "PDUs and frames": otherVectors,
    "a sheet": sheetPart,
    "broken sheets": brokenSheets,
    "hostile files": hostile,
    "two sheets": b => twoPart(b, sheetTool),
    "the device": devicePart,
    "a trace": tracePart,
    "the accident": b => accidentTest(b, url, { sheet: path.resolve(sheetTool), trace: path.resolve(traceTool) }),
    "any file anywhere": b => files(b, url),
    "the demonstration": demoPart,
    "keys alone": b => keys(b, url),
    looks: b => looks(b, out),
    names,
    quick,
    network: b => network(b, url),
};

async function main() {
    const b = new Browser(program), { faults } = tally;
    fs.mkdirSync(out, { recursive: true });
    try {
        await b.open(url);
        await b.size(1280, 900);
        for (const [name, test] of Object.entries(tests)) {
            if (process.env.ONLY && !process.env.ONLY.split(",").includes(name)) continue;
            const before = faults.length;
            try {
                const told = await test(b);
                console.log(`page: ${name}: ${told}${faults.length > before ? `; ${faults.length - before} other than due` : ""}`);
            } catch (error) {
                faults.push(`${name}: ${error.stack}`);
                console.log(`page: ${name}: not to its end`);
            }
        }
    } finally {
        await b.close();
    }
    for (const line of tally.said) console.log(`page: ${line}`);
    for (const fault of faults.slice(0, 20)) console.log(`page: ${fault}`);
    console.log(`page: ${tally.checks} checks in a browser, ${faults.length} other than due`);
    process.exitCode = faults.length ? 1 : 0;
}
main();
