// The page's library in node: the scripts that need no document, as they stand in the page, over the page's own module.
"use strict";
const { execFileSync } = require("child_process");
const fs = require("fs");
const path = require("path");
const vm = require("vm");
const { project } = require("./common.js");

// loads it from the page, up to the last of these scripts, which the page must have one after the other; with a fault planted in it, if
// one is given: what is replaced, and by what
async function library(page, scripts, [from, to] = ["", ""]) {
    const html = fs.readFileSync(page, "utf8"), text = execFileSync(path.join(project, "mk/bin/bare"), scripts, { encoding: "utf8", maxBuffer: 1 << 24 });
    const start = html.indexOf('"use strict";\nconst MADE = {'), at = html.indexOf(text, start);
    if (start < 0 || at < 0) throw new Error(`${page} has not these scripts: ${scripts.join(" ")}`);
    const script = html.slice(start, at + text.length);
    if (script.split(from).length !== 2 && from) throw new Error(`no place, or more than one, for the fault: ${from}`);
    const all = vm.runInThisContext(`(() => { ${script.replace(from, () => to)}
        return { MADE, Proved, Fault, whatIs, makeTrace, readTrace, explain, placeAt, Kinds, SheetText, Texts, Times, Evidence, Events, brokenRule, textOf, traceOf, use: proved => { archive = proved; } }; })()`, { filename: "page" });
    const proved = await all.Proved.start(all.MADE.wasm);
    all.use(proved);
    return { ...all, proved };
}

module.exports = { library };
