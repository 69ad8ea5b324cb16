// Part 1, a sheet: opened, dropped, pasted, shown, converted, saved; which rule it breaks, and where.
"use strict";
const { read, hex, sample, pump, text, given, bytesOf, expect, holds, has } = require("./common.js");
const { random, randomSheet } = require("./sheets.js");

async function sheetPart(b) {
    await b.click("#tab-sheet");
    const verdict = () => b.run(text("#sheet .verdict"));
    const view = () => b.run(text("#sheet .sheet"));
    const paste = async digits => {
        if (!(await b.run(`document.querySelector("#sheet .source details").open`))) await b.click("#sheet .source summary");
        await b.type("#sheet textarea", digits);
        await b.click("=Take these");
    };
    // chosen, dropped, pasted, taken
    await b.chooseFile("#sheet input[type=file]", b.file("pump.bin", pump));
    await b.until(`${text("#sheet .said")}.includes("pump.bin")`);
    has("a chosen file", await verdict(), "Accepted: 101 bytes");
    for (const part of ["0100h to 0103h", "b0 b1 b2 b3", "User memory", "read 2, write 0", "1 of 2 valid", "1000", "as type 5: 0", "1.1.6", "read write"]) has("the sheet by meaning", await view(), part);
    holds("keys are hidden", !(await view()).includes("11111111") && (await view()).includes("••••••••"));
    has("a public key is shown", await view(), "public: it opens level 2 to all");
    await b.click("=Show keys");
    has("keys are shown when asked for", await view(), "22222222");
    await b.click("=Show keys");
    await b.drop("#sheet .source", b.file("sample.bin", sample));
    await b.until(`${text("#sheet .said")}.includes("sample.bin")`);
    has("a dropped file", await verdict(), "Accepted: 69 bytes");
    await paste(hex(pump).replace(/../g, "$& ").toUpperCase());
    has("pasted digits", await verdict(), "Accepted: 101 bytes");
    await b.chooseFile("#sheet input[type=file]", b.file("sample.txt", hex(sample) + "\n"));
    await b.until(`${text("#sheet .said")}.includes("sample.txt")`);
    has("a file of hex digits", await verdict(), "Accepted: 69 bytes");
    const { bytes, name } = await b.saved(() => b.click("=Save as a file"));
    expect("what is saved", [name, hex(bytes)], ["sample.bin", hex(sample)]);
    // an old one is converted
    await b.choose("#sheet .source select", "an old one, of edition 1");
    await b.click("=Take it");
    has("an old sheet", await verdict(), "Old");
    await b.click("=Convert to edition 2");
    has("converted", await verdict(), "Accepted: 69 bytes");
    expect("what the conversion changed", hex((await b.saved(() => b.click("=Save as a file"))).bytes), hex(sample));
    holds("there is nothing to convert", await b.run(`document.querySelector("#sheet .actions button").hidden`));
    return "file, drop, paste, keys, convert, save";
}

// a sheet that breaks each rule, with the place that the page must name
async function brokenSheets(b) {
    const broken = [
        ["S1", [], "0 bytes"], ["S1", sample.slice(0, 31), "31 bytes"], ["S1", new Uint8Array(16385), "16,385 bytes"], ["S4", { 5: 70 }, "the head states 70 bytes, the sheet has 69"], ["S2", { 0: 7 }, "edition 7"], ["S3", { 2: 65 }, "number of properties is 65"],
        ["S3", { 2: 65, 3: 70 }, "number of properties is 65, number of group objects is 70"],
        ["S4", { 1: 16 }, "take 180 bytes, the sheet has 69"], ["S5", { 31: 1 }, "a zero of the head is 1"],
        ["S5", { 14: 4, 30: 2 }, "programming mode and verify is 4, rules is 2"], ["S6", { 34: 0, 35: 0 }, "region 0100h, length"], ["S6", { 38: 0x42 }, "region 0100h, levels"],
        ["S6", { 39: 1 }, "region 0100h, the zero byte"], ["S6", { 32: 255, 33: 255 }, "region ffffh, first address or length"], ["S7", { 41: 0 }, "property 1/0, id"], ["S7", { 42: 0xc4 }, "property 1/51, type"],
        ["S7", { 43: 11 }, "property 1/51, size"], ["S7", { 47: 3 }, "property 1/51, maximum or count"], ["S7", { 50: 0x14 }, "property 1/51, levels"], ["S8", { 52: 0, 53: 0 }, "group object 0/0/0, address"],
        ["S8", { 54: 15 }, "group object 1/0/1, length code"], ["S8", { 55: 8 }, "group object 1/0/1, flags"], ["S8", { 59: 1 }, "group object 1/0/1, the zero bytes"],
        ["S9", { 49: 0x41 }, "property 1/51, its body starts at 65, and the one before ends at 64"], ["S9", { 54: 2 }, "the last body ends at 70, the sheet at 69"], ["S9", { 54: 0, 68: 64 }, "group object 1/0/1, six-bit value 64"],
    ];
    for (const [rule, change, place] of broken) {
        const bytes = Array.isArray(change) || change instanceof Uint8Array ? Uint8Array.from(change) : Object.assign(sample.slice(), change);
        // what is no whole dump, or of no edition, is not taken as a file, and told all the same where it comes another way
        if (rule === "S1" || rule === "S2" || change[5]) await b.run(`app.setSheet(${bytesOf(bytes)}, "broken.bin")`);
        else await b.chooseFile("#sheet input[type=file]", b.file("broken.bin", bytes));
        await b.until(`app.sheet.length === ${bytes.length} && hex(app.sheet) === ${given(hex(bytes))}`);
        const verdict = await b.run(text("#sheet .verdict"));
        has(`${rule} ${JSON.stringify(change).slice(0, 60)}`, verdict, `rule ${rule},`);
        has(`${rule} ${JSON.stringify(change).slice(0, 60)}`, verdict, place);
    }
    // among many entries, the one that is at fault
    const next = random(5);
    let found = 0;
    for (let i = 0; i < 200; i++) {
        const sheet = randomSheet(next, 6), e = await b.run(`inOrder(entriesOf(${bytesOf(sheet)})).map(e => ({ at: e.at, kind: e.kind, name: entryName(e) }))`);
        if (e.length === 0) continue;
        const entry = e[next(e.length)], zero = { region: 7, user: 7, property: 11, group: 6 }[entry.kind];
        sheet[entry.at + zero] = 1 + next(255);
        const verdict = await b.run(`verdictOf(app.proved, ${bytesOf(sheet)}).text`);
        has(`a zero byte of ${entry.name}`, verdict, `${entry.name}, the zero byte`);
        found++;
    }
    return `${broken.length} broken sheets, ${found} with one broken entry of several`;
}

module.exports = { sheetPart, brokenSheets };
