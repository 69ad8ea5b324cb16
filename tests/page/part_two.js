// Part 2, two sheets side by side.
"use strict";
const { execFileSync } = require("child_process");
const { sample, text, bytesOf, expect, has } = require("./common.js");
const { random, randomSheet, fullSheet } = require("./sheets.js");

async function twoPart(b, sheetTool) {
    const next = random(3);
    await b.click("#tab-two");
    await b.chooseFile("#two .source:first-child input[type=file]", b.file("first.bin", sample));
    const second = sample.slice();
    second.set([4, 0xe2], 64);
    await b.drop("#two .source:last-child", b.file("second.bin", second));
    await b.until(`${text("#two .source:last-child .said")}.includes("second.bin")`);
    expect("what differs", await b.run(`[...document.querySelectorAll("#two .lines li")].map(e => e.textContent)`), ["property 1/51 element 1: 1000 → 1250"]);
    has("how many bytes", await b.run(text("#two .verdict[role=status]")), "2 bytes differ.");
    const marks = `[...document.querySelectorAll("#two .bytes mark")].map(e => e.textContent)`;
    expect("the bytes that differ are marked", await b.run(marks), ["03", "e8", "04", "e2"]);
    await b.click("=Only rows that differ");
    expect("rows that differ alone", await b.run(`document.querySelectorAll("#two .row").length`), 1);
    await b.click("=Only rows that differ");
    // in the words of the sheet tool
    let pairs = 0, lines = 0;
    for (let i = 0; i < 120; i++) {
        const x = i === 0 ? fullSheet() : randomSheet(next), y = i % 2 ? randomSheet(next) : x.slice();
        if (i % 2 === 0) for (let k = 1 + next(6); k > 0; k--) y[y.length - 1 - next(Math.min(40, y.length - 32))] ^= 1 + next(255);
        const rules = await b.run(`[app.proved.check(${bytesOf(x)}), app.proved.check(${bytesOf(y)})]`);
        if (rules[0] || rules[1]) continue;
        const files = [b.file("x.bin", x), b.file("y.bin", y)];
        let due = "";
        try {
            execFileSync(sheetTool, ["diff", ...files], { stdio: ["ignore", "pipe", "pipe"] });
        } catch (error) {
            if (error.status !== 1) throw error;
            due = error.stdout.toString();
        }
        expect(`two sheets, ${i}`, await b.run(`differences(${bytesOf(x)}, ${bytesOf(y)})`), due.split("\n").filter(Boolean));
        pairs++;
        lines += due.split("\n").length - 1;
    }
    return `file, drop, marks; ${pairs} pairs with ${lines} differences in the words of sheet diff`;
}

module.exports = { twoPart };
