// Files that are no sheets, text that is no hex, names that are no text.
"use strict";
const { hex, sample, pump, played, text, bytesOf, expect, holds, has } = require("./common.js");
const { random } = require("./sheets.js");

async function hostile(b) {
    const next = random(11), status = () => b.run(text("#sheet .said"));
    await b.click("#tab-sheet");
    const kept = await b.run("hex(app.sheet)");
    await b.run(`window.stored = { sheet: ${bytesOf(played.sheet)}, trace: ${bytesOf(played.trace)} }`);
    // in every place for a file
    const huge = b.file("huge.bin", Buffer.alloc(300000, 1)), all = await b.run(`document.querySelectorAll(".source").length`);
    const held = () => b.run(`[app.sheet, ...app.twoPart.sheets, app.device.sheet, app.device.store, app.tracePart.sheet, app.tracePart.trace ?? [], app.tracePart.dump ?? []].map(hex)`), before = await held();
    for (let i = 0; i < all; i++) {
        await b.run(`document.querySelectorAll(".source input[type=file]")[${i}].dataset.place = "here"`);
        await b.chooseFile("[data-place]", huge);
        const said = `document.querySelectorAll(".source .said")[${i}].textContent`;
        await b.until(`${said}.includes("huge.bin")`);
        has(`a file that is nothing, in place ${i}`, await b.run(said), "it was not taken, and what was there stays");
        await b.run(`delete document.querySelector("[data-place]").dataset.place`);
    }
    expect("what is there stays", await held(), before);
    if (!(await b.run(`document.querySelector("#sheet .source details").open`))) await b.click("#sheet .source summary");
    for (const [typed, fault] of [["02 01 zz", "“z” is no hex digit"], ["020", "3 hex digits: a byte has two"], ["00".repeat(40000), "it was not taken, and what was there stays"], ["<img src=x onerror=alert(1)>", "it was not taken, and what was there stays"]]) {
        await b.type("#sheet textarea", typed);
        await b.click("=Take these");
        has(`pasted ${typed.slice(0, 40)}`, await status(), fault);
        expect("the sheet stays", await b.run("hex(app.sheet)"), kept);
    }
    await b.chooseFile("#sheet input[type=file]", b.file("<img src=x onerror=document.title=1>.bin", sample));
    await b.until(`${text("#sheet .said")}.includes("onerror")`);
    expect("a name is no markup", await b.run(`document.querySelectorAll("#sheet img").length`), 0);
    for (let i = 0; i < 300; i++) {
        const bytes = Uint8Array.from({ length: next(400) }, () => next(256));
        if (next(2) && bytes.length) bytes[0] = 2;
        if (next(2) && bytes.length > 5) bytes.set([bytes.length >> 8, bytes.length & 255], 4);
        if (next(2) && bytes.length > 31) bytes.set([next(3), next(3), next(3)], 1);
        const shown = await b.run(`(() => { const s = ${bytesOf(bytes)}; app.setSheet(s, "x"); app.putOnDevice(s, "x"); app.devicePart.did(app.device.request(unhex("03d501331001"), 2));
            app.compare(0, s, "x"); app.tracePart.set(s, "x", s, "x"); app.tracePart.set(s, "x", stored.trace, "x"); app.tracePart.dump = s; app.tracePart.set(s, "x", stored.trace, "x"); app.tracePart.set(stored.sheet, "x", stored.trace, "x");
            app.device.store = s; app.devicePart.show(); app.device.store = new Uint8Array(STORE); return document.querySelector("#sheet .verdict").className; })()`);
        has(`random bytes ${i}`, shown, "verdict");
    }
    // a sheet with each byte changed is told as the module tells it
    for (let p = 0; p < pump.length; p++) {
        const bytes = pump.slice();
        bytes[p] ^= 1 + next(255);
        const got = await b.run(`(() => { app.setSheet(${bytesOf(bytes)}, "x"); return [app.proved.check(app.sheet), document.querySelector("#sheet .verdict").textContent]; })()`);
        has(`byte ${p}`, got[1], got[0] === 0 ? "Accepted" : got[0] === 14 ? "Old" : `rule S${got[0]},`);
    }
    await b.run(`app.tracePart.dump = null; app.open("sheet")`);
    return `a file that is nothing in each of ${all} places, text that is no hex, a name that is markup, 300 times random bytes`;
}

module.exports = { hostile };
