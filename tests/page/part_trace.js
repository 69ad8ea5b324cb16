// Part 4, a trace: forward and back, who changed each byte, a dump, refusals.
"use strict";
const { read, played, text, given, bytesOf, expect, holds, has } = require("./common.js");

async function tracePart(b) {
    const { sheet, trace } = played, { length } = sheet, due = read("crates/trace_play/stdout").trim().split("\n");
    await b.click("#tab-trace");
    await b.chooseFile("#trace .three .source:nth-child(1) input[type=file]", b.file("at-start.bin", sheet));
    await b.until(`${text("#trace .three .source:nth-child(1) .said")}.includes("at-start.bin")`);
    await b.drop("#trace .three .source:nth-child(2)", b.file("a.trace", trace));
    await b.until(`${text("#trace .three .source:nth-child(2) .said")}.includes("a.trace")`);
    const events = due.filter(line => /^\d/.test(line));
    has("how many events", await b.run(text("#trace > .verdict")), `${events.length} events.`);
    // each event as the proved program says it
    const steps = await b.run(`app.tracePart.playing.steps.map(step => "outcome=" + step.outcome + " answer=" + run(step.answer))`);
    expect("outcomes and answers", steps, events.map(line => line.replace(/.*(outcome=.*)/, "$1")));
    expect("the list has them all", await b.run(`[...document.querySelectorAll("#trace .events li .outcome")].map(e => /\\((\\d+)\\)/.exec(e.textContent)[1])`), events.map(line => /outcome=(\d+)/.exec(line)[1]));
    const hidden = await b.run(text("#trace .events"));
    holds("keys in it are hidden", !hidden.includes("11111111") && hidden.includes("key=••••••••"));
    // forward, back, to an event: always the state that playing so many gives
    const at = () => b.run(`[app.tracePart.at, hex(app.tracePart.moment.sheet), Number(document.querySelector("#trace [aria-selected=true]")?.dataset.n ?? 0)]`);
    // by the calls of the device, one for each event: the sheet, and the levels of both connections
    const [states, levels] = await b.run(`(() => {
        const device = new Device(app.proved, ${bytesOf(sheet)}), all = [], levels = [];
        const keep = () => { all.push(hex(device.sheet)); levels.push([device.sessions[1], device.sessions[3]]); };
        keep();
        for (const e of app.tracePart.playing.events) {
            if (e.kind === 0) device.request(e.apdu, e.mode, e.connection, e.group);
            else if (e.kind === 1) device.connect(e.connection);
            else if (e.kind === 2) device.disconnect(e.connection);
            else device.button(e.kind === 3);
            keep();
        }
        return [all, levels];
    })()`);
    const expectAt = async (what, n) => expect(what, await at(), [n, states[n], n]);
    await expectAt("at the start", 0);
    for (const [name, n] of [["Next", 1], ["Next", 2], ["Next", 3], ["Back", 2], ["Last", events.length], ["Back", events.length - 1], ["First", 0]]) {
        await b.click(`=${name}`);
        await expectAt(name, n);
    }
    await b.type("=After event", "20");
    await b.key("Enter");
    await expectAt("to an event", 20);
    await b.run(`document.querySelector("#trace .events").focus()`);
    for (const [key, n] of [["ArrowDown", 21], ["ArrowDown", 22], ["ArrowUp", 21], ["Home", 0], ["End", events.length]]) {
        await b.key(key);
        await expectAt(key, n);
    }
    for (let n = 0; n <= events.length; n++) {
        await b.run(`app.tracePart.go(${n})`);
        await expectAt(`event ${n}`, n);
    }
    // who changed a byte: the last event after which it was another
    const last = new Array(length).fill(0);
    for (let n = 1; n < states.length; n++) for (let p = 0; p < length; p++) if (states[n].slice(2 * p, 2 * p + 2) !== states[n - 1].slice(2 * p, 2 * p + 2)) last[p] = n;
    let rights = 0;
    for (let p = 0; p < length; p++) {
        await b.run(`app.tracePart.grid.move(${p}, true)`);
        const told = await b.run(text("#trace .account"));
        has(`byte ${p}`, told, last[p] ? `event ${last[p]} changed it` : "no event has changed it");
        // at which level, and which event gave it
        const on = /mode=3 connection=([01])/.exec(events[last[p] - 1] ?? "");
        if (!on || !/at level/.test(told)) continue;
        const c = Number(on[1]), level = levels[last[p] - 1][c];
        let offer = last[p] - 1;
        while (offer > 0 && levels[offer - 1][c] === level) offer--;
        has(`byte ${p}`, told, `on connection ${c}, at level ${level}${level < 3 ? `, whose key event ${offer} offered` : ""}.`);
        rights++;
    }
    holds("rights are told", rights > 5);
    const changed = last.findIndex((n, p) => n > 0 && p >= 32);
    await b.point(`#trace [data-p="${changed}"]`);
    has("pointed at by mouse", await b.run(text("#trace .account")), `Byte ${changed}, `);
    has("with its level", await b.run(text("#trace .account")), "at level");
    await b.run(`app.tracePart.grid.move(0, false); app.tracePart.grid.root.focus()`);
    await b.key("ArrowRight");
    await b.key("ArrowDown");
    has("by arrow keys", await b.run(text("#trace .account")), "Byte 17, ");
    // by meaning, what the event changed is marked
    await b.run(`app.tracePart.go(${last[changed]})`);
    await b.click("=The sheet by meaning");
    await b.until(`document.querySelector("#trace .sheet")`);
    holds("what changed is marked by meaning", await b.run(`document.querySelectorAll("#trace .sheet mark").length > 0`));
    await b.click("=The sheet by meaning");
    // a dump: nothing is unexplained; then a byte that no event wrote
    const final = Buffer.from(states[states.length - 1], "hex");
    await b.chooseFile("#trace .three .source:nth-child(3) input[type=file]", b.file("dump.bin", final));
    await b.until(`${text("#trace .three .source:nth-child(3) .said")}.includes("dump.bin")`);
    has("a dump that the events explain", await b.run(text("#trace")), "dump.bin is what the events give, byte by byte");
    final[length - 1] ^= 0x55;
    await b.chooseFile("#trace .three .source:nth-child(3) input[type=file]", b.file("other.bin", final));
    await b.until(`${text("#trace .three .source:nth-child(3) .said")}.includes("other.bin")`);
    has("a byte that none explains", await b.run(text("#trace")), "other.bin: 1 byte other than the events leave them, at 1 place; 1 of these no event of the traces gave");
    has("by meaning", await b.run(text("#trace")), "user memory 010fh: ");
    // refused, each by its number
    const worked = "0005011a0000002a00000013 1234002a0200 03000000002c0000 04000000002c0000 020f0000002c0000 0300".replace(/ /g, "");
    const refused = [["00", 50], ["0201", 51], [worked.replace(/^0005/, "0006"), 52], [worked.replace(/^000501/, "000505"), 53], [worked.slice(0, 16) + "01" + worked.slice(18), 54],
        [worked.slice(0, 18) + "01" + worked.slice(20), 55], [worked.slice(0, 30) + "29" + worked.slice(32), 56], [worked.slice(0, 32) + "03" + worked.slice(34), 57], [worked + "00", 58]];
    expect("the worked trace can be played", await b.run(`app.proved.traceCheck(unhex(${given(worked)}))`), 0);
    const said = text("#trace .three .source:nth-child(2) .said"), there = () => b.run(`[hex(app.tracePart.trace), app.tracePart.playing.events.length, app.tracePart.body.hidden]`), before = await there();
    for (const [digits, number] of refused) {
        await b.chooseFile("#trace .three .source:nth-child(2) input[type=file]", b.file(`refused-${number}.trace`, Buffer.from(digits, "hex")));
        await b.until(`${said}.includes("refused-${number}")`);
        has(`a trace that is refused by ${number}`, await b.run(said), `${number}: `);
        has("it says so", await b.run(said), "it was not taken, and what was there stays");
        expect("what was there stays", await there(), before);
        await b.run(`app.tracePart.set(app.tracePart.sheet, "x", unhex(${given(digits)}), "x")`);
        has("one that came another way is not played", await b.run(text("#trace > .verdict")), `(${number})`);
        holds("nothing is played", await b.run(`app.tracePart.body.hidden`));
        await b.run(`app.tracePart.set(${bytesOf(sheet)}, "x", ${bytesOf(trace)}, "x")`);
    }
    // on a sheet of no bytes nothing happens, and nothing breaks
    await b.run(`app.tracePart.set(new Uint8Array(0), "nothing", unhex(${given(worked)}), "worked")`);
    await b.click("=Next");
    has("a sheet of no bytes", await b.run(text("#trace > .verdict")), "5 events. The sheet: breaks rule S1");
    await b.choose("#trace .three .source:nth-child(2) select", "the accident, with its dumps");
    await b.click("#trace .three .source:nth-child(2) .taken button");
    has("what the accident is played on", await b.run(text("#trace .three .source:nth-child(1) .said")), "before.txt");
    await b.run(`app.tracePart.setDump(null, ""); app.tracePart.set(${bytesOf(sheet)}, "at-start.bin", ${bytesOf(trace)}, "a.trace")`);
    // who asks for the keys stays where the trace stands
    await b.run(`app.tracePart.go(20)`);
    await b.click("=Show keys");
    await expectAt("keys are shown", 20);
    has("keys in it", await b.run(text("#trace .events")), "key=11111111");
    await b.click("=Show keys");
    return `${events.length} events forward and back, ${length} accounts, ${rights} with a level, a dump, ${refused.length} refusals`;
}

module.exports = { tracePart };
