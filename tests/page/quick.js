// How long the page takes with as much as there can be.
"use strict";
const { PARTS, given, bytesOf, expect, holds } = require("./common.js");
const { random, fullSheet } = require("./sheets.js");

async function quick(b) {
    const full = fullSheet(), next = random(7), events = [[1, 0, 0, []]];
    events.push([0, 3, 0, [3, 0xd1, 0, 0x11, 0x11, 0x11, 0x11]]);
    while (events.length < 512) {
        const k = next(64), write = [3, 0xd7, k >> 4, 1 + (k & 15), 0x10, 1 + next(40), next(256), next(256)];
        events.push(next(3) ? [0, 3, 0, write] : [0, 3, 0, [2, 0x82, next(16) << 4, next(200), next(256), next(256)]]);
    }
    const other = full.slice();
    for (let i = 0; i < 400; i++) other[1600 + next(14700)] ^= 1 + next(255);
    await b.run(`window.big = { full: ${bytesOf(full)}, other: ${bytesOf(other)}, trace: traceOf(${given(events)}.map(([kind, mode, connection, apdu]) => ({ kind, mode, connection, group: 0, apdu: Uint8Array.from(apdu) }))) }`);
    expect("the full sheet is accepted", await b.run("app.proved.check(big.full)"), 0);
    expect("the trace can be played", await b.run("app.proved.traceCheck(big.trace)"), 0);
    // processor time of the page's thread from the action to the picture, script, layout and paint; the least of five, since other
    // work on the machine makes it longer and never shorter
    await b.send("Performance.enable", { timeDomain: "threadTicks" });
    const spent = async () => (await b.send("Performance.getMetrics")).metrics.find(metric => metric.name === "TaskDuration").value;
    const timed = async (part, action) => {
        await b.run(`app.open("${part}")`);
        const all = [];
        for (let i = 0; i < 5; i++) {
            const before = await spent();
            await b.run(`new Promise(done => requestAnimationFrame(() => { ${action}; requestAnimationFrame(() => requestAnimationFrame(() => setTimeout(done, 0))); }))`);
            all.push(1000 * ((await spent()) - before));
        }
        return Math.min(...all);
    };
    // 5,000 plain elements, for how quick this machine is just now: on a slow one an action may take in proportion
    const plain = await timed("sheet", "const box = el('div', {}, ...places(0, 5000).map(i => el('span', {}, i + ' '))); document.body.append(box); requestAnimationFrame(() => setTimeout(() => box.remove(), 0))");
    const times = {
        "a sheet of 16,384 bytes shown": await timed("sheet", "app.setSheet(big.full, 'full')"),
        "two of them compared, 400 bytes differing": await timed("two", "app.twoPart.sheets[0] = big.full; app.twoPart.set(1, big.other)"),
        "it is put on the device": await timed("device", "app.putOnDevice(big.full, 'full')"),
        "a request on it": await timed("device", "app.devicePart.did(app.device.request(unhex('03d501331001'), 2))"),
        "a trace of 512 events on it, played and listed": await timed("trace", "app.tracePart.set(big.full, 'full', big.trace, 'trace')"),
        "a step of it": await timed("trace", "app.tracePart.go(app.tracePart.at === 300 ? 301 : 300)"),
    };
    const most = Math.max(300, 3 * plain);
    for (const [what, ms] of Object.entries(times)) holds(`${what}: ${ms.toFixed(0)} ms, more than ${most.toFixed(0)}`, ms <= most);
    for (const part of PARTS) {
        await b.run(`app.open("${part}")`);
        for (const width of [1280, 320]) {
            await b.size(width, 800);
            expect(`${part} with a full sheet at ${width} pixels`, await b.run("document.documentElement.scrollWidth <= document.documentElement.clientWidth"), true);
        }
    }
    await b.size(1280, 900);
    return Object.entries(times).map(([what, ms]) => `${what} ${ms.toFixed(0)} ms`).join(", ");
}

module.exports = { quick };
