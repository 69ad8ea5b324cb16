// Every line of tests/vectors through the page.
"use strict";
const { read, hex, sample, pump, given, bytesOf, expect, holds } = require("./common.js");

function vectors(name) {
    return read(`tests/vectors/${name}.tsv`).split("\n").filter(line => line && line[0] !== "#").map(line => line.split("\t"));
}

// in the page: the device is set as the line says, the request goes the way of a request that is typed, and what is shown is read
const playVector = `(sheet, at, request) => {
    const device = app.device = new Device(app.proved, sheet);
    device.sheet[14] = Number(at.button) + 2 * Number(at.verify);
    if (at.rules) device.sheet[30] = Number(at.rules);
    device.sessions.set([Number(at.open), Number(at.level), 0, 3]);
    app.devicePart.did(device.request(unhex(request), Number(at.mode), 0, Number(at.group)));
    const last = device.log[0], reply = last.answer;
    return { outcome: last.outcome, reply, sessions: [...device.sessions.slice(0, 2)], sheet: hex(device.sheet), before: hex(last.before),
        shown: document.querySelector("#device .log li").textContent };
}`;

async function deviceVectors(b) {
    const ranges = read("tests/vectors/ranges.tsv").split("\n").filter(line => line.startsWith("# sheet")).map(line => line.split("\t")[0].replace(/# sheet|\s/g, "")).join("");
    let count = 0;
    await b.run(`app.open("device")`);
    for (const [name, sheet] of [["device", sample], ["pump", pump], ["ranges", Buffer.from(ranges, "hex")]]) {
        for (const [what, where, request, answer, outcome, change] of vectors(name)) {
            const at = Object.fromEntries(where.split(" ").map(word => word.split("=")));
            const got = await b.run(`(${playVector})(${bytesOf(sheet)}, ${given(at)}, ${given(request)})`);
            const due = Buffer.from(got.before, "hex"), sessions = [Number(at.open), Number(at.level)];
            for (const word of change === "-" ? [] : change.split(" ")) {
                const [key, value] = word.split("="), offset = /^sheet\[(\d+)\]$/.exec(key);
                if (offset) due.set(Buffer.from(value, "hex"), Number(offset[1]));
                else sessions[key === "open" ? 0 : 1] = Number(value);
            }
            const words = answer === "-" ? "" : await b.run(`apduText(app.proved, unhex(${given(answer)}))`);
            const line = `${name}: ${what}: ${where} ${request}`;
            expect(line, [got.outcome, got.reply, got.sessions, got.sheet], [Number(outcome), words, sessions, due.toString("hex")]);
            holds(`${line}: what is shown, ${got.shown}`, got.shown.includes(`(${outcome})`) && got.shown.includes(words));
            count++;
        }
    }
    return `${count} requests`;
}

async function otherVectors(b) {
    const pdus = vectors("pdu"), frames = vectors("frame");
    const read_ = `apdu => { const pdu = app.proved.readPdu(unhex(apdu)); return pdu.outcome ? String(pdu.outcome) : "0 " + pduText(pdu); }`;
    for (const [what, apdu, due] of pdus) {
        const got = await b.run(`(${read_})(${given(apdu)})`);
        expect(`pdu: ${what}`, got, due);
        // and written again from those words, if it is read
        if (due.startsWith("0 ")) {
            const again = await b.run(`(${read_})(hex(apduOf(app.proved, ${given(due.slice(2))})))`);
            expect(`pdu, written: ${what}`, again, due);
        }
    }
    // frames: read, or written from words to the front of a buffer
    const frame = `words => {
        const last = unhex(words[words.length - 1]);
        if (words[1] === "read") {
            const f = app.proved.readFrame(last);
            return f.outcome ? String(f.outcome) : "0 " + frameText(f);
        }
        const { fields, info, apdu } = frameFields(words.slice(2, -1)), framed = app.proved.writeFrame(fields, info, apdu, last);
        return framed.outcome + " " + framed.count + " " + run(last);
    }`;
    for (const [what, command, due] of frames) expect(`frame: ${what}`, await b.run(`(${frame})(${given(command.split(" "))})`), due);
    return `${pdus.length} PDUs, ${frames.length} frames, read and written`;
}

module.exports = { deviceVectors, otherVectors };
