// Every kind of file in every place for one, and beside them: the page says what it is, and it goes where it belongs; what is wrong or cut is refused.
"use strict";
const fs = require("fs");
const path = require("path");
const { project, hex, sample, pump, played, accident, text, given, bytesOf, expect, holds, has } = require("./common.js");

// what is there, by place
const held = `Object.fromEntries(Object.entries({ sheet: app.sheet, first: app.twoPart.sheets[0], second: app.twoPart.sheets[1], device: app.device.sheet, store: app.device.store,
    start: app.tracePart.sheet, dump: app.tracePart.dump ?? [], events: app.tracePart.files.flatMap(f => [...f.bytes]), sides: app.tracePart.sides.flatMap(f => [...f.bytes]) }).map(([name, bytes]) => [name, hex(bytes)]))`;
// a place for each file: where it is, and which of those it fills
const BOXES = [["sheet", "#sheet .source", "sheet"], ["two", "#two .source:first-child", "first"], ["two", "#two .source:last-child", "second"], ["device", "#device .versions .source", "store"],
    ["device", "#device .columns > div > .source", "device"], ["trace", "#trace .three .source:nth-child(1)", "start"], ["trace", "#trace .three .source:nth-child(2)", "events"], ["trace", "#trace .three .source:nth-child(3)", "dump"]];

async function kinds(b) {
    const before = await b.run(`(() => { const s = whatIs(app.proved, "before.txt", new TextEncoder().encode(MADE.accident.before[1])).bytes, store = new Uint8Array(256); app.proved.save(s, store);
        const { files } = makeTrace(app.proved, accidentFiles(app.proved).recording, s); return { sheet: hex(s), store: hex(store), files: files.map(f => [f.name, hex(f.bytes)]) }; })()`);
    const bytes = digits => Buffer.from(digits, "hex"), made = Object.fromEntries(before.files.map(([name, digits]) => [name.replace(/^laptop\./, ""), bytes(digits)]));
    const old = Uint8Array.from(pump);
    old[0] = 1;
    old[15] = 0;
    const oldSample = Uint8Array.of(1, ...sample.slice(1));
    // name, bytes, what is said of it, the bytes that come of it, and the kind of place
    const sheets = [["sheet.bin", sample, "a sheet", sample], ["old.bin", oldSample, "an old sheet", oldSample], ["before.txt", accident("before.txt"), "text", bytes(before.sheet)], ["digits.txt", hex(pump).replace(/.{32}/g, "$&\n"), "hex", pump]];
    const events = [["a.trace", played.trace, "a trace", played.trace], ["laptop.hex", accident("laptop.hex"), "a recording", accident("laptop.hex")], ["stopped.xml", accident("stopped.xml"), "ETS", accident("stopped.xml")],
        ["bus.txt", fs.readFileSync(path.join(project, "tools/trace/tests/evidence/knxtool-whole.knxtool")), "knxtool", null], ["words.txt", "1 connect connection=0\n2 button on\nend\n", "trace", null]];
    const wrong = [["photo.png", "89504e470d0a1a0a0000000d49484452"], ["packed.zip", "504b0304140000000800"], ["list.json", Buffer.from(`{"a": 1}`).toString("hex")], ["letter.txt", Buffer.from("Dear Sir, the tank is dry.\n").toString("hex")], ["empty.bin", ""], ["cut.bin", hex(sample.slice(0, 60))]];
    const file = ([name, content]) => b.file(name, Buffer.from(content));
    const give = async (selector, one) => {
        await b.run(`document.querySelector("#news").replaceChildren()`);
        await b.chooseFile(`${selector} input[type=file]`, one);
        await b.until(`document.querySelector("#news").childElementCount > 0`);
        return b.run(`[document.querySelector("#news").textContent, app.part]`);
    };
    let count = 0;
    for (const [part, selector, own] of BOXES) {
        for (const one of sheets) {
            await b.run(`app.open(${given(part)})`);
            const [said, open] = await give(selector, file(one)), now = await b.run(held), due = own === "store" ? "device" : own === "events" ? "dump" : own;
            has(`${one[0]} in ${own}: what it is`, said, one[2]);
            expect(`${one[0]} in ${own}: where it is`, [now[due], open], [hex(one[3]), part]);
            count++;
        }
        for (const one of events) {
            await b.run(`app.tracePart.setSheet(unhex(${given(before.sheet)}), "before.txt", true); app.open(${given(part)})`);
            const [said, open] = await give(selector, file(one));
            has(`${one[0]} in ${own}: what it is`, said, one[2]);
            expect(`${one[0]} in ${own}: where it is`, [(await b.run(held)).events, open], [hex(one[3] ?? Buffer.from(one[1])), "trace"]);
            holds(`${one[0]} in ${own}: it is played`, await b.run(`!app.tracePart.body.hidden && app.tracePart.told !== null`));
            count++;
        }
        await b.run(`app.open(${given(part)})`);
        const [said, open] = await give(selector, b.file("kept.store", bytes(before.store)));
        has(`a store in ${own}: what it is`, said, "a store");
        expect(`a store in ${own}: where it is`, [(await b.run(held)).store, open], [before.store, "device"]);
        // times and evidence go to the trace that is there
        await b.run(`app.tracePart.setSheet(unhex(${given(before.sheet)}), "before.txt", true); app.open(${given(part)})`);
        await give(selector, b.file("laptop.trace", made.trace));
        expect("a trace has no times", await b.run(`app.tracePart.told.events[0].time`), null);
        for (const side of ["times", "evidence"]) await give(selector, b.file(`laptop.trace.${side}`, made[`trace.${side}`]));
        expect(`times and evidence in ${own}`, await b.run(`[app.tracePart.told.events[0].time, app.tracePart.told.shows.length > 0]`), ["2026-03-02T08:02:11.004", true]);
        const kept = await b.run(held);
        for (const [name, digits] of wrong) {
            await b.run(`app.open(${given(part)})`);
            const [told] = await give(selector, b.file(name, bytes(digits)));
            has(`${name} in ${own}`, told, "it was not taken, and what was there stays");
            if (name === "photo.png") has("a picture", told, "this seems to be a picture");
            if (name === "cut.bin") has("a dump that was cut off", told, "no whole dump: 60 of 69 bytes");
            holds(`${name} in ${own}: one line`, told.length < 200 && !told.includes("\n"));
            has(`${name} in ${own}: said there too`, await b.run(text(`${selector} .said`)), "it was not taken");
            count++;
        }
        expect(`what is wrong leaves all in ${own}`, await b.run(held), kept);
    }
    return count;
}

async function files(b, url) {
    await b.load(url);
    const count = await kinds(b);
    // on the first card, and anywhere on the page: alone or several at once
    const [one, two, recording] = [b.file("before.txt", accident("before.txt")), b.file("after.txt", accident("after.txt")), b.file("laptop.hex", accident("laptop.hex"))];
    const open = async () => {
        await b.load(url);
        expect("it begins with the first card", await b.run("app.part"), "start");
    };
    const part = name => b.until(`app.part === ${given(name)} && document.querySelector("#news").childElementCount > 0`);
    for (const drop of [f => b.chooseFile("#start .choices .card:nth-child(3) input", ...f), f => b.drop("#start h2", ...f)]) {
        await open();
        await drop([one]);
        await part("sheet");
        has("one dump", await b.run(text("#sheet .verdict")), "Accepted: 69 bytes");
        // a recording that comes behind it is played on it
        await b.drop("#sheet h2", recording);
        await part("trace");
        has("a recording on the dump before it", await b.run(text("#trace .explanation")), "9 events of laptop.trace on before.txt");
        await open();
        await drop([two, one]);
        await part("two");
        expect("two dumps", await b.run(`document.querySelectorAll("#two .lines li").length`), 2);
        // which is the earlier is found out, whatever the order of the files
        for (const all of [[two, recording, one], [one, two, recording]]) {
            await open();
            await drop(all);
            await part("trace");
            await b.until(`app.tracePart.told`);
            expect("two dumps and a recording", await b.run(`[app.tracePart.sheetName, app.tracePart.dumpName, app.tracePart.told.final.kind]`), ["before.txt", "after.txt", "past"]);
        }
        await b.click("=Exchange the two dumps");
        expect("exchanged", await b.run(`[app.tracePart.sheetName, app.tracePart.dumpName]`), ["after.txt", "before.txt"]);
        // a recording alone waits for a dump
        await open();
        await drop([recording]);
        await part("trace");
        has("a recording alone", await b.run(text("#trace > .verdict")), "Now the dump of the device as it was at its start");
        await b.drop("#trace h2", one);
        await b.until(`app.tracePart.told`);
        await b.drop("#trace h2", two);
        await b.until(`app.tracePart.dump`);
        has("and then two, one after the other", await b.run(text("#trace .explanation")), "after.txt: 2 bytes other than the events leave them");
    }
    // pasted beside every field, and in one
    await open();
    await b.paste(accident("before.txt").toString());
    await part("sheet");
    has("a dump that is pasted anywhere", await b.run(text("#news")), "pasted: ");
    await b.paste(accident("laptop.hex").toString());
    await part("trace");
    holds("a recording that is pasted anywhere", await b.run(`app.tracePart.told.events.length === 9`));
    await b.run(`app.open("device"); document.querySelector("#device form textarea").focus()`);
    const news = await b.run(text("#news"));
    await b.paste("00");
    expect("what is pasted into a field is the field's", await b.run(text("#news")), news);
    // three dumps; a sheet in a dump's place that has been cut; the newest first
    await open();
    await b.drop("#start h2", one, two, b.file("third.bin", sample));
    await part("two");
    has("three dumps", await b.run(text("#news")), "two dumps can be compared here");
    const lines = accident("laptop.hex").toString().split("\n").filter(line => /^2026/.test(line)).reverse().join("\n") + "\n";
    await open();
    await b.drop("#start h2", one, b.file("back.hex", lines));
    await b.until(`!app.tracePart.turn.hidden`);
    holds("what has the newest first is not taken as it is", await b.run(`app.tracePart.files.length === 0`));
    await b.click("=Take it in reverse");
    await b.until(`app.tracePart.told`);
    has("taken in reverse", await b.run(text("#trace .explanation")), "property 1/51 element 1: 1000 → 1020");
    // what does not go together: two recordings, the times of another trace, a line that is no frame, dumps of two layouts; an old dump
    const made = await b.run(`makeTrace(app.proved, accidentFiles(app.proved).recording, accidentFiles(app.proved).before.bytes).files.map(f => [f.name, hex(f.bytes)])`), news_ = () => b.run(text("#news"));
    const stopped = b.file("stopped.xml", accident("stopped.xml")), oldSheet = b.file("old.bin", Uint8Array.of(1, ...sample.slice(1)));
    await open();
    await b.drop("#start h2", one, recording, stopped);
    await part("trace");
    has("two recordings", await news_(), "stopped.xml: a recording of ETS, 11 frames; one recording is explained at a time, or traces: it was not taken");
    await open();
    await b.drop("#start h2", one, b.file("a.trace", played.trace), b.file("laptop.trace.times", Buffer.from(made.find(f => f[0].endsWith(".times"))[1], "hex")));
    await part("trace");
    has("the times of another trace", await news_(), "line 1: it is not of this trace: it was not taken");
    expect("the trace is there", await b.run(`app.tracePart.told.events.length`), 59);
    await open();
    await b.drop("#start h2", b.file("bad.hex", accident("laptop.hex").toString().replace("43d10022222222", "43d1002222222z")));
    await b.until(`document.querySelector("#news").childElementCount > 0`);
    has("a line that is no frame", await news_(), "bad.hex: a recording in hex; line 5, column 56: no hex digit: it was not taken");
    await open();
    await b.drop("#start h2", b.file("pump.bin", pump), one, recording);
    await part("trace");
    expect("dumps of two layouts", await b.run(`[app.tracePart.sheetName, app.tracePart.told.final.kind]`), ["before.txt", "layout"]);
    holds("few lines", await b.run(`document.querySelectorAll("#trace .final li").length <= 9`));
    await open();
    await b.drop("#start h2", oldSheet, recording);
    await part("trace");
    has("an old dump", await b.run(text("#trace > .verdict")), "old.bin as the dump at the start can't be used: a sheet of edition 1");
    await b.click("=Convert the dump to edition 2");
    expect("converted, it is played on", await b.run(`app.tracePart.told.events.length`), 9);
    // a recording of more events than a trace has: several traces, played one after the other; the technician's write stands at its beginning
    const begin = accident("laptop.hex").toString().split("\n").filter(line => line.startsWith("2026")).slice(0, 10).map(line => `${line.split(" ")[2]}\n`).join("");
    const two_ = n => String(n).padStart(2, "0"), long = Array.from({ length: 700 }, (_, i) => `08:${two_(Math.floor(i / 60))}:${two_(i % 60)} 2900bce011140801020080${hex([i % 60])}\n`).join("");
    await open();
    await b.drop("#start h2", one, b.file("long.hex", begin + long));
    await b.until(`app.tracePart.told`);
    expect("700 events", await b.run(`[app.tracePart.traces.length, app.tracePart.playing.events.length, app.tracePart.told.events.length]`), [2, 704, 704]);
    await b.run(`app.tracePart.go(604)`);
    expect("after 604 of them", await b.run(`[...[64, 65, 68].map(p => app.tracePart.moment.sheet[p]), app.tracePart.moment.marks[65], app.tracePart.moment.marks[68]]`), [3, 0xfc, (600 - 1) % 60, 3, 604]);
    has("named with its trace", await b.run(text("#trace .explanation")), "event 192 of long-2.trace");
    return `${count} times a file in a place; one, two and three at once, dropped, chosen, pasted; 9 kinds, 6 that are none`;
}

module.exports = { files };
