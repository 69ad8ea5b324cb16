// The accident, from the recording to who did it: told as a story, by meaning, as a picture, saved and printed.
"use strict";
const { execFileSync } = require("child_process");
const fs = require("fs");
const path = require("path");
const { accident, text, expect, holds, has } = require("./common.js");

async function accidentTest(b, url, tools) {
    await b.load(url);
    const files = ["before.txt", "after.txt", "laptop.hex"].map(name => b.file(name, accident(name)));
    await b.drop("#start h2", ...files);
    await b.until(`app.part === "trace" && app.tracePart.told`);
    const all = () => b.run(text("#trace .explanation .happened"));
    for (const part of ["after.txt: 2 bytes other than the events leave them, at 1 place; 2 of these no event of the traces gave", "somebody wrote past the device, or the traces lack events",
        "property 1/51 element 1: 1020 → 640", "no permitted write of the traces gave it", "asked for and not done, refused (11): needs level 1, the connection has level 2, by event 8: property_write object=1 id=51 n=1 s=1 data=0280 (in decimal: 640), at 2026-03-02T08:15:02.118, from 1.1.250",
        "property 1/51 element 1: 1000 → 1020", "by event 3: property_write object=1 id=51 n=1 s=1 data=03fc (in decimal: 1020), at 2026-03-02T08:02:12.512, from 1.1.251", "on connection 0 at level 1; level 1 by event 2: authorize_request key=hidden",
        "group object 1/0/1: 00 → 01", "on no connection, so at level 3; no level is asked for it", "nothing shows that frames are missing; that none is missing a recording can't show"]) has("what happened", await all(), part);
    // sentence by sentence what the tool says
    const folder = fs.mkdtempSync(path.join(b.folder, "tool-")), run = (program, ...words) => execFileSync(program, words, { cwd: folder, stdio: ["ignore", "pipe", "pipe"] });
    for (const name of ["before", "after"]) fs.writeFileSync(path.join(folder, `${name}.txt.sheet`), run(tools.sheet, "make", files[name === "before" ? 0 : 1]));
    run(tools.trace, "make", "hex", files[2], "laptop.trace", "--sheet", "before.txt.sheet");
    let due = "";
    try {
        run(tools.trace, "explain", "before.txt.sheet", "laptop.trace", "--final", "after.txt.sheet");
    } catch (error) {
        if (error.status !== 1) throw error;
        due = error.stdout.toString().replaceAll(".txt.sheet", ".txt");
    }
    expect("as the tool says it", (await b.run(`app.tracePart.told.lines.join("\\n")`)).trimEnd().split("\n"), due.trimEnd().split("\n"));
    // each line leads to its event
    for (const n of [8, 3, 2, 5]) {
        await b.run(`scrollTo(0, 0)`);
        await b.click(`=event ${n}`);
        expect(`event ${n}`, await b.run(`[app.tracePart.at, document.activeElement.className]`), [n, "events"]);
    }
    // a place of the sheet by meaning is touched
    await b.click("=The sheet by meaning");
    await b.until(`document.querySelector("#trace .sheet")`);
    await b.click("=1/51");
    const story = await b.run(text("#trace .entry .story"));
    for (const part of ["1000 → 1020 by event 3", "needs level 1, the connection has level 2", "in the dump: 640"]) has("the history of a place", story, part);
    holds("with its picture", await b.run(`document.querySelector("#trace .entry .story svg") !== null`));
    await b.click("=0100h to 0103h");
    has("one to which nothing happened", await b.run(`document.querySelectorAll("#trace .entry .story")[0].textContent`), "No event has changed it, and none has asked for it in vain.");
    await b.click("=Address");
    has("one of the head", await b.run(text("#trace .facts .story")), "No event has changed it");
    expect("it is seen that they are open", await b.run(`[...document.querySelectorAll("#trace .sheet [aria-expanded=true]")].map(e => e.textContent)`), ["Address", "0100h to 0103h", "1/51"]);
    await b.run(`app.tracePart.go(3)`);
    expect("and they stay so", await b.run(`document.querySelectorAll("#trace .sheet .story").length`), 3);
    for (const name of ["1/51", "0100h to 0103h", "Address", "The sheet by meaning"]) await b.click(`=${name}`);
    // the picture: a line, a change, an attempt, the dump, and all of it in words
    expect("the picture's marks", await b.run(`["value", "step", "refused", "dump"].map(name => document.querySelectorAll("#trace .final .plot ." + name).length)`), [1, 1, 1, 1]);
    expect("the picture's words", await b.run(`document.querySelector("#trace .final .plot").getAttribute("aria-label")`),
        "property 1/51 element 1 over 9 events: at first: 1000; event 3, at 2026-03-02T08:02:12.512: 1020; event 8, at 2026-03-02T08:15:02.118: 640 asked for, and refused; in the dump: 640.");
    // no key is seen anywhere
    holds("keys are hidden", !/22222222|5a17c0de/i.test(await b.run("document.body.innerText")));
    // printed by its button
    await b.run(`window.pages = 0; window.print = () => { window.pages++; }`);
    await b.click("=Print it");
    expect("printed", await b.run("pages"), 1);
    // saved: one page, without script, with all that was said
    const { name, bytes } = await b.saved(() => b.click("=Save the explanation"));
    expect("the name of the file", name, "what-happened.html");
    has("no key is saved", String(!/22222222|5a17c0de/i.test(bytes.toString())), "true");
    const asked = b.events.length, saved = b.file("saved.html", bytes), said = await all();
    expect("the page when it is printed", await b.printed(), 1);
    await b.send("Page.navigate", { url: "file://" + saved });
    await b.until(`document.title === "What happened" && document.querySelector(".happened")`);
    expect("what is saved", (await b.run(text(".happened"))).replace(/\s+/g, " "), said.replaceAll("The picture in words", "").replace(/at first: 1000event.*?in the dump: 640/g, "").replace(/\s+/g, " "));
    expect("the saved file has no script, and asks for nothing", [await b.run(`document.scripts.length`), b.events.slice(asked).filter(e => e.method === "Network.requestWillBeSent" && !e.params.request.url.startsWith("file://" + b.folder)).length], [0, 0]);
    has("what it rests on", await b.run(text(".rests")), "the recording: laptop.hex, 1");
    expect("the saved file when it is printed", await b.printed(), 1);
    await b.size(320, 640);
    expect("the saved file on a phone", await b.run("document.documentElement.scrollWidth"), 320);
    await b.size(1280, 900);
    // the story of who has nothing
    await b.load(url);
    await b.click("=Show me an example");
    const told = await b.run(text("#start .story"));
    for (const part of ["height at 1000; read out afterwards it had 640", "property 1/51 element 1: 1000 → 640", "25 frames, of which 9 are events", "At 08:02 the device 1.1.251, the technician's, set the height to 1020: event 3, at level 1, whose key it had offered by event 2",
        "At 08:15 the device 1.1.250, a laptop, asked for 640: event 8.", "needs level 1, the connection has level 2", "No permitted write gave 640"]) has("the story", told, part);
    await b.click("=See both dumps side by side");
    expect("both dumps", await b.run(`[...document.querySelectorAll("#two .lines li")].map(e => e.textContent)`), ["property 1/51 element 1: 1000 → 640", "group object 1/0/1: 00 → 01"]);
    await b.click("#tab-start");
    await b.click("=See what happened, event by event");
    has("what happened", await b.run(text("#trace .explanation")), "1.1.250");
    // terms where they stand, by touch
    await b.click("#tab-sheet");
    await b.click("=read 3, write 1");
    has("read 3, write 1", await b.run(text("#sheet .means")), "r3 w1 in a sheet's text: everybody may read it, level 3 being everybody's; to write it a connection needs level 1 or a lower number, by offering the key.");
    await b.click("=1 of 2 valid");
    has("1 of 2 valid", await b.run(`document.querySelectorAll("#sheet .means")[1].textContent`), "there is room for 2 elements, and the first one counts");
    return "named, drawn, touched, told as a story, saved and printed, in the tool's words";
}

module.exports = { accidentTest };
