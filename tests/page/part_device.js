// Part 3, the device at work, by the keyboard alone where a person would not take the mouse.
"use strict";
const { hex, sample, text, bytesOf, expect, has } = require("./common.js");

async function devicePart(b) {
    await b.run(`document.activeElement.blur(); app.putOnDevice(${bytesOf(sample)}, "the sample sheet"); app.device.store = new Uint8Array(STORE); app.open("sheet"); document.querySelector("#tab-sheet").focus()`);
    const state = () => b.run(text("#device .card .verdict")), log = () => b.run(text("#device .log li"));
    const marks = () => b.run(`[...document.querySelectorAll("#device .sheet mark")].map(e => e.textContent)`);
    const send = async request => {
        await b.tabTo("The request, in words or hex");
        await b.typeHere(request);
        await b.key("Enter");
    };
    // the select goes from choice to choice by arrow keys
    const way = async name => {
        await b.run(`document.activeElement.blur()`);
        await b.tabTo("How it comes");
        await b.arrowTo(name);
    };
    await b.key("ArrowRight");
    await b.key("ArrowRight");
    expect("arrow keys go from part to part", await b.run(`[document.activeElement.id, document.querySelector("#device").hidden]`), ["tab-device", false]);
    await send("property_write object=1 id=51 n=1 s=1 data=04e2");
    has("without a key", await state(), "refused (11)");
    expect("nothing is marked", await marks(), []);
    await b.run(`document.activeElement.blur()`);
    await b.tabTo("Connect connection 0");
    await b.key(" ");
    has("connected", await b.run(text("#device .sessions")), "level 3");
    await way("on connection 0");
    await send("authorize_request key=22222222");
    has("the key of level 1", await log(), "connection 0: level 3 → level 1");
    // a key that was sent is seen nowhere, unless keys are shown
    const seen = () => b.run(`document.body.innerText + [...document.querySelectorAll("textarea, input")].map(e => e.value).join(" ")`);
    expect("the key that was sent is hidden", [(await log()).includes("key=••••••••"), (await seen()).includes("22222222")], [true, false]);
    await b.click("=Show keys");
    has("and shown when asked for", await log(), "authorize_request key=22222222");
    await b.click("=Show keys");
    await send("03d7013310020004");
    has("in hex", await log(), "property_write object=1 id=51 n=1 s=2 data=0004");
    has("its number beside it", await log(), "(in decimal: 4)");
    has("what changed", await log(), "property 1/51 count: 1 → 2");
    expect("what changed is marked where it stands", await marks(), ["2 of 2", "4"]);
    for (const [typed, fault] of [["property_raed object=1", "there is no request “property_raed”"], ["property_read object=1", "needs id, n, s"], ["memory_read n=16 address=0100h", "no PDU that can be written (13)"],
        ["property_read object=1 id=51 n=1 s=1 key=1", "has no field key"], ["0x03 d5 0", "a byte has two"], ["authorize_request key=2222", "key has 8 hex digits"], ["memory_read n=1 n=2 address=1", "n stands twice"],
        ["property_write object=1 id=51 n=1 s=1 value=65536", "65536 is more than an element of property 1/51 can hold, 65535"], ["property_write object=1 id=51 n=2 s=1 value=1", "n=2, and 1 value"],
        ["property_write object=1 id=52 s=1 value=1", "the sheet has no property 1/52"], ["property_write object=1 id=51 s=1 value=04e2", "“04e2” is no number in decimal"],
        ["property_write object=1 id=51 s=1 value=1 data=01", "value= and data= stand both"], ["memory_write n=1 address=0100h value=1", "has no value in decimal"]]) {
        const before = await b.run(`app.device.log.length`);
        await send(typed);
        has(`typed ${typed}`, await b.run(text("#device form + .said.fault")), fault);
        expect("nothing happened", await b.run(`app.device.log.length`), before);
    }
    // values in decimal, as the sheet shows them
    await send("property_write object=1 id=51 n=1 s=1 value=1250");
    has("a value in decimal", await log(), "property 1/51 element 1: 1000 → 1250");
    has("in hex and in decimal", await log(), "data=04e2, on connection 0 (in decimal: 1250)");
    await send("property_write object=1 id=51 s=1 value=1000,4");
    has("two of them", await log(), "n=2 s=1 data=03e80004");
    await send("memory_write n=2 address=0100h data=5566");
    has("level 1 may write what level 2 may", await log(), "memory 0100h: a0 a1 → 55 66");
    await way("to a group");
    await send("group_write v=0 data=2a");
    has("a group value", await log(), "group object 1/0/1: 00 → 2a");
    has("as a datapoint", await b.run(text("#device .sheet")), "as type 5: 42");
    await send("group_write value=43");
    has("a group value in decimal", await log(), "group object 1/0/1: 2a → 2b");
    await send("group_write value=256");
    has("one that does not fit", await b.run(text("#device form + .said.fault")), "has one byte: a whole number up to 255");
    await b.run(`document.activeElement.blur()`);
    await b.tabTo("Button on");
    await b.key("Enter");
    has("the button", await log(), "programming mode: off → on");
    await way("to all devices");
    await send("address_write address=4358");
    has("programming mode lets an address in", await log(), "individual address: 1.1.5 → 1.1.6");
    // a frame of the USB interface
    await way("as a frame of the USB interface");
    await send("2900b06011ff110600 80");
    has("a connect as a frame", await b.run(text("#device .sessions")), "Connection 1: level 3");
    await send("2900b06011ff11060503d501331001");
    has("a frame", await log(), "property_read object=1 id=51 n=1 s=1, on no connection, from 1.1.255");
    has("the frame that answers", await log(), "property_response object=1 id=51 n=1 s=1 data=03e8, in the frame 1100b060110611ff0703d60133100103e8");
    for (const first of ["43", "47"]) {
        await send("code=41 c1=176 c2=96 source=4607 destination=4358 transport=16 info=- apdu=03d501331001");
        has("a frame in words, on its partner's connection", await log(), "property_read object=1 id=51 n=1 s=1, on connection 1, from 1.1.255");
        has("as the module reads it", await log(), "frame code=41 c1=176 c2=96 source=4607 destination=4358 transport=16 info=- tpdu=43d501331001 connected");
        has("its answers are counted", await log(), `in the frame 1100b060110611ff07${first}d6`);
    }
    for (const [typed, fault] of [["2900b06011ff1106", "too short for a frame (40)"], ["2900b06011ff11050503d501331001", "for another device (60)"], ["2900b0601106110600c2", "from the device's own address to itself (65)"], ["2900b06011fe11060543d501331001", "connected data from nobody's partner (61)"],
        ["2900b06011fe11060080", "no place for a third partner (62)"], ["2900b06011fe11060081", "a disconnect from nobody's partner (63)"], ["2900b06011ff110600c2", "an acknowledgement (45)"],
        ["code=41", "a frame needs c1, c2, source, destination, transport, info, apdu"], ["code=1 c1=176 c2=96 source=1 destination=1 transport=0 info=- apdu=00", "no frame that can be written (47)"]]) {
        const before = await b.run(`app.device.log.length`);
        await send(typed);
        has(`the frame ${typed}`, await b.run(text("#device form + .said.fault")), fault);
        expect("nothing happened", await b.run(`app.device.log.length`), before);
    }
    await send("2900b06011ff11060643d10022222222");
    expect("a key in a frame is hidden", [(await log()).includes("tpdu=••••••••"), (await seen()).includes("22222222")], [true, false]);
    // versions
    await b.click("=Save a version");
    has("a version", await state(), "version 1");
    await way("on connection 0");
    await send("property_write object=1 id=51 n=1 s=1 data=2328");
    has("since the version", await b.run(text("#device .versions")), "since then: property 1/51 element 1: 1000 → 9000");
    await b.click("=Restore version 1");
    has("level 1 is not enough", await state(), "not open at level 0 (35)");
    await way("on connection 1");
    await send("authorize_request key=11111111");
    await b.choose("=Restore on", "connection 1");
    await b.run(`document.activeElement.blur()`);
    await b.tabTo("Restore version 1");
    await b.key("Enter");
    has("restored", await log(), "property 1/51 element 1: 9000 → 1000");
    await b.click("=Show it as a trace");
    has("a restore is no event of a trace", await b.run(text("#device form + .said.fault")), "a version was restored");
    await b.click("=Remove version 1");
    has("removed", await b.run(text("#device .versions")), "0 versions kept");
    // begun anew, recorded, shown as a trace
    await b.click("=Begin anew");
    await b.click("=Connect connection 0");
    await way("on connection 0");
    await send("authorize_request key=11111111");
    await send("memory_write n=2 address=0100h data=5566");
    await b.click("=Show it as a trace");
    has("as a trace", await b.run(text("#trace .verdict")), "3 events.");
    expect("its sheet at the end", await b.run(`hex(app.tracePart.playing.after(3).sheet)`), await b.run(`hex(app.device.sheet)`));
    return "by the keyboard alone: words, hex, frames, groups, the button, versions, faults of the line";
}

module.exports = { devicePart };
