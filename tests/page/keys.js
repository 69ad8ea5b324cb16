// Every part by the keyboard alone, from a page just opened: Tab, arrow keys, Enter, and what is typed.
"use strict";
const { hex, pump, text, expect, has } = require("./common.js");

async function keys(b, url) {
    await b.load(url);
    // the tab of a part, by arrow keys
    const part = async id => {
        for (let i = 0; i < 150 && !(await b.run(`document.activeElement.matches("[role=tab]")`)); i++) await b.key("Tab");
        await b.key("Home");
        for (let i = 0; i < 6 && (await b.run(`document.activeElement.id`)) !== `tab-${id}`; i++) await b.key("ArrowRight");
        expect(`the part ${id}`, await b.run(`[document.activeElement.id, document.querySelector("#${id}").hidden]`), [`tab-${id}`, false]);
    };
    const press = async name => {
        await b.tabTo(name);
        await b.key("Enter");
    };
    const paste = async bytes => {
        await press("Paste text or hex digits");
        await b.tabTo("Text or hex digits");
        await b.typeHere(hex(bytes));
        await press("Take these");
    };
    const take = async name => {
        await b.tabTo("Or of the page's own");
        await b.arrowTo(name);
        await press("Take it");
    };
    // a sheet: pasted; an old one converted; keys; put on the device, whose tab then has the focus
    await part("sheet");
    await paste(pump);
    has("pasted", await b.run(text("#sheet .verdict")), "Accepted: 101 bytes");
    await part("sheet");
    await take("an old one, of edition 1");
    await press("Convert to edition 2");
    has("converted", await b.run(text("#sheet .verdict")), "Accepted: 69 bytes");
    await b.tabTo("Save as a file");
    await part("sheet");
    await b.tabTo("Show keys");
    await b.key(" ");
    has("keys", await b.run(text("#sheet .sheet")), "11111111");
    await b.key(" ");
    await press("Put it on the device");
    expect("the focus goes along", await b.run(`document.activeElement.id`), "tab-device");
    // the device: a version saved, restored and removed; the focus stays where it is
    await press("Connect connection 0");
    expect("the focus stays", await b.run(`document.activeElement.getAttribute("aria-label")`), "Disconnect connection 0");
    await b.tabTo("How it comes");
    await b.arrowTo("on connection 0");
    await b.tabTo("Examples");
    await b.arrowTo("offer the key of level 0");
    await press("Send");
    has("an example sent", await b.run(text("#device .log li")), "connection 0: level 3 → level 0");
    await press("Save a version");
    await part("device");
    await b.tabTo("Examples");
    await b.arrowTo("write a property");
    await press("Send");
    await press("Restore version 1");
    has("restored", await b.run(text("#device .log li")), "property 1/51 element 1: 1250 → 1000");
    expect("the focus stays", await b.run(`document.activeElement.getAttribute("aria-label")`), "Restore version 1");
    await press("Remove version 1");
    expect("the focus goes to what is beside it", await b.run(`document.activeElement.labels[0].textContent`), "Restore on");
    // two sheets
    await part("two");
    await take("a pump controller's");
    has("two sheets", await b.run(text("#two .lines")), "individual address: 1.1.6 → 1.1.5");
    await b.tabTo("Only rows that differ");
    const rows = () => b.run(`document.querySelectorAll("#two .row").length`), all = await rows();
    await b.key(" ");
    expect("rows that differ alone", [all, await rows()], [7, 7]);
    await b.key(" ");
    has("told what they are", await b.run(text("#two .source .said")), "a pump controller's, 101 bytes");
    // what happened: the accident; forward, back, to an event, in the list, at a byte
    await part("trace");
    await b.tabTo("Or of the page's own");
    await b.tabTo("Take it");
    await b.key("Tab");
    await take("the accident, with its dumps");
    has("explained", await b.run(text("#trace .explanation")), "needs level 1, the connection has level 2");
    await press("event 8");
    expect("a line leads to its event", await b.run(`[app.tracePart.at, document.activeElement.getAttribute("aria-label")]`), [8, "Events"]);
    await b.key("Home");
    await part("trace");
    const at = () => b.run(`[app.tracePart.at, Number(document.querySelector("#trace [aria-selected=true]")?.dataset.n ?? 0)]`);
    await press("Next");
    await b.key("Enter");
    expect("two forward", await at(), [2, 2]);
    await part("trace");
    await press("Back");
    expect("one back", await at(), [1, 1]);
    await b.tabTo("After event");
    await b.typeHere("7");
    await b.key("Enter");
    expect("to an event", await at(), [7, 7]);
    await b.tabTo("Events");
    await b.key("ArrowUp");
    expect("in the list", await at(), [6, 6]);
    await b.tabTo("Bytes of the sheet; arrow keys move from one to the next");
    for (const key of ["Home", "ArrowDown", "ArrowRight"]) await b.key(key);
    has("at a byte", await b.run(text("#trace .account")), "Byte 17, individual address: ");
    await press("The sheet by meaning");
    await press("1/51");
    has("the history of a place", await b.run(text("#trace .entry .story")), "1000 → 1020 by event 3");
    await part("trace");
    await press("The picture in words");
    has("the picture in words", await b.run(text("#trace .history details ul")), "640 asked for, and refused");
    // the first card: a dump pasted; the example
    await part("start");
    await paste(pump);
    expect("a dump that is pasted is shown", await b.run(`[app.part, document.activeElement.id]`), ["sheet", "tab-sheet"]);
    await part("start");
    await press("Show me an example");
    has("the story", await b.run(text("#start .story")), "A tank overran.");
    await press("See what happened, event by event");
    expect("the focus goes along", await b.run(`document.activeElement.id`), "tab-trace");
    // the demonstration
    await part("demo");
    await press("Next step");
    await b.key("Enter");
    expect("two steps", await b.run(`document.querySelectorAll("#demo li").length`), 3);
    return "each part, from a page just opened";
}

module.exports = { keys };
