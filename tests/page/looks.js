// What is seen: nothing cut off, colours that can be told apart, names for those who hear the page, the focus.
"use strict";
const path = require("path");
const { pump, PARTS, played, bytesOf, expect, holds, has } = require("./common.js");

// the accident, with a place and a term opened, a file that was taken and one that was not
const explained = `(() => {
    app.accident();
    app.open("trace");
    app.take([{ name: "cut.bin", bytes: app.sheet.slice(0, 60) }, { name: "after.txt", bytes: new TextEncoder().encode(MADE.accident.after[1]) }], null);
    app.tracePart.meaning.open = true;
    app.tracePart.showMeaning();
    for (const name of ["1/51", "read 3, write 1", "1 of 2 valid", "Address"]) [...document.querySelectorAll("#trace .sheet button")].find(e => e.textContent === name).click();
    for (const box of document.querySelectorAll("#trace .history details, #trace .making, #trace .given")) box.open = true;
})()`;

// something to be seen in every part
async function filled(b) {
    await b.run(`(() => {
        app.startPart.tell();
        const sample = ${bytesOf(pump)}, other = sample.slice();
        other.set([0x23, 0x28], 80);
        other[101 - 12] = 0x99;
        app.setSheet(sample, "pump.bin");
        app.putOnDevice(sample, "pump.bin");
        app.device.store = new Uint8Array(STORE);
        for (const [line, mode, c] of [["property_read object=1 id=51 n=1 s=1", 2, 0], ["property_write object=1 id=51 n=1 s=1 data=04e2", 2, 0]]) app.device.request(apduOf(app.proved, line), mode, c);
        app.device.connect(0);
        app.device.request(apduOf(app.proved, "authorize_request key=11111111"), 3, 0);
        app.device.save();
        app.device.connect(1);
        app.devicePart.did(app.device.request(apduOf(app.proved, "property_write object=1 id=51 n=1 s=2 data=04e2"), 3, 0));
        app.compare(0, sample, "pump.bin");
        app.compare(1, other, "other.bin");
        app.tracePart.set(${bytesOf(played.sheet)}, "that of trace_play", ${bytesOf(played.trace)}, "a stored trace");
        app.tracePart.go(30);
        app.demoPart.go(9);
        scrollTo(0, 0);
    })()`);
}

// what runs out of the window, or out of what hides it
const cutOff = `(() => {
    const width = document.documentElement.clientWidth, bad = [], pen = document.createElement("canvas").getContext("2d");
    if (document.documentElement.scrollWidth > width) bad.push("the page is " + document.documentElement.scrollWidth + " wide");
    for (const e of document.querySelectorAll("body *")) {
        if (!e.getClientRects().length || e.tagName === "OPTION") continue;
        const r = e.getBoundingClientRect(), name = e.tagName + "." + e.className + " " + e.textContent.slice(0, 40), style = getComputedStyle(e);
        if (r.right > width + 0.5 || r.left < -0.5) bad.push(name + " from " + r.left + " to " + r.right);
        if (e.scrollWidth > e.clientWidth + 1 && style.display !== "inline" && e.clientWidth > 0 && !/INPUT|SELECT|TEXTAREA/.test(e.tagName)) bad.push(name + " has " + e.scrollWidth + " in " + e.clientWidth);
        // every choice of a select can be read when it is chosen, beside its arrow
        if (e.tagName === "SELECT") {
            pen.font = style.font;
            const longest = Math.max(...[...e.options].map(o => pen.measureText(o.text).width)), room = e.clientWidth - parseFloat(style.paddingLeft) - parseFloat(style.paddingRight) - 16;
            if (longest > room + 1) bad.push("a choice of " + Math.round(longest) + " in " + Math.round(room) + ": " + name);
        }
        if (e.tagName === "BUTTON" && (r.height < 24 || r.width < 24)) bad.push(name + " is too small to be pressed");
    }
    return bad;
})()`;

// two pictures later, the first block of bytes in the part that is seen
const sight = `new Promise(done => requestAnimationFrame(() => requestAnimationFrame(() => {
    const block = [...document.querySelectorAll(".block")].find(e => e.offsetParent !== null);
    if (block) block.scrollIntoView();
    requestAnimationFrame(() => requestAnimationFrame(() => { scrollTo(0, 0); done(!block || block.firstElementChild.checkVisibility({ contentVisibilityAuto: true })); }));
})))`;

// the event that is chosen stands in the list's window, once what is around it is laid out
const chosen = `(async () => {
    const bad = [], picture = () => new Promise(requestAnimationFrame);
    for (const n of [45, 12, 59, 1, 30]) {
        scrollTo(0, 0);
        app.tracePart.go(n);
        for (let i = 0; i < 4; i++) await picture();
        document.querySelector("#trace .events").scrollIntoView({ block: "center" });
        for (let i = 0; i < 8; i++) await picture();
        const list = document.querySelector("#trace .events").getBoundingClientRect(), row = document.querySelector("#trace [aria-selected=true]").getBoundingClientRect();
        if (row.top < list.top - 1 || row.bottom > list.bottom + 1) bad.push(n);
    }
    scrollTo(0, 0);
    return bad;
})()`;

// text whose colour is too near to what is behind it (WCAG: 4.5 to 1, 3 to 1 if it is large)
const faint = `(() => {
    const parse = c => { const m = c.match(/[\\d.]+/g).map(Number); return m.length < 4 ? [...m, 1] : m; };
    const light = ([r, g, b]) => [r, g, b].map(v => v / 255).map(v => v <= 0.03928 ? v / 12.92 : ((v + 0.055) / 1.055) ** 2.4).reduce((sum, v, i) => sum + v * [0.2126, 0.7152, 0.0722][i], 0);
    const bad = [];
    let least = 21;
    for (const e of document.querySelectorAll("body *")) {
        if (!e.getClientRects().length || ![...e.childNodes].some(n => n.nodeType === 3 && n.textContent.trim())) continue;
        let behind = e;
        while (behind && parse(getComputedStyle(behind).backgroundColor)[3] === 0) behind = behind.parentElement;
        const style = getComputedStyle(e), a = light(parse(style.color)), b = light(parse(behind ? getComputedStyle(behind).backgroundColor : "rgb(255,255,255)"));
        const ratio = (Math.max(a, b) + 0.05) / (Math.min(a, b) + 0.05), large = parseFloat(style.fontSize) >= 24;
        least = Math.min(least, ratio);
        if (ratio < (large ? 3 : 4.5)) bad.push(e.tagName + "." + e.className + " " + e.textContent.slice(0, 30) + ": " + ratio.toFixed(2));
    }
    return { bad: [...new Set(bad)], least };
})()`;

async function looks(b, out) {
    let least = 21, pictures = 0;
    for (const [width, height] of [[1280, 900], [320, 640]]) {
        await b.size(width, height);
        for (const scheme of ["light", "dark"]) {
            await b.colours(scheme);
            await filled(b);
            for (const part of [...PARTS, "accident"]) {
                if (part === "accident") await b.run(explained);
                else await b.click(`#tab-${part}`);
                await b.run("scrollTo(0, 0)");
                const what = `${part} at ${width} pixels, ${scheme}`;
                for (const word of ["The proved module (", "plain script shows", "the browser is trusted"]) has(`${what}: who is trusted with what`, await b.run("document.querySelector('.trust').innerText"), word);
                holds(`${what}: what comes into sight is laid out`, await b.run(sight));
                if (part === "trace") expect(`${what}: the event is in sight in the list`, await b.run(chosen), []);
                // and now all of it, also what is not yet in sight
                await b.run(`for (const e of document.querySelectorAll(".block, .entry")) e.style.contentVisibility = "visible"`);
                expect(`${what}: nothing is cut off`, await b.run(cutOff), []);
                const seen = await b.run(faint);
                expect(`${what}: every text can be told from what is behind it`, seen.bad, []);
                least = Math.min(least, seen.least);
                const all = await b.run("document.documentElement.scrollHeight");
                await b.size(width, Math.min(Math.max(all, height), 4000));
                await b.picture(path.join(out, `${part}-${width}${scheme === "dark" ? "-dark" : ""}.png`));
                await b.run(`for (const e of document.querySelectorAll(".block, .entry")) e.style.contentVisibility = ""`);
                await b.size(width, height);
                pictures++;
            }
        }
    }
    await b.run(`app.tracePart.meaning.open = false; app.take([], null)`);
    await b.colours("light");
    await b.size(1280, 900);
    return `${pictures} pictures at 1280 and 320 pixels, light and dark, nothing cut off, contrast at least ${least.toFixed(1)}`;
}

// every control has a name, and Tab reaches every one
async function names(b) {
    let controls = 0;
    for (const part of PARTS) {
        await b.click(`#tab-${part}`);
        await b.run(`for (const d of document.querySelectorAll("#${part} details")) d.open = true`);
        const { nodes } = await b.send("Accessibility.getFullAXTree");
        for (const node of nodes) {
            const focusable = (node.properties || []).some(p => p.name === "focusable" && p.value.value);
            if (!focusable || /RootWebArea/.test(node.role?.value)) continue;
            controls++;
            holds(`${part}: a ${node.role?.value} has a name`, node.name?.value);
        }
        // by Tab alone: what can be reached, and that it shows where one is
        await b.run(`document.activeElement.blur(); window.reached = new Set()`);
        const can = await b.run(`[...document.querySelectorAll("#${part} button, #${part} input, #${part} select, #${part} textarea, #${part} summary, #${part} [tabindex='0']")].filter(e => e.getClientRects().length && !e.disabled).length`);
        for (let i = 0; i < can + 12; i++) {
            await b.key("Tab");
            const shown = await b.run(`(() => { const e = document.activeElement; if (!e.closest("#${part}")) return true; reached.add(e); return getComputedStyle(e).outlineStyle !== "none"; })()`);
            holds(`${part}: the focus is seen`, shown);
        }
        expect(`${part}: Tab reaches all`, await b.run("reached.size"), can);
        await b.run(`for (const d of document.querySelectorAll("#${part} details")) d.open = false`);
    }
    return `${controls} controls, each with a name, each reached by Tab`;
}

module.exports = { looks, names };
