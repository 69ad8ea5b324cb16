// Part 5, the demonstration, as `make run` shows it.
"use strict";
const { read, text, expect } = require("./common.js");

async function demoPart(b) {
    await b.click("#tab-demo");
    const count = await b.run(`app.demoPart.steps.length`);
    expect("it begins with its first words", await b.run(`document.querySelectorAll("#demo li").length`), 1);
    await b.click("=Next step");
    expect("a step", await b.run(`document.querySelectorAll("#demo li").length`), 2);
    await b.click("=All of it");
    expect("all steps", await b.run(`document.querySelectorAll("#demo li").length`), count);
    const hidden = await b.run(text("#demo"));
    expect("keys are hidden", [/key=[0-9a-f]/.test(hidden.replaceAll("key=ffffffff", "")), hidden.includes("key=••••••••")], [false, true]);
    await b.click("=Show keys");
    // in the form of make run
    const lines = await b.run(`[...document.querySelectorAll("#demo li")].map(li => [...li.children].map(e => {
        if (e.className === "text") return e.textContent;
        if (e.className === "sent") return "   > " + e.textContent;
        if (e.className === "change") return "     " + " ".repeat(56) + " " + e.textContent;
        const outcome = e.querySelector("span"), text = e.firstChild === outcome ? "" : e.firstChild.textContent;
        return outcome ? "   < " + text.padEnd(56) + " " + outcome.textContent : "   < " + text;
    }).join("\\n")).join("\\n\\n")`);
    expect("as make run shows it", lines.split("\n"), read("tests/unit/demo.expected").trimEnd().split("\n"));
    await b.click("=Show keys");
    await b.click("=Start over");
    return `${count} steps, line by line as make run shows them`;
}

module.exports = { demoPart };
