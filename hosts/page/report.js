// The explanation as a file of one page, which needs neither this page nor its script.

/** @typedef {{ what: string, name: string, length: number }} Part_ a file that the explanation rests on */

// A document of its own: what it rests on, and what happened.
/** @param {Explanation} told @param {Part_[]} files @param {Ways} ways @param {string} version */
function report(told, files, ways, version) {
    const page = document.implementation.createHTMLDocument("What happened");
    page.documentElement.lang = "en";
    const style = page.createElement("style"), policy = page.createElement("meta"), letters = page.createElement("meta"), room = page.createElement("meta");
    letters.setAttribute("charset", "utf-8");
    room.name = "viewport";
    room.content = "width=device-width, initial-scale=1";
    policy.httpEquiv = "Content-Security-Policy";
    policy.content = "default-src 'none'; style-src 'unsafe-inline'";
    style.textContent = document.querySelector("style")?.textContent ?? "";
    page.head.prepend(letters, room, policy);
    page.head.append(style);
    page.body.className = "report";
    page.body.append(el("main", {}, el("h1", {}, "What happened"), reportHead(files, version), happenedView(told, { ...ways, go: null })));
    return new TextEncoder().encode(`<!doctype html>\n${page.documentElement.outerHTML}\n`);
}

/** @param {Part_[]} files @param {string} version */
const reportHead = (files, version) => el("div", { class: "rests" },
    el("ul", { class: "lines" }, ...files.map(file => el("li", {}, `${file.what}: ${file.name}, ${counted(file.length, "byte")}`))),
    el("p", { class: "soft" }, `Told by the page of Kelindap ${version} on ${new Date().toISOString().slice(0, 16).replace("T", " ")} UTC. The proved module played the events; which events the device had is what the recording shows. A sender is what a frame said, and no proof of who sent it.`));
