// Nothing leaves the page.
"use strict";
const fs = require("fs");
const path = require("path");
const { project, read, expect, holds } = require("./common.js");

async function network(b, url) {
    const asked = b.events.filter(e => e.method === "Network.requestWillBeSent").map(e => e.params.request.url);
    expect("no request but the page itself and what it holds", asked.filter(u => u.split("#")[0] !== url && !u.startsWith("data:") && !u.startsWith("blob:") && u !== `file://${b.folder}/saved.html`), []);
    holds("the page has less than 400 KB", fs.statSync(url.slice("file://".length)).size < 400000);
    const wrong = b.events.filter(e => e.method === "Runtime.exceptionThrown" || (e.method === "Log.entryAdded" && e.params.entry.level === "error"));
    expect("no error of the script", wrong.map(e => e.params.exceptionDetails?.exception?.description || e.params.entry?.text), []);
    // the module has the functions of the headers, and is given none
    const [imports, exports] = await b.run(`WebAssembly.compile(Uint8Array.from(atob(MADE.wasm), c => c.charCodeAt(0))).then(m => [WebAssembly.Module.imports(m).length, WebAssembly.Module.exports(m).map(e => e.name)])`);
    const calls = ["", "_store", "_trace", "_link", "_pdu", "_frame"].flatMap(name => read(`include/kelindap${name}.h`).match(/kelindap_[a-z_]+(?=\()/g));
    expect("the module is given nothing", imports, 0);
    expect("the module's functions", exports.sort(), [...new Set(calls), "memory", "page_fields", "__heap_base"].sort());
    // the script names no way out, and the policy would refuse those that it is about
    const ways = /\b(fetch|XMLHttpRequest|WebSocket|WebTransport|EventSource|sendBeacon|RTCPeerConnection|Worker|import|eval|new Function|innerHTML|location\.(href|assign|replace)|window\.open|localStorage|indexedDB|cookie)\b/g;
    const scripts = fs.readdirSync(path.join(project, "hosts/page")).filter(name => name.endsWith(".js"));
    expect("the script has no way out", scripts.flatMap(name => read(`hosts/page/${name}`).match(ways) ?? []), []);
    for (const [way, ask] of Object.entries({ fetch: `fetch("https://example.invalid/")`, socket: `new Promise((done, fail) => { const s = new WebSocket("wss://example.invalid/"); s.onopen = done; s.onerror = fail; })`,
        picture: `new Promise((done, fail) => { const i = new Image(); i.onload = done; i.onerror = fail; i.src = "https://example.invalid/a.png"; })` })) {
        const refused = await b.run(`new Promise(done => {
            const seen = event => { document.removeEventListener("securitypolicyviolation", seen); done(event.effectiveDirective); };
            document.addEventListener("securitypolicyviolation", seen);
            (async () => ${ask})().then(() => done("asked"), () => setTimeout(() => done("not by the policy"), 10000));
        })`);
        expect(`the policy refuses a ${way}`, refused, way === "picture" ? "img-src" : "connect-src");
    }
    return `${asked.length} requests, the page and what it holds; ${new Set(calls).size} functions of the headers in its module, which is given none`;
}

module.exports = { network };
