// A browser without a window, driven over a pipe by the DevTools protocol, and a person in front of it: mouse, keys, files.
"use strict";
const { spawn } = require("child_process");
const fs = require("fs");
const os = require("os");
const path = require("path");

// so long, in milliseconds, something may take on a machine that is slow and has much else to do
const PATIENCE = 180000;

class Browser {
    constructor(program) {
        this.folder = fs.mkdtempSync(path.join(os.tmpdir(), "page-"));
        this.downloads = path.join(this.folder, "downloads");
        fs.mkdirSync(this.downloads);
        const words = ["--headless", "--no-sandbox", "--disable-gpu", "--hide-scrollbars", "--remote-debugging-pipe", `--user-data-dir=${this.folder}/profile`, "about:blank"];
        this.child = spawn(program, words, { stdio: ["ignore", "ignore", "ignore", "pipe", "pipe"] });
        this.to = this.child.stdio[3];
        this.waiting = new Map();
        this.events = [];
        this.number = 0;
        let rest = Buffer.alloc(0);
        this.child.stdio[4].on("data", data => {
            rest = Buffer.concat([rest, data]);
            for (let end = rest.indexOf(0); end >= 0; end = rest.indexOf(0)) {
                this.received(JSON.parse(rest.subarray(0, end).toString()));
                rest = rest.subarray(end + 1);
            }
        });
        this.ended = new Promise(done => this.child.on("exit", done));
        this.ended.then(() => {
            for (const { fail } of this.waiting.values()) fail(new Error("the browser has ended"));
        });
    }

    received(message) {
        if (message.id === undefined) {
            this.events.push(message);
            return;
        }
        const { done, fail } = this.waiting.get(message.id) ?? {};
        if (!done) return;
        this.waiting.delete(message.id);
        if (message.error) fail(new Error(message.error.message));
        else done(message.result);
    }

    send(method, params = {}) {
        const id = ++this.number;
        let timer;
        return new Promise((done, fail) => {
            timer = setTimeout(() => fail(new Error(`the browser does not answer: ${method}`)), PATIENCE);
            this.waiting.set(id, { done, fail });
            this.to.write(JSON.stringify({ id, method, params, sessionId: this.session }) + "\0");
        }).finally(() => clearTimeout(timer));
    }

    async open(url) {
        const { targetInfos } = await this.send("Target.getTargets");
        const target = targetInfos.find(info => info.type === "page") || (await this.send("Target.createTarget", { url: "about:blank" }));
        this.session = (await this.send("Target.attachToTarget", { targetId: target.targetId, flatten: true })).sessionId;
        for (const domain of ["Page", "Runtime", "Network", "Log", "DOM", "Accessibility"]) await this.send(`${domain}.enable`);
        await this.send("Browser.setDownloadBehavior", { behavior: "allow", downloadPath: this.downloads });
        await this.load(url);
    }

    // a page opened; what was there before may answer for a moment
    async load(url) {
        await this.run("window.before = true");
        await this.send("Page.navigate", { url });
        await this.until("!window.before && document.documentElement.dataset.ready");
        if ((await this.run("document.documentElement.dataset.ready")) !== "yes") throw new Error(await this.run("document.querySelector('#failed').textContent"));
    }

    async run(expression) {
        const { result, exceptionDetails } = await this.send("Runtime.evaluate", { expression, returnByValue: true, awaitPromise: true });
        if (exceptionDetails) throw new Error(exceptionDetails.exception?.description || exceptionDetails.text);
        return result.value;
    }

    async until(expression, what = expression) {
        const end = Date.now() + PATIENCE;
        for (;;) {
            // the page may not be there yet, nor the element
            if (await this.run(`Boolean(${expression})`).catch(() => false)) return;
            if (Date.now() > end) throw new Error(`waited in vain for ${what}`);
            await new Promise(done => setTimeout(done, 20));
        }
    }

    // ---- a person ----

    async size(width, height) {
        await this.send("Emulation.setDeviceMetricsOverride", { width, height, deviceScaleFactor: 1, mobile: width < 500 });
    }

    async colours(scheme) {
        await this.send("Emulation.setEmulatedMedia", { features: [{ name: "prefers-color-scheme", value: scheme }] });
    }

    // the middle of an element, brought into sight and at rest there, with nothing before it: what comes into sight with it is laid
    // out only then, and moves it
    async middle(selector) {
        const at = await this.run(`(async () => {
            let last = "";
            for (let i = 0; i < 100; i++) {
                const e = ${find(selector)};
                if (!e) return null;
                e.scrollIntoView({ block: "center" });
                await new Promise(done => requestAnimationFrame(() => requestAnimationFrame(done)));
                const r = e.getBoundingClientRect(), x = r.x + r.width / 2, y = r.y + r.height / 2;
                if (last === x + " " + y && e.contains(document.elementFromPoint(x, y))) return { x, y };
                last = x + " " + y;
            }
            return null;
        })()`);
        if (!at) throw new Error(`there is nothing to press: ${selector}`);
        return at;
    }

    async click(selector) {
        const { x, y } = await this.middle(selector);
        for (const type of ["mousePressed", "mouseReleased"]) await this.send("Input.dispatchMouseEvent", { type, x, y, button: "left", clickCount: 1 });
    }

    async point(selector) {
        const { x, y } = await this.middle(selector);
        await this.send("Input.dispatchMouseEvent", { type: "mouseMoved", x, y });
    }

    async key(name) {
        const keys = { Enter: [13, "\r"], Tab: [9], " ": [32, " "], ArrowLeft: [37], ArrowUp: [38], ArrowRight: [39], ArrowDown: [40], Home: [36], End: [35], Backspace: [8] };
        const shift = name === "Shift+Tab", [code, text] = keys[shift ? "Tab" : name];
        const key = { key: shift ? "Tab" : name, code: name === " " ? "Space" : shift ? "Tab" : name, windowsVirtualKeyCode: code, modifiers: shift ? 8 : 0 };
        await this.send("Input.dispatchKeyEvent", { type: text ? "keyDown" : "rawKeyDown", text, ...key });
        await this.send("Input.dispatchKeyEvent", { type: "keyUp", ...key });
    }

    // goes on by Tab until what has the focus is called so
    async tabTo(name) {
        for (let i = 0; i < 150; i++) {
            const at = await this.run(`(() => { const e = document.activeElement; return e.getAttribute("aria-label") || (e.labels && e.labels[0] ? e.labels[0].textContent : e.textContent); })()`);
            if (at === name) return;
            await this.key("Tab");
        }
        throw new Error(`no Tab leads to ${name}`);
    }

    // by arrow keys, in the choice that has the focus
    async arrowTo(name) {
        const chosen = () => this.run(`document.activeElement.selectedOptions[0].text`), all = await this.run(`document.activeElement.options.length`);
        for (let i = 0; i < all; i++) await this.key("ArrowUp");
        for (let i = 0; i < all && (await chosen()) !== name; i++) await this.key("ArrowDown");
        if ((await chosen()) !== name) throw new Error(`no arrow key leads to ${name}`);
    }

    // what stands in the field that has the focus is replaced
    async typeHere(text) {
        await this.run(`document.activeElement.select()`);
        await this.send("Input.insertText", { text });
    }

    // what stands in a field is replaced
    async type(selector, text) {
        await this.run(`(() => { const e = ${find(selector)}; e.focus(); e.select(); })()`);
        await this.send("Input.insertText", { text });
    }

    async choose(selector, text) {
        const done = await this.run(`(() => { const e = ${find(selector)}, o = [...e.options].find(o => o.text === ${JSON.stringify(text)}); if (!o) return false; e.focus(); e.value = o.value; e.dispatchEvent(new Event("change", { bubbles: true })); return true; })()`);
        if (!done) throw new Error(`no choice ${text} in ${selector}`);
    }

    file(name, bytes) {
        const file = path.join(this.folder, name);
        fs.writeFileSync(file, bytes);
        return file;
    }

    async chooseFile(selector, ...files) {
        const { result } = await this.send("Runtime.evaluate", { expression: find(selector) });
        await this.send("DOM.setFileInputFiles", { files, objectId: result.objectId });
    }

    async drop(selector, ...files) {
        const { x, y } = await this.middle(selector);
        const data = { items: [], files, dragOperationsMask: 1 };
        for (const type of ["dragEnter", "dragOver", "drop"]) await this.send("Input.dispatchDragEvent", { type, x, y, data });
    }

    // a file that the page saves; its bytes
    async saved(action) {
        await action();
        for (const end = Date.now() + PATIENCE; Date.now() < end; ) {
            const name = fs.readdirSync(this.downloads).find(n => !n.endsWith(".crdownload") && !n.startsWith("."));
            const bytes = name ? fs.readFileSync(path.join(this.downloads, name)) : Buffer.alloc(0);
            if (bytes.length > 0) {
                fs.unlinkSync(path.join(this.downloads, name));
                return { name, bytes };
            }
            await new Promise(done => setTimeout(done, 20));
        }
        throw new Error("nothing was saved");
    }

    // what is pasted where the focus is
    async paste(text) {
        await this.run(`(() => { const data = new DataTransfer(); data.setData("text/plain", ${JSON.stringify(text)}); (document.activeElement ?? document.body).dispatchEvent(new ClipboardEvent("paste", { clipboardData: data, bubbles: true, cancelable: true })); })()`);
    }

    // the page as it is printed: how many sheets of paper it takes
    async printed() {
        const { data } = await this.send("Page.printToPDF", { paperWidth: 8.27, paperHeight: 11.69, preferCSSPageSize: true });
        return Buffer.from(data, "base64").toString("latin1").match(/\/Type\s*\/Page\b/g).length;
    }

    // all of the page, or a part of it
    async picture(file, clip) {
        const { data } = await this.send("Page.captureScreenshot", { format: "png", captureBeyondViewport: true, clip });
        fs.writeFileSync(file, Buffer.from(data, "base64"));
    }

    async close() {
        this.send("Browser.close").catch(() => {});
        const kill = setTimeout(() => this.child.kill("SIGKILL"), 30000);
        await this.ended;
        clearTimeout(kill);
        for (const pipe of this.child.stdio) if (pipe) pipe.destroy();
        // processes of the browser may still write there for a moment
        fs.rmSync(this.folder, { recursive: true, force: true, maxRetries: 20, retryDelay: 200 });
    }
}

// an element in the part that is seen: by a selector, or by the text of a button or the label of a field as "=Send"
function find(selector) {
    if (!selector.startsWith("=")) return `document.querySelector(${JSON.stringify(selector)})`;
    const text = JSON.stringify(selector.slice(1));
    return `(() => { const seen = e => e.offsetParent !== null && e.getClientRects().length > 0;
        for (const e of document.querySelectorAll("button, summary")) if (seen(e) && (e.getAttribute("aria-label") || e.textContent) === ${text}) return e;
        for (const e of document.querySelectorAll("label")) if (seen(e) && e.textContent === ${text}) return document.getElementById(e.htmlFor);
        return null; })()`;
}

module.exports = { Browser };
