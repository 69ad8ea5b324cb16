// Part 2: two sheets side by side: what differs by meaning, and byte by byte.

class TwoPart {
    /** @param {App} app @param {HTMLElement} root */
    constructor(app, root) {
        this.app = app;
        /** @type {Uint8Array[]} */
        this.sheets = [app.sheet.slice(), app.sheet.slice()];
        this.names = [MADE.sheets[0][0], MADE.sheets[0][0]];
        /** Which of them a person gave. */
        this.given = [false, false];
        this.only = el("input", { type: "checkbox", autocomplete: "off", onchange: () => this.show() });
        this.view = el("div");
        const others = /** @type {[string, () => Uint8Array | null][]} */ ([...app.samples(), ["the sheet of the first part", () => app.sheet.slice()], ["the device's sheet", () => app.device.sheet.slice()]]);
        this.sources = ["first", "second"].map((name, side) => source(app, "two", [`The ${name}`, `the ${name}`], "sheet", (bytes, name, what) => { this.set(side, bytes, name); this.given[side] = what !== undefined; }, others));
        for (const place of this.sources) place.tell(MADE.sheets[0][0], app.sheet);
        root.append(
            el("h2", {}, "Two sheets side by side"), means("two", "dump"),
            this.boxes = el("details", { class: "given", open: true }, this.files = el("summary"), el("div", { class: "pair" }, ...this.sources.map(place => place.box))),
            this.view,
            el("h3", {}, "Byte by byte"),
            labelled("Only rows that differ", this.only, "check"),
            this.rows = el("div"));
    }

    /** @param {number} side @param {Uint8Array} sheet @param {string} [name] */
    set(side, sheet, name = "") {
        this.sheets[side] = sheet.slice();
        this.names[side] = name;
        this.given[side] = false;
        this.sources[side].tell(this.names[side], sheet);
        this.show();
    }

    // What was given anywhere on the page is compared at once, and the places for files make room for it.
    fold() {
        if (this.given[0] && this.given[1]) this.boxes.open = false;
    }

    show() {
        this.files.textContent = `The files: ${this.names.join(", ")}`;
        const [a, b] = this.sheets, verdicts = this.sheets.map(sheet => verdictOf(this.app.proved, sheet));
        // by meaning, if both are accepted, or old
        const known = verdicts.every(v => v.rule === 0 || v.rule === OLD), lines = known ? differences(a, b) : [];
        const bytes = places(0, Math.max(a.length, b.length)).filter(p => a[p] !== b[p]).length;
        const told = lines.length ? el("details", { open: true }, el("summary", {}, "By meaning"), el("ul", { class: "lines" }, ...lines.map(line => el("li", {}, line)))) : null;
        this.view.replaceChildren(
            ...verdicts.map((v, i) => (v.rule ? el("p", { class: "verdict bad" }, `The ${i ? "second" : "first"} ${v.rule === OLD ? "is " : ""}${v.text}.`) : null)).filter(Boolean).map(node => /** @type {Node} */ (node)),
            el("p", { class: "verdict", role: "status" }, bytes === 0 ? "Nothing differs." : `${counted(bytes, "byte")} differ${bytes === 1 ? "s" : ""}${known ? "." : "; by meaning only accepted sheets can be compared."}`),
            ...(told ? [told] : []));
        this.rows.replaceChildren(this.sideBySide(a, b));
    }

    /** @param {Uint8Array} a @param {Uint8Array} b */
    sideBySide(a, b) {
        const length = rowLength(), rows = [], { keys } = this.app;
        for (let at = 0; at < Math.max(a.length, b.length); at += length) {
            const here = places(at, length), differs = here.some(p => a[p] !== b[p]);
            if (this.only.checked && !differs) continue;
            /** @param {Uint8Array} s */
            const side = s => el("code", {}, ...flow(here.map(p => ({ text: byteShown(s, p, keys), marked: a[p] !== b[p] })), " "));
            rows.push(el("div", { class: "row" }, el("span", { class: "at" }, String(at)), side(a), side(b)));
        }
        return inBlocks(rows, "bytes two");
    }
}
