// Bytes one by one, to be pointed at by mouse, finger or arrow keys.

class ByteGrid {
    /** @param {(p: number) => void} pointed */
    constructor(pointed) {
        this.pointed = pointed;
        this.at = 0;
        /** @type {HTMLElement[]} */
        this.cells = [];
        // what each cell shows, by text and class
        /** @type {string[]} */
        this.shown = [];
        this.length = 0;
        this.root = el("div", { class: "grid", tabindex: 0, role: "application", "aria-label": "Bytes of the sheet; arrow keys move from one to the next", onkeydown: (/** @type {KeyboardEvent} */ e) => this.key(e) });
        for (const kind of ["pointerover", "click"]) {
            this.root.addEventListener(kind, e => {
                const at = /** @type {HTMLElement} */ (e.target).dataset.p;
                if (at !== undefined) this.move(Number(at), false);
            });
        }
    }

    // A cell for each byte, made anew only if there is another number of them.
    /** @param {number} count */
    build(count) {
        this.length = count;
        this.row = rowLength();
        this.cells = [];
        const rows = [];
        for (let at = 0; at < count; at += this.row) {
            const cells = places(at, Math.min(this.row, count - at)).map(p => el("span", { "data-p": p }));
            this.cells.push(...cells);
            rows.push(el("div", { class: "row" }, el("span", { class: "at" }, String(at)), el("code", {}, ...cells)));
        }
        this.root.replaceChildren(inBlocks(rows, "bytes"));
        this.shown = [];
        this.at = 0;
    }

    /** @param {Uint8Array} sheet @param {(p: number) => string} kind @param {boolean} keys */
    show(sheet, kind, keys) {
        if (this.length !== sheet.length || this.row !== rowLength()) this.build(sheet.length);
        for (let p = 0; p < sheet.length; p++) {
            const text = byteShown(sheet, p, keys), name = kind(p), both = text + name;
            if (this.shown[p] === both) continue;
            this.shown[p] = both;
            this.cells[p].textContent = text;
            this.cells[p].className = name;
        }
        this.cells[this.at]?.classList.add("at");
    }

    /** @param {number} p @param {boolean} scroll */
    move(p, scroll) {
        if (p < 0 || p >= this.cells.length) return;
        this.cells[this.at].classList.remove("at");
        this.at = p;
        this.cells[p].classList.add("at");
        if (scroll) this.cells[p].scrollIntoView({ block: "nearest" });
        this.pointed(p);
    }

    /** @param {KeyboardEvent} e */
    key(e) {
        const step = /** @type {Record<string, number>} */ ({ ArrowLeft: -1, ArrowRight: 1, ArrowUp: -(this.row ?? 16), ArrowDown: this.row ?? 16 })[e.key];
        const to = e.key === "Home" ? 0 : e.key === "End" ? this.cells.length - 1 : step === undefined ? undefined : this.at + step;
        if (to === undefined) return;
        e.preventDefault();
        this.move(to, true);
    }
}
