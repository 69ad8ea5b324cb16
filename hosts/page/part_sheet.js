// Part 1: a sheet, by meaning; which rule it breaks, and where; converted; saved.

class SheetPart {
    /** @param {App} app @param {HTMLElement} root */
    constructor(app, root) {
        this.app = app;
        this.verdict = el("p", { class: "verdict", role: "status" });
        this.convert = button("Convert to edition 2", () => this.converted());
        this.save = button("Save as a file", () => saveFile(app.sheet, app.sheetName));
        this.view = el("div");
        this.bytes = el("details");
        this.source = source(app, "sheet", ["The sheet", "the sheet"], "sheet", (bytes, name, what) => app.setSheet(bytes, name, what !== undefined), [...app.samples(), ["an old one, of edition 1", () => Uint8Array.of(1, ...unhex(MADE.sheets[0][1]).slice(1))], ["the device's sheet", () => app.device.sheet.slice()]]);
        this.source.tell(MADE.sheets[0][0], app.sheet);
        root.append(
            el("h2", {}, "A sheet"), means("sheet", "dump"),
            this.source.box,
            this.verdict,
            el("div", { class: "actions" }, this.convert,
                this.save,
                button("Put it on the device", () => app.putOnDevice(app.sheet, "the sheet of the first part")),
                button("Compare it as the first", () => app.compare(0, app.sheet, "the sheet of the first part")),
                button("as the second", () => app.compare(1, app.sheet, "the sheet of the first part"), { "aria-label": "Compare it as the second" })),
            this.view);
    }

    converted() {
        const sheet = this.app.sheet.slice(), outcome = this.app.proved.convert(sheet);
        this.app.setSheet(sheet, this.app.sheetName);
        this.save.focus(); // the button that was pressed is gone
        this.verdict.append(` · converted: ${outcomeText(outcome)}`);
    }

    show() {
        const { proved, sheet, keys } = this.app, verdict = verdictOf(proved, sheet), marks = new Set(verdict.marks);
        const good = verdict.rule === 0, old = verdict.rule === OLD;
        this.verdict.className = `verdict ${good ? "good" : "bad"}`;
        this.verdict.textContent = good ? `Accepted: ${counted(sheet.length, "byte")} that keep all rules.` : old ? "Old: a sheet of edition 1, which is retired and keeps its rules (14). Convert it." : `Not accepted: it ${verdict.text}.`;
        this.convert.hidden = !old;
        const look = { keys, marked: (/** @type {number} */ p) => marks.has(p), broken: verdict.entry };
        // open where something is marked, and if it was for the same sheet
        const open = (!good && !old) || (this.seen === sheet && this.bytes.open), bytes = this.bytes = el("details", { open }, el("summary", {}, "Bytes"));
        this.seen = sheet;
        const fill = () => bytes.childElementCount === 1 && bytes.append(sheet.length ? byteRows(sheet, look.marked, keys) : el("p", {}, "none"));
        if (bytes.open) fill();
        bytes.addEventListener("toggle", fill);
        const readable = sheet.length >= HEAD && sheet.length <= LONGEST;
        this.view.replaceChildren(...(readable ? [sheetView(proved, sheet, look)] : []), bytes);
    }
}
