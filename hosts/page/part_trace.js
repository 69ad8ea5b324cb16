// What happened: a recording or a trace between two dumps. What it changed and what it does not explain, by meaning; then event by event,
// forward and back, and who changed each byte.

class TracePart {
    /** @param {App} app @param {HTMLElement} root */
    constructor(app, root) {
        this.app = app;
        this.sheet = app.sheet.slice();
        this.sheetName = MADE.sheets[0][0];
        /** Whether the sheet at the start was given, and not only stands there. */
        this.known = false;
        /** @type {Uint8Array | null} */
        this.dump = null;
        this.dumpName = "";
        // what the events are made of, and the side files that came along
        /** @type {WhatIs[]} */
        this.files = [];
        /** @type {WhatIs[]} */
        this.sides = [];
        this.reverse = false;
        /** @type {MadeTrace | null} */
        this.made = null;
        /** @type {Trace[]} */
        this.traces = [];
        /** The first trace's bytes, one that is refused too. @type {Uint8Array | null} */
        this.trace = null;
        /** @type {Explanation | null} */
        this.told = null;
        this.at = 0;
        this.opened = new Set();
        this.grid = new ByteGrid(p => this.pointed(p));
        this.verdict = el("p", { class: "verdict", role: "status" });
        this.turn = button("Take it in reverse", () => this.turned());
        this.turn.hidden = true;
        this.convert = button("Convert the dump to edition 2", () => this.converted());
        this.making = el("details", { class: "making" });
        this.event = el("input", { type: "number", min: 0, value: 0, autocomplete: "off" });
        this.event.addEventListener("change", () => this.go(Number(this.event.value)));
        this.list = el("ol", { class: "events", role: "listbox", tabindex: 0, "aria-label": "Events", onkeydown: (/** @type {KeyboardEvent} */ e) => this.key(e) });
        this.list.addEventListener("click", e => {
            const row = /** @type {HTMLElement} */ (e.target).closest("li");
            if (row) this.go(Number(row.dataset.n));
        });
        new IntersectionObserver(seen => seen.some(entry => entry.isIntersecting) && this.reveal()).observe(this.list);
        this.account = el("p", { class: "account", role: "status" });
        this.state = el("p", { class: "state" });
        this.changes = el("ul", { class: "lines" });
        this.explanation = el("section", { class: "card explanation", "aria-label": "The explanation", hidden: true });
        this.meaning = el("details", {}, el("summary", {}, "The sheet by meaning"));
        this.meaning.addEventListener("toggle", () => this.showMeaning());
        this.body = el("div", { hidden: true, class: "played" },
            el("h3", {}, "Event by event"),
            el("div", { class: "actions steps" }, button("First", () => this.go(0)), button("Back", () => this.go(this.at - 1)), button("Next", () => this.go(this.at + 1), { class: "main" }),
                button("Last", () => this.go(this.playing.events.length)), labelled("After event", this.event)),
            el("div", { class: "columns" },
                el("section", { class: "card" }, el("h3", {}, "Events"), this.list),
                el("section", { class: "card" }, el("h3", {}, "The sheet after it"), this.state, this.changes, this.account, this.grid.root, this.meaning)));
        this.playing = new Playing(app.proved, this.sheet, []);
        this.sheetSource = source(app, "trace", ["The dump at the start", "the dump at the start"], "sheet", (bytes, name) => this.setSheet(bytes, name, true), [...app.samples(), ["the sheet of the first part", () => app.sheet.slice()]]);
        this.traceSource = source(app, "trace", ["The recording, or a trace", "the recording"], "events", (bytes, name, what) => this.takeEvents(what ?? whatIs(app.proved, name, bytes)),
            [["the accident, with its dumps", () => this.accident()], ["what happened to the device", () => this.recorded()]]);
        this.dumpSource = source(app, "trace", ["A dump afterwards, if there is one", "the dump afterwards"], "sheet", (bytes, name) => this.setDump(bytes, name), [["the device's sheet", () => app.device.sheet.slice()]]);
        this.sheetSource.box.append(means("dump"));
        this.traceSource.box.append(means("recording"));
        this.given = el("summary", {});
        this.boxes = el("details", { class: "given", open: true }, this.given, el("div", { class: "three" }, this.sheetSource.box, this.traceSource.box, this.dumpSource.box));
        root.append(el("h2", {}, "What happened"), means("trace"), this.boxes,
            this.verdict, this.turn, this.convert, this.making, this.explanation, this.body);
    }

    // ---- what is given ----

    /** @param {Uint8Array} sheet @param {string} name @param {boolean} known */
    setSheet(sheet, name, known) {
        this.sheet = sheet.slice();
        this.sheetName = name;
        this.known = known;
        this.sheetSource.tell(name, sheet);
        this.load();
    }

    /** @param {Uint8Array | null} dump @param {string} name */
    setDump(dump, name) {
        const was = [this.dump, this.dumpName];
        try {
            [this.dump, this.dumpName] = [dump ? dump.slice() : null, name];
            this.explain();
        } catch (error) {
            [this.dump, this.dumpName] = /** @type {[Uint8Array | null, string]} */ (was);
            this.explain();
            throw error;
        }
        if (dump) this.dumpSource.tell(name, dump);
    }

    // Files that come at once: side files belong to the traces among them.
    /** @param {WhatIs[]} events @param {WhatIs[]} sides */
    hold(events, sides) {
        this.coming = { events, sides };
    }

    // A recording, or a trace and those behind it. What can't be taken leaves all as it is.
    /** @param {WhatIs} what */
    takeEvents(what) {
        const { events, sides } = this.coming ?? { events: [what], sides: [] }, traces = what.kind === "trace";
        this.coming = undefined;
        this.turn.hidden = true;
        const files = traces ? events.filter(other => other.kind === "trace").sort((a, b) => a.name.localeCompare(b.name, "en", { numeric: true })) : [what];
        const made = this.tried(files, sides, false);
        this.files = files;
        this.sides = sides;
        this.reverse = false;
        this.load(made);
    }

    /**
     * What is made of files: traces as they are, or those of a recording. A Fault says why there are none.
     * @param {WhatIs[]} files @param {WhatIs[]} sides @param {boolean} reverse @returns {{ traces: Trace[], made: MadeTrace | null }}
     */
    tried(files, sides, reverse, sheet = this.known ? this.sheet : null) {
        const { proved } = this.app, [first] = files;
        if (!first) return { traces: [], made: null };
        if (first.kind === "trace") {
            /** @param {string} kind @param {WhatIs} file */
            const side = (kind, file) => sides.find(what => what.kind === kind && (files.length === 1 || what.name === `${file.name}.${kind}`));
            return { traces: files.map(file => readTrace(proved, file, { times: side("times", file), evidence: side("evidence", file) })), made: null };
        }
        // without a good sheet it waits for one
        if (first.kind !== "trace text" && (!sheet || proved.check(sheet) !== 0)) return { traces: [], made: null };
        const made = makeTrace(proved, first, sheet, { reverse });
        if (made.refused !== null) {
            if (made.reversible && !reverse) {
                this.back = first;
                this.turn.hidden = false;
            }
            throw new Fault(made.refused);
        }
        return { traces: made.traces, made };
    }

    /** The recording that has the newest frame first. */
    turned() {
        if (!this.back) return;
        const made = this.tried([this.back], [], true);
        this.files = [this.back];
        this.sides = [];
        this.reverse = true;
        this.turn.hidden = true;
        this.traceSource.tell(this.back.name, this.back.bytes, `${this.back.words}, taken in reverse`);
        this.load(made);
        this.traceSource.box.querySelector("input")?.focus(); // the button that was pressed is gone
    }

    /** An old dump, of edition 1: converted, it answers as it did before. */
    converted() {
        const sheet = this.sheet.slice();
        this.app.proved.convert(sheet);
        this.setSheet(sheet, this.sheetName, true);
        this.given.focus(); // the button that was pressed is gone
    }

    /** @param {WhatIs} what times or evidence */
    takeSide(what) {
        if (this.files[0]?.kind !== "trace") throw new Fault("there is no trace yet that it could be of");
        const sides = [...this.sides.filter(other => other.kind !== what.kind), what], made = this.tried(this.files, sides, false);
        this.sides = sides;
        this.load(made);
    }

    // Whether of two dumps the second is the earlier, and why: that from which the events lead nearer to the other, at fewer places; of
    // dumps of two layouts that to which more events are.
    /** @param {WhatIs} a @param {WhatIs} b @param {WhatIs[]} events */
    order(a, b, events) {
        /** @param {WhatIs} x @param {WhatIs} y */
        const led = (x, y) => {
            try {
                const { traces } = this.tried(events.length ? events : this.files, [], this.reverse, x.bytes), playing = new Playing(this.app.proved, x.bytes, traces.map(trace => trace.bytes));
                const last = playing.after(playing.events.length).sheet, good = this.app.proved.check(last) === 0 && this.app.proved.check(y.bytes) === 0;
                return { count: playing.events.length, apart: good && last.length === y.bytes.length ? differences(last, y.bytes).length : Infinity };
            } catch (error) {
                if (error instanceof Fault) return { count: 0, apart: Infinity };
                throw error;
            }
        };
        const [there, back] = [led(a, b), led(b, a)];
        if (there.apart !== back.apart) return { turned: back.apart < there.apart, why: ": from it the events lead nearer to the other than back" };
        if (there.count !== back.count) return { turned: back.count > there.count, why: ": more of the recording is for it than for the other" };
        return { turned: false, why: ", since it came first: which is the earlier the events don't show, and they can be exchanged below" };
    }

    // What was given anywhere on the page is explained at once, and the places for files make room for it.
    fold() {
        if (this.told) this.boxes.open = false;
    }

    exchange() {
        const { sheet, sheetName, dump, dumpName } = this;
        if (!dump) return;
        this.dump = null;
        this.setSheet(dump, dumpName, true);
        this.setDump(sheet, sheetName);
        this.show();
    }

    /** The accident: both dumps and the recording between them. */
    accident() {
        const { before, after, recording } = accidentFiles(this.app.proved);
        this.setSheet(before.bytes, before.name, true);
        this.setDump(after.bytes, after.name);
        return recording;
    }

    /** What happened to the device began on its own sheet. */
    recorded() {
        const trace = this.app.record();
        if (trace) this.setSheet(this.app.device.first.slice(), "the device's sheet as it began", true);
        return trace;
    }

    /** @param {Uint8Array} sheet @param {string} sheetName @param {Uint8Array} trace @param {string} traceName */
    set(sheet, sheetName, trace, traceName) {
        this.sheet = sheet.slice();
        this.sheetName = sheetName;
        this.known = true;
        this.sheetSource.tell(sheetName, sheet);
        this.files = [{ name: traceName, kind: "trace", words: "a trace", fault: null, bytes: trace.slice() }];
        this.sides = [];
        this.traceSource.tell(traceName, trace);
        this.load();
    }

    /** Another sheet or other events, from their start; what was made of the events may be there already. */
    load(/** @type {{ traces: Trace[], made: MadeTrace | null } | undefined} */ ready = undefined) {
        this.at = 0;
        this.fault = "";
        try {
            ({ traces: this.traces, made: this.made } = ready ?? this.tried(this.files, this.sides, this.reverse));
        } catch (error) {
            if (!(error instanceof Fault)) throw error;
            [this.traces, this.made, this.fault] = [[], null, error.message];
        }
        const asked = this.files[0]?.kind === "trace" ? this.files.map(file => file.bytes) : this.traces.map(trace => trace.bytes);
        this.trace = asked[0] ?? null;
        this.playing = new Playing(this.app.proved, this.sheet, asked);
        this.opened.clear();
        this.explain(false);
        this.show();
    }

    // ---- what is seen ----

    show() {
        const { rule, text } = verdictOf(this.app.proved, this.sheet), { refusal, events } = this.playing, [file] = this.files;
        const waits = file && file.kind !== "trace text" && (!this.known || (rule !== 0 && file.kind !== "trace"));
        this.body.hidden = !this.trace || refusal !== 0 || Boolean(waits);
        this.verdict.className = `verdict ${this.fault || (this.trace && refusal) || (file && rule) || waits ? "bad" : "good"}`;
        const sheet = rule ? `The sheet: ${text}; no request on it does anything.` : "";
        const wanted = this.known ? `${this.sheetName} as the dump at the start can't be used: ${text}.` : "Now the dump of the device as it was at its start: without it nobody knows which of this was for the device, and what it changed.";
        this.convert.hidden = !(this.known && file && rule === OLD);
        this.verdict.textContent = waits ? `${file.name} is there. ${wanted}`
            : this.trace && refusal ? `The trace is refused: ${outcomeText(refusal)}.` : this.fault ? `${file?.name}: ${this.fault}` : !file ? "" : `${counted(events.length, "event")}. ${sheet}`.trim();
        this.given.textContent = `The files${[this.known && this.sheetName, ...this.files.map(of => of.name), this.dump && this.dumpName].filter(Boolean).map((name, i) => `${i ? ", " : ": "}${name}`).join("")}`;
        const said = this.made?.said ?? [];
        this.making.hidden = said.length === 0;
        this.making.replaceChildren(el("summary", {}, "What was made of the recording"), el("pre", {}, said.join("\n")),
            el("div", { class: "actions" }, ...(this.made?.files ?? []).map(({ name, bytes }) => button(`Save ${name}`, () => saveFile(bytes, name)))));
        if (!this.body.hidden) {
            this.event.max = String(events.length);
            this.fill();
            this.go(this.at);
        }
        this.showExplanation();
    }

    /** The list of events, in words. */
    fill() {
        const { playing, told } = this, { proved, keys } = this.app, base = newId();
        this.rows = playing.events.map((e, i) => {
            const { outcome, answer } = playing.steps[i], known = told?.events[i];
            return el("li", { role: "option", id: `${base}-${i + 1}`, "data-n": i + 1, value: i + 1, "aria-selected": "false" },
                el("div", { class: "sent" }, eventText(proved, e, keys) + decimalsBeside(proved, e.apdu)),
                known && (known.time || known.from) ? el("div", { class: "said" }, [known.time && `at ${known.time}`, known.from && `from ${known.from}`].filter(Boolean).join(", ")) : "",
                el("div", { class: `outcome ${outcome <= 1 ? "good" : "bad"}` }, outcomeText(outcome), answer.length > 0 && `: ${apduText(proved, answer)}${decimalsBeside(proved, answer)}`));
        });
        this.list.replaceChildren(...this.rows);
    }

    /** @param {KeyboardEvent} e */
    key(e) {
        const to = /** @type {Record<string, number>} */ ({ ArrowDown: this.at + 1, ArrowUp: this.at - 1, PageDown: this.at + 10, PageUp: this.at - 10, Home: 0, End: this.playing.events.length })[e.key];
        if (to === undefined) return;
        e.preventDefault();
        this.go(to);
    }

    /** @param {number} n */
    go(n) {
        const { playing, rows = [] } = this;
        this.at = Math.max(0, Math.min(playing.events.length, Math.round(n) || 0));
        this.moment = playing.after(this.at);
        const before = playing.after(Math.max(0, this.at - 1)), { sheet, sessions, marks } = this.moment;
        this.event.value = String(this.at);
        for (const row of this.list.querySelectorAll("[aria-selected=true]")) row.setAttribute("aria-selected", "false");
        const row = rows[this.at - 1];
        if (row) {
            row.setAttribute("aria-selected", "true");
            this.list.setAttribute("aria-activedescendant", row.id);
        } else {
            this.list.removeAttribute("aria-activedescendant");
        }
        this.reveal();
        this.state.textContent = `${this.at === 0 ? "At the start" : `After event ${this.at}`}: connection 0 ${sessionText(sessions, 0)}, connection 1 ${sessionText(sessions, 1)}.`;
        this.changes.replaceChildren(...listed(differences(before.sheet, sheet), 20));
        this.grid.show(sheet, p => (this.at > 0 && marks[p] === this.at ? "now" : marks[p] ? "changed" : ""), this.app.keys);
        this.pointed(this.grid.at);
        this.showMeaning();
    }

    // To an event that was named elsewhere on the page.
    /** @param {number} n */
    lead(n) {
        this.go(n);
        this.list.scrollIntoView({ block: "center" });
        this.list.focus({ preventScroll: true });
    }

    /** What the event changed is marked there too; who touches a place sees what happened to it. */
    showMeaning() {
        while (this.meaning.childElementCount > 1) this.meaning.lastElementChild?.remove();
        if (!this.meaning.open || !this.moment) return;
        const { sheet, marks } = this.moment, { at, told } = this;
        const histories = told ? { told: (/** @type {number} */ from, /** @type {number} */ length) => this.histories(told, from, length), open: this.opened } : undefined;
        if (told) this.meaning.append(el("p", { class: "what" }, "Touch the name of a place to see what happened to it."));
        this.meaning.append(sheetView(this.app.proved, sheet, { keys: this.app.keys, marked: p => at > 0 && marks[p] === at, histories }));
    }

    // The histories of the places in a run of bytes, with the count if it is a property's; those to which something happened.
    /** @param {Explanation} told @param {number} from @param {number} length @returns {Node[]} */
    histories(told, from, length) {
        const others = new Map((told.final?.places ?? []).map(other => [other.at, other])), all = [];
        const property = entriesOf(this.sheet).properties.find(p => p.body === from && p.length === length);
        if (property) all.push(placeAt(told, property.at + 6));
        for (let p = from; p < from + length; ) {
            const place = placeAt(told, p);
            all.push(place);
            p = Math.max(p, place.at) + Math.max(1, place.length);
        }
        // a count is named by every write of its elements, and is no place of theirs
        const busy = all.filter((place, i) => place.steps.length || others.has(place.at) || (place.refused.length && !(property && i === 0)));
        return busy.length ? busy.map(place => placeHistory(place, others.get(place.at), told, this.ways())) : [el("p", {}, "No event has changed it, and none has asked for it in vain.")];
    }

    // The event of which the sheet is seen stands in the middle of the list. Rows have their height only once they come into sight,
    // so it is looked at again in the next pictures, and when the list itself comes into sight.
    reveal(again = 3) {
        const row = this.rows?.[this.at - 1];
        this.list.scrollTop = row ? row.offsetTop + (row.offsetHeight - this.list.clientHeight) / 2 : 0;
        if (again) requestAnimationFrame(() => this.reveal(again - 1));
    }

    /** @param {number} p */
    pointed(p) {
        if (!this.moment || p >= this.moment.sheet.length) return;
        this.account.textContent = `Byte ${p}, ${byteName(p, entriesOf(this.sheet))}: ${this.playing.account(this.moment, p)}.`;
    }

    /** @returns {Ways} */
    ways() {
        return { go: n => this.lead(n), several: this.traces.length > 1, beside: n => decimalsBeside(this.app.proved, this.playing.events[n - 1].apdu) };
    }

    // What the events say of the sheet, and of the dump if there is one.
    explain(show = true) {
        const { traces, dump, known } = this, { proved } = this.app, can = traces.length > 0 && known && !this.playing.refusal && proved.check(this.sheet) === 0;
        this.told = can ? explain(proved, { before: { name: this.sheetName, bytes: this.sheet }, traces, after: dump ? { name: this.dumpName, bytes: dump } : null }) : null;
        if (show) this.showExplanation();
    }

    showExplanation() {
        const { told } = this;
        this.explanation.hidden = !told;
        if (!told) return this.explanation.replaceChildren();
        this.explanation.replaceChildren(
            el("div", { class: "actions" }, button("Save the explanation", () => this.saveReport(), { class: "main" }), button("Print it", () => print()),
                this.dump && button("Exchange the two dumps", () => this.exchange())),
            el("div", { class: "printed" }, reportHead(this.rests(), this.app.proved.version())),
            happenedView(told, this.ways()), this.asTold(told));
    }

    /** @param {Explanation} told */
    asTold(told) {
        const box = el("details", {}, el("summary", {}, "As kelindap-trace explain says it"));
        box.addEventListener("toggle", () => { if (box.open && box.childElementCount === 1) box.append(el("pre", {}, told.lines.join("\n"))); });
        return box;
    }

    /** @returns {Part_[]} */
    rests() {
        return [{ what: "the dump at the start", name: this.sheetName, length: this.sheet.length }, ...this.files.map(file => ({ what: file.kind === "trace" ? "a trace" : "the recording", name: file.name, length: file.bytes.length })),
            ...(this.dump ? [{ what: "the dump afterwards", name: this.dumpName, length: this.dump.length }] : [])];
    }

    saveReport() {
        if (this.told) saveFile(report(this.told, this.rests(), this.ways(), this.app.proved.version()), "what-happened.html", "text/html");
    }
}
