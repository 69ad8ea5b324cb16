// The page: six parts, of which one is seen; what they share.

/** @typedef {{ show?: () => void, set?: Function }} Part */

class App {
    /** @param {Proved} proved */
    constructor(proved) {
        this.proved = proved;
        this.keys = false;
        this.sheet = unhex(MADE.sheets[0][1]);
        this.sheetName = "sheet.bin";
        /** What a person called the sheet of the first part; nothing if nobody gave it. */
        this.sheetGiven = "";
        this.part = "start";
        this.device = new Device(proved, this.sheet);
        this.sheetPart = new SheetPart(this, byId("sheet"));
        this.twoPart = new TwoPart(this, byId("two"));
        this.devicePart = new DevicePart(this, byId("device"));
        this.tracePart = new TracePart(this, byId("trace"));
        this.demoPart = new DemoPart(this, byId("demo"));
        this.startPart = new StartPart(this, byId("start"));
        this.tabs();
        anywhere(this);
        byId("version").textContent = proved.version();
        const keys = /** @type {HTMLInputElement} */ (byId("keys"));
        keys.addEventListener("change", () => { this.keys = keys.checked; this.showAll(); });
        wide.addEventListener("change", () => this.showAll());
        this.showAll();
    }

    /** @returns {[string, () => Uint8Array][]} */
    samples() {
        return MADE.sheets.map(([name, digits]) => [name, () => unhex(digits)]);
    }

    showAll() {
        this.sheetPart.show();
        this.twoPart.show();
        this.devicePart.show();
        this.tracePart.show();
        this.demoPart.show();
        this.startPart.show();
    }

    // Files of a person, from a place for them or from anywhere on the page.
    /** @param {Iterable<File>} files @param {Place_ | null} place */
    async takeFiles(files, place) {
        this.take(await filesRead(files), place);
    }

    // Whether all of it was taken.
    /** @param {(Named | string)[]} files @param {Place_ | null} place */
    take(files, place) {
        const { news, part } = new Taking(this, place).take(files);
        byId("news").replaceChildren(...news.map(({ text, bad }) => el("p", { class: bad ? "bad" : "" }, text)));
        if (!place && part === "trace") this.tracePart.fold();
        if (!place && part === "two") this.twoPart.fold();
        if (part && part !== this.part) this.open(part);
        if (part && !place) scrollTo(0, 0);
        return !news.some(({ bad }) => bad);
    }

    /** The accident in all parts that can show it. */
    accident() {
        const { before, after } = accidentFiles(this.proved), { tracePart } = this;
        this.setSheet(before.bytes, before.name);
        for (const [side, file] of [before, after].entries()) this.twoPart.sources[side].put(file);
        tracePart.traceSource.put(tracePart.accident());
        tracePart.fold();
        this.twoPart.fold();
    }

    /** @param {Uint8Array} bytes @param {string} name @param {boolean} [given] by a person */
    setSheet(bytes, name, given = false) {
        this.sheetGiven = given ? name : "";
        this.sheet = bytes.slice();
        this.sheetName = /\.\w+$/.test(name) ? name.replace(/\.\w+$/, ".bin") : "sheet.bin";
        this.sheetPart.source.tell(name, bytes);
        this.sheetPart.show();
    }

    /** @param {Uint8Array} sheet @param {string} name */
    putOnDevice(sheet, name) {
        const { store } = this.device;
        this.device = new Device(this.proved, sheet);
        this.device.store = store;
        this.devicePart.source.tell(name, sheet);
        this.devicePart.show();
        this.open("device");
    }

    /** @param {number} side @param {Uint8Array} sheet @param {string} name */
    compare(side, sheet, name) {
        this.twoPart.set(side, sheet, name);
        this.twoPart.sources[side].tell(name, sheet);
        this.open("two");
    }

    /** What happened to the device, as a trace; none if nothing did. */
    record() {
        const events = this.device.log.flatMap(({ event }) => (event ? [event] : []));
        if (this.device.log.some(({ event, before }, i) => !event && !same(before, this.device.log[i + 1]?.before ?? this.device.sheet)))
            throw new Fault("a version was restored, which a trace can't say");
        if (events.length > MOST_EVENTS) throw new Fault(`${counted(events.length, "event")} happened, and a trace has at most ${MOST_EVENTS}`);
        return events.length ? traceOf(events) : null;
    }

    recorded() {
        try {
            this.tracePart.set(this.device.first, "the device's sheet as it began", this.record() ?? new Uint8Array(2), "what happened to the device");
            this.open("trace");
        } catch (error) {
            if (!(error instanceof Fault)) throw error;
            this.devicePart.hint.textContent = error.message;
        }
    }

    /** The tabs: arrow keys go from one to the next, as in every list of tabs. */
    tabs() {
        const tabs = /** @type {HTMLElement[]} */ ([...document.querySelectorAll("[role=tab]")]);
        for (const [i, tab] of tabs.entries()) {
            tab.addEventListener("click", () => this.open(/** @type {string} */ (tab.getAttribute("aria-controls"))));
            tab.addEventListener("keydown", event => {
                const to = /** @type {Record<string, number>} */ ({ ArrowLeft: i - 1, ArrowRight: i + 1, Home: 0, End: tabs.length - 1 })[event.key];
                if (to === undefined) return;
                event.preventDefault();
                const next = tabs[(to + tabs.length) % tabs.length];
                this.open(/** @type {string} */ (next.getAttribute("aria-controls")));
                next.focus();
            });
        }
        const named = () => (tabs.some(tab => tab.getAttribute("aria-controls") === location.hash.slice(1)) ? location.hash.slice(1) : "start");
        addEventListener("hashchange", () => this.open(named()));
        this.open(named());
    }

    // The part that is seen. What had the focus may stand in another, and then its tab gets it.
    /** @param {string} id */
    open(id) {
        this.part = id;
        for (const tab of document.querySelectorAll("[role=tab]")) {
            const chosen = tab.getAttribute("aria-controls") === id;
            tab.setAttribute("aria-selected", String(chosen));
            tab.setAttribute("tabindex", chosen ? "0" : "-1");
            byId(/** @type {string} */ (tab.getAttribute("aria-controls"))).hidden = !chosen;
        }
        if (document.activeElement?.closest("[role=tabpanel][hidden]")) byId(`tab-${id}`).focus();
    }
}

// What the tab of a part says.
/** @param {string} id */
const partTitle = id => byId(`tab-${id}`).textContent ?? "";

/** @type {App} */
let app;
Proved.start(MADE.wasm).then(proved => {
    app = new App(proved);
    document.documentElement.dataset.ready = "yes";
}).catch(error => {
    byId("failed").hidden = false;
    byId("failed").textContent = `The page could not be started: ${error.message}`;
    document.documentElement.dataset.ready = "no";
});
