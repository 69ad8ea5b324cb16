// What a person gives is put where it belongs: the page finds out what each file is, says so, and leaves what was there if it can't be taken.

/** @typedef {{ text: string, bad: boolean }} News a line on what became of a file */

const SHEET_KINDS = ["sheet", "old sheet", "bad sheet"], RECORDING_KINDS = ["hex", "ets", "knxtool", "trace text"], SIDE_KINDS = ["times", "evidence"];
/** Files by which people take other things along: how they begin, and what they are. @type {[string, string][]} */
const SEEMS = [["89504e47", "a picture"], ["ffd8ff", "a picture"], ["47494638", "a picture"], ["25504446", "a document (PDF)"], ["d0cf11e0", "a document of an office program"], ["0a0d0d0a", "a capture of packets"], ["d4c3b2a1", "a capture of packets"], ["53514c69", "a database"]];
const STAYS = "it was not taken, and what was there stays";

// The kind of place that a file is for; none of what no place takes.
/** @param {WhatIs} what @returns {Wanted | "side" | null} */
function wantedFor(what) {
    // one that is old or breaks a rule is shown for that; of a text that says no sheet there are no bytes to show
    if (SHEET_KINDS.includes(what.kind) && number(what.bytes, 4, 2) === what.bytes.length) return "sheet";
    if (what.fault) return null;
    if (SIDE_KINDS.includes(what.kind)) return "side";
    if (RECORDING_KINDS.includes(what.kind) || what.kind === "trace") return "events";
    return what.kind === "store" ? "store" : null;
}

// What a file is. Digits alone may be those of a trace or a store too.
/** @param {Proved} proved @param {Named} file @returns {WhatIs} */
function whatItIs(proved, file) {
    const what = whatIs(proved, file.name, file.bytes);
    if (wantedFor(what) !== null || what.kind === "cut sheet") return what;
    const text = file.bytes.length <= 1 << 20 ? new TextDecoder().decode(file.bytes) : "";
    if (!/^[0-9a-fA-F\s]+$/.test(text) || text.replace(/\s/g, "").length % 2) return what;
    const digits = whatIs(proved, file.name, unhex(text));
    return wantedFor(digits) !== null || digits.kind === "cut sheet" ? digits : what;
}

// A fault of a file, without its name before it.
/** @param {WhatIs} what @param {Fault} error */
const faultOf = (what, { message }) => (message.startsWith(`${what.name}: `) ? message.slice(what.name.length + 2) : message);

// Why times or evidence are not of a trace; nothing if they are.
/** @param {Proved} proved @param {WhatIs} trace @param {WhatIs} side */
function sideFault(proved, trace, side) {
    try {
        readTrace(proved, trace, { [side.kind]: side });
        return "";
    } catch (error) {
        if (error instanceof Fault) return faultOf(side, error);
        throw error;
    }
}

// Why a file is not taken, in a line. Of what was pasted, or came where a trace is wanted, the nearer reason too.
/** @param {App} app @param {WhatIs} what @param {Place_ | null} place */
function notTaken(app, what, place) {
    /** @param {() => void} action */
    const reason = action => {
        try {
            action();
        } catch (error) {
            if (error instanceof Fault) return `; ${faultOf(what, error)}`;
            throw error;
        }
        return "";
    };
    const fault = what.fault && !what.words.includes(what.fault) ? `; ${faultOf(what, new Fault(what.fault))}` : "";
    const digits = what.name === "pasted" && what.kind === "text" ? reason(() => unhex(new TextDecoder().decode(what.bytes).slice(0, 4000))) : "";
    // a text most lines of which have a frame is a recording with a fault
    const frames = what.kind === "text" ? new TextDecoder().decode(what.bytes.subarray(0, 1 << 16)).split("\n").filter(line => /^[^#]*[0-9a-f]/i.test(line)) : [];
    const meant = frames.length > 0 && 2 * frames.filter(line => /\b(29|2e|11)[0-9a-f]{14}/i.test(line)).length > frames.length, made = meant ? makeTrace(app.proved, what, app.sheet, { form: "hex" }) : null;
    if (made?.refused) return `${what.name}: a recording in hex; ${faultOf(what, new Fault(made.refused))}: ${STAYS}`;
    const more = digits || (place?.wants === "events" && what.kind === "unknown" && what.bytes.length ? reason(() => readTrace(app.proved, what)) : "") || fault;
    const seems = what.kind === "unknown" ? SEEMS.find(([begin]) => hex(what.bytes.subarray(0, 4)).startsWith(begin)) : undefined;
    return seems ? `${what.name}: this seems to be ${seems[1]}, no sheet, store, trace or recording: ${STAYS}` : `${what.name}: ${what.words}${more}: ${STAYS}`;
}

class Taking {
    /** @param {App} app @param {Place_ | null} place where they came in, if it was a place for files */
    constructor(app, place) {
        this.app = app;
        this.place = place;
        /** @type {News[]} */
        this.news = [];
        this.part = "";
    }

    // All that came at once.
    /** @param {(Named | string)[]} files */
    take(files) {
        const known = files.flatMap(file => {
            if (typeof file !== "string") return [whatItIs(this.app.proved, file)];
            this.refuse(file);
            return [];
        });
        /** @param {Wanted | "side" | null} wanted */
        const of = wanted => known.filter(what => wantedFor(what) === wanted);
        for (const what of of(null)) this.refuse(notTaken(this.app, what, this.place));
        const events = of("events"), sides = of("side"), sheets = of("sheet");
        for (const what of of("store")) this.put(what, this.app.devicePart.store);
        if (events.length || this.inTrace()) this.forTrace(sheets, events, sides);
        else {
            this.sheets(sheets);
            if (sides.length) this.forTrace([], [], sides);
        }
        return this;
    }

    /** Whether a sheet that comes now is for the events: the part is open, and nothing else was meant. */
    inTrace() {
        return (this.place?.part ?? this.app.part) === "trace" && this.place?.wants !== "store";
    }

    /** @param {string} text */
    refuse(text) {
        this.news.push({ text, bad: true });
        this.place?.fault(text);
    }

    // A file into a place: the one where it came in, or another, which is then said.
    /** @param {WhatIs} what @param {Place_} place @param {string} [more] */
    put(what, place, more = "") {
        try {
            place.put(what);
            this.part = place.part;
            const where = `${what.name}: ${what.words}. It is ${place.as} of “${partTitle(place.part)}” now${more}.`;
            this.news.push({ text: where, bad: false });
            if (this.place && this.place !== place) this.place.fault(where);
            return true;
        } catch (error) {
            if (!(error instanceof Fault)) throw error;
            this.refuse(`${what.name}: ${what.words}; ${faultOf(what, error)}: ${STAYS}`);
            return false;
        }
    }

    // Sheets by themselves: one to be seen, two to be compared, or the one for the device.
    /** @param {WhatIs[]} sheets */
    sheets(sheets) {
        const { app, place } = this, here = place?.part ?? app.part;
        if (sheets.length > 2) {
            for (const what of sheets.slice(2)) this.refuse(`${what.name}: ${what.words}; two dumps can be compared here, more by kelindap-sheet survey: ${STAYS}`);
        }
        const [first, second] = sheets, two = app.twoPart.sources;
        if (!first) return;
        if (second) {
            const side = place && two.indexOf(place) === 1 ? 1 : 0;
            this.put(first, two[side]);
            this.put(second, two[1 - side]);
        } else if (place?.wants === "sheet") this.put(first, place);
        else if (here === "two") this.put(first, two[app.twoPart.given[0] && !app.twoPart.given[1] ? 1 : 0]);
        else this.put(first, here === "device" ? app.devicePart.source : app.sheetPart.source);
    }

    // Events, and the sheets on which they are played and to which they lead.
    /** @param {WhatIs[]} sheets @param {WhatIs[]} events @param {WhatIs[]} sides */
    forTrace(sheets, events, sides) {
        const { app, place } = this, { tracePart } = app, { sheetSource, dumpSource, traceSource } = tracePart;
        for (const what of sheets.slice(2)) this.refuse(`${what.name}: ${what.words}; events lie between two dumps, and there are more: ${STAYS}`);
        let [first, second] = sheets, more = "";
        [events, sides] = this.together(events, sides);
        if (first && second) {
            const { turned, why } = tracePart.order(first, second, events);
            if (turned) [first, second] = [second, first];
            more = why;
        }
        if (events.length) tracePart.hold(events, sides);
        if (second) {
            this.put(first, sheetSource, more);
            this.put(second, dumpSource);
        } else if (first) {
            const asked = place === sheetSource || place === dumpSource ? place : null;
            this.put(first, asked ?? (tracePart.known && !events.length ? dumpSource : sheetSource));
        } else if (events.length && !tracePart.known) this.fromElsewhere();
        if (events.length) {
            const [one, ...others] = events;
            this.put(one, traceSource, others.length ? `, and behind it ${others.map(what => what.name).join(", ")}` : "");
        } else if (sides.length) this.sides(sides);
    }

    // What can be explained at once: one recording, or traces with the side files that are of them.
    /** @param {WhatIs[]} events @param {WhatIs[]} sides @returns {[WhatIs[], WhatIs[]]} */
    together(events, sides) {
        const traces = events.filter(what => what.kind === "trace"), taken = traces.length ? traces : events.slice(0, 1);
        for (const what of events) if (!taken.includes(what)) this.refuse(`${what.name}: ${what.words}; one recording is explained at a time, or traces: ${STAYS}`);
        if (!taken.length) return [taken, sides];
        const fit = sides.filter(side => {
            const faults = traces.map(trace => sideFault(this.app.proved, trace, side)), why = traces.length ? faults.find(fault => fault !== "") ?? "" : "a recording has its own";
            if (why && !faults.includes("")) this.refuse(`${side.name}: ${side.words}; ${why}: ${STAYS}`);
            return faults.includes("");
        });
        return [taken, fit];
    }

    /** The sheets that a person gave in other parts, if there are any. */
    fromElsewhere() {
        const { app } = this, { tracePart, twoPart } = app;
        if (twoPart.given[0] && twoPart.given[1]) {
            tracePart.setSheet(twoPart.sheets[0].slice(), twoPart.names[0], true);
            tracePart.setDump(twoPart.sheets[1].slice(), twoPart.names[1]);
            this.news.push({ text: `${twoPart.names[0]} and ${twoPart.names[1]} are taken as the dumps before and after.`, bad: false });
        } else if (app.sheetGiven) {
            tracePart.setSheet(app.sheet.slice(), app.sheetGiven, true);
            this.news.push({ text: `${app.sheetGiven} is taken as the dump at the start.`, bad: false });
        }
    }

    // Times and evidence of a trace that is there already.
    /** @param {WhatIs[]} sides */
    sides(sides) {
        const { tracePart } = this.app;
        for (const what of sides) {
            try {
                tracePart.takeSide(what);
                this.part = "trace";
                this.news.push({ text: `${what.name}: ${what.words}. The events have what it says now.`, bad: false });
            } catch (error) {
                if (!(error instanceof Fault)) throw error;
                this.refuse(`${what.name}: ${what.words}; ${faultOf(what, error)}: ${STAYS}`);
            }
        }
    }
}
