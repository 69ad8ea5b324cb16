// A trace (docs/TRACE.md): its events in words, a recording as a trace, and playing one. The module judges it and plays it.

/** @typedef {{ outcome: number, answer: Uint8Array }} Step */
/** @typedef {{ sheet: Uint8Array, sessions: Uint8Array, marks: Uint32Array }} Moment */

// The events of a trace that can be played.
/** @param {Uint8Array} trace @returns {Happening[]} */
function eventsOf(trace) {
    return Array.from({ length: number(trace, 0, 2) }, (_, i) => {
        const at = 2 + 8 * i, offset = number(trace, at + 4, 2);
        return { kind: trace[at], mode: trace[at + 1] & 15, connection: trace[at + 1] >> 4, group: number(trace, at + 2, 2),
            apdu: trace.slice(offset, offset + trace[at + 6]) };
    });
}

// The trace of events; whether it can be played is the module's to say.
/** @param {Happening[]} events */
function traceOf(events) {
    const table = [events.length >> 8, events.length & 255], apdus = [];
    const start = 2 + 8 * events.length;
    for (const e of events) {
        const offset = start + apdus.length;
        table.push(e.kind, ((e.connection & 15) << 4) | (e.mode & 15), e.group >> 8, e.group & 255, offset >> 8, offset & 255, e.apdu.length, 0);
        apdus.push(...e.apdu);
    }
    return Uint8Array.from([...table, ...apdus]);
}

/** @param {Proved} proved @param {Happening} e @param {boolean} keys */
function eventText(proved, e, keys) {
    if (e.kind === REQUEST) return `${apduText(proved, e.apdu, keys)}, ${wayText(e.mode, e.connection, e.group)}`;
    if (e.kind === CONNECT || e.kind === DISCONNECT) return `${e.kind === CONNECT ? "connect" : "disconnect"} ${e.connection}`;
    return `button ${switchText(e.kind === BUTTON_ON)}`;
}

/** Traces played on a sheet from fresh sessions, one after the other. */
class Playing {
    /** @param {Proved} proved @param {Uint8Array} sheet @param {Uint8Array[]} traces */
    constructor(proved, sheet, traces) {
        this.proved = proved;
        this.sheet = sheet;
        this.traces = traces;
        this.refusal = traces.map(trace => proved.traceCheck(trace)).find(refusal => refusal !== 0) ?? 0;
        this.events = this.refusal ? [] : traces.flatMap(eventsOf);
        /** @type {Step[]} */
        this.steps = [];
        // how it was before each trace
        /** @type {Moment[]} */
        this.between = [];
        if (!this.refusal) this.walk();
    }

    /** All events, trace by trace, for what each gave. */
    walk() {
        const moment = this.start();
        for (const trace of this.traces) {
            this.between.push(copied(moment));
            const count = number(trace, 0, 2), log = new Uint8Array(LOG_LINE * Math.max(count, 1));
            if (count > 0) this.proved.playMarked(moment.sessions, moment.sheet, trace, 0, count, log, moment.marks, this.steps.length);
            for (const i of places(0, count)) this.steps.push({ outcome: log[LOG_LINE * i], answer: log.slice(LOG_LINE * i + 2, LOG_LINE * i + 2 + log[LOG_LINE * i + 1]) });
        }
    }

    // The level at which event n acted: that of its connection just before, and the event that gave this level.
    /** @param {number} n */
    rights(n) {
        const e = this.events[n - 1], { sessions, marks } = this.after(n - 1), on = e.kind === REQUEST && e.mode === CONNECTED && e.connection < CONNECTIONS;
        return { level: on ? sessions[2 * e.connection + 1] : 3, offer: on ? marks[this.sheet.length + e.connection] : 0 };
    }

    /** @returns {Moment} */
    start() {
        return { sheet: this.sheet.slice(), sessions: this.proved.fresh(), marks: new Uint32Array(this.sheet.length + CONNECTIONS) };
    }

    // Sheet, sessions and marks when so many events were played.
    /** @param {number} count @returns {Moment} */
    after(count) {
        let t = 0, already = 0;
        count = Math.min(count, this.events.length);
        while (t + 1 < this.traces.length && already + number(this.traces[t], 0, 2) < count) already += number(this.traces[t++], 0, 2);
        const moment = this.between[t] ? copied(this.between[t]) : this.start(), some = count - already, log = new Uint8Array(LOG_LINE * Math.max(some, 1));
        if (some > 0) this.proved.playMarked(moment.sessions, moment.sheet, this.traces[t], 0, some, log, moment.marks, already);
        return moment;
    }

    // Who changed a byte last: the account of it.
    /** @param {Moment} moment @param {number} p */
    account(moment, p) {
        const n = moment.marks[p];
        if (n === 0) return "no event has changed it";
        const { level, offer } = this.rights(n), e = this.events[n - 1];
        if (e.kind !== REQUEST) return `event ${n} changed it: the button`;
        const right = isLocation(p, this.sheet) ? `, at level ${level}${level < 3 ? (offer ? `, whose key event ${offer} offered` : ", which it had from the start") : ""}` : "";
        return `event ${n} changed it, ${wayText(e.mode, e.connection, e.group)}${right}`;
    }
}

/** @param {Moment} moment @returns {Moment} */
const copied = ({ sheet, sessions, marks }) => ({ sheet: sheet.slice(), sessions: sessions.slice(), marks: marks.slice() });

// Whether a level must permit the writing of byte p: of memory, properties and keys it must; address, flags and group values have none.
/** @param {number} p @param {Uint8Array} s */
function isLocation(p, s) {
    if (p < HEAD) return p >= KEYS && p < KEYS + 3 * KEY;
    return !entriesOf(s).groups.some(g => p >= g.body && p < g.body + g.length);
}
