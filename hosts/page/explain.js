// Who changed what, as facts (tools/trace/src/explain.rs): each byte that traces changed with the event that gave it, its level, the
// event that offered the key, and what of that the recording can't show; and what a later dump holds that no event gave. Events and
// bytes are told by the module's marks.

/** @typedef {{ trace: Trace, index: number, event: Happening, outcome: number, level: number, offer: number, connect: number }} EventFact what is known of an event once it was played */
/** @typedef {{ change: Change<number>, by: [number, number[]][], steps: PlaceStep[], again: number | null, doubts: Doubt[], left: Left[] }} Account a place that events changed; by: those that left its bytes as they are, the last first, each with these bytes; again: the last that wrote it and left it as it was */
/** @typedef {{ mark: number, origin: number | "first" | "never" }} Other a byte that a dump has otherwise: the event that changed it last, and where its value was before: by an event, at first, never */
/** @typedef {{ places: Change<Other>[] } | { layout: string[] } | { broken: string, bytes: [number, number, number][] }} Final a dump beside what the events give */

/** The kinds that write, in kelindap_pdu.h. */
const PROPERTY_WRITE = 9, MEMORY_WRITE = 12, MEMORY_BIT_WRITE = 13, KEY_WRITE = 15, USER_MEMORY_WRITE = 27;
const WRITES = [PROPERTY_WRITE, MEMORY_WRITE, MEMORY_BIT_WRITE, KEY_WRITE, USER_MEMORY_WRITE];

/** @param {number} outcome */
const carriedOut = outcome => outcome <= 1;

// Whether a request names a place, or a part of a run of memory, to write it.
/** @param {FlatPdu} pdu @param {Target} target @param {number} length */
function namesPlace(pdu, target, length) {
    const { address, n, s, object, id, level } = /** @type {Record<string, number>} */ (pdu.fields);
    const meets = (/** @type {number} */ at) => address < at + length && at < address + n;
    if (target.is === "memory") return (pdu.kind === MEMORY_WRITE || pdu.kind === MEMORY_BIT_WRITE) && meets(target.address);
    if (target.is === "user") return pdu.kind === USER_MEMORY_WRITE && meets(target.address);
    if (target.is === "key") return pdu.kind === KEY_WRITE && level === target.level;
    if (target.is === "nothing" || pdu.kind !== PROPERTY_WRITE || object !== target.object || id !== target.id) return false;
    return target.is === "count" || (s <= target.i && target.i < s + n);
}

// The bytes of a change by what is known of them: each once, with its offsets.
/** @template K @param {Change<K>} change @returns {[K, number[]][]} */
function byKnown(change) {
    /** @type {Map<K, number[]>} */
    const all = new Map();
    for (const [at, mark] of change.bytes) all.set(mark, [...(all.get(mark) ?? []), at]);
    return [...all];
}

/** Traces played on a sheet with marks. */
class Story {
    /** @param {Uint8Array} sheet @param {Trace[]} traces @param {Uint8Array | null} given a later dump */
    constructor(sheet, traces, given) {
        this.traces = traces;
        this.first = sheet;
        this.groups = entriesOf(sheet).groups;
        this.last = sheet.slice();
        this.marks = new Uint32Array(sheet.length + CONNECTIONS);
        this.history = new Histories();
        this.doubts = new Doubts(traces);
        /** @type {EventFact[]} */
        this.facts = [];
        /** The last event that made each byte what it is in the dump, if there is a dump and an event. */
        this.gave = new Uint32Array(sheet.length);
        this.dump = given && given.length === sheet.length ? given : null;
        /** Whether the whole sheet was once the dump: at first, or after an event. */
        this.was = this.dump !== null && same(this.dump, sheet);
        // The requests that would write, by whether they were carried out.
        /** @type {Map<number, { pdu: FlatPdu, done: boolean }>} */
        this.writes = new Map();
        const sessions = archive.fresh(), connects = [0, 0];
        for (const trace of traces) for (const [index, event] of trace.events.entries()) this.happens(sessions, connects, trace, index, event);
        /** @type {Map<string, Other>} */
        this.others = new Map();
    }

    /** @param {Uint8Array} sessions @param {number[]} connects @param {Trace} trace @param {number} index @param {Happening} event */
    happens(sessions, connects, trace, index, event) {
        const { last, dump } = this, c = Events.rights(event), before = last.slice(), line = new Uint8Array(LOG_LINE), played = this.facts.length, number = played + 1;
        const [level, offer, connect] = c === null ? [3, 0, 0] : [Math.min(sessions[2 * c + 1], 3), this.marks[last.length + c], connects[c]];
        archive.playMarked(sessions, last, trace.bytes, index, 1, line, this.marks, played);
        this.facts.push({ trace, index, event, outcome: line[0], level, offer, connect });
        if (event.kind === CONNECT && event.connection < CONNECTIONS) connects[event.connection] = number;
        const pdu = event.kind === REQUEST ? archive.readPdu(event.apdu) : null;
        if (pdu && pdu.outcome === 0 && WRITES.includes(pdu.kind)) this.writes.set(number, { pdu, done: carriedOut(line[0]) });
        if (same(before, last)) return;
        this.history.note(number, before, last);
        if (!dump) return;
        for (let p = 0; p < last.length; p++) if (before[p] !== last[p] && last[p] === dump[p]) this.gave[p] = number;
        this.was ||= same(last, dump);
    }

    // What the traces changed, with all that is known of it; what was set back to what it was is among it.
    accounts() {
        const mark = (/** @type {number} */ at) => this.marks[at];
        return Places.touched(this.first, this.last, mark, at => mark(at) > 0).map(change => this.account(change));
    }

    /** @param {Change<number>} change @returns {Account} */
    account(change) {
        const by = byKnown(change).sort((a, b) => b[0] - a[0]), last = by.length ? by[0][0] : 0, steps = this.steps(change);
        /** @type {Doubt[]} */
        const doubts = [];
        for (const [event] of by)
            for (const doubt of [...this.doubts.about(this.rests(event), this.group(change.at)), ...this.baseDoubts(steps, event)])
                if (!doubts.some(said => sameDoubt(said, doubt))) doubts.push(doubt);
        // a count is written by its elements, and so by none of them again
        const again = change.target.is === "count" ? null : this.named(change, true).filter(number => number > last).pop() ?? null;
        if (again !== null) doubts.push(...this.stepDoubts(steps, again, doubts));
        return { change, by, steps, again, doubts, left: this.left(change, last) };
    }

    // What is not known of an event in the history of a place, beside what is said of the place.
    /** @param {PlaceStep[]} steps @param {number} number @param {Doubt[]} said */
    stepDoubts(steps, number, said) {
        return [...this.doubts.outcome(this.rests(number)), ...this.baseDoubts(steps, number)].filter(doubt => !said.some(one => sameDoubt(one, doubt)));
    }

    // What a bit write gives rests on what stood there: the doubts about who gave that, back to a write of the whole.
    /** @param {PlaceStep[]} steps @param {number} number */
    baseDoubts(steps, number) {
        /** @type {Doubt[]} */
        const doubts = [];
        while (this.writes.get(number)?.pdu.kind === MEMORY_BIT_WRITE) {
            const before = number, step = lastOf(steps, step => step.event < before);
            if (!step) return [...doubts, ...this.doubts.before(number)];
            doubts.push(...this.doubts.about(this.rests(step.event), null));
            number = step.event;
        }
        return doubts;
    }

    // Every event that changed a place, in order.
    /** @param {{ at: number, length: number }} place */
    steps({ at, length }) {
        return this.history.steps(at, this.first.slice(at, at + length));
    }

    /** @param {number} number */
    fact(number) {
        return this.facts[number - 1];
    }

    // What an event rests on.
    /** @param {number} number @returns {Rests} */
    rests(number) {
        const { event, level, offer, connect } = this.fact(number), connected = Events.rights(event) !== null;
        // a GroupValue_Response
        const answer = event.kind === REQUEST && event.mode === MULTICAST && event.apdu.length >= 2 && (event.apdu[0] & 3) === 0 && (event.apdu[1] & 0xc0) === 0x40;
        return { event: number, connect, offer: connected && level < 3 ? offer : 0, connected, answer };
    }

    // The group whose value a byte is, or all, by 0, if it is the individual address.
    /** @param {number} at */
    group(at) {
        if (at >= 16 && at < 18) return 0;
        return this.groups.find(g => at >= g.body && at < g.body + g.length)?.address ?? null;
    }

    // The requests that named a place to write it, and were carried out or not.
    /** @param {{ target: Target, length: number }} place @param {boolean} done */
    named({ target, length }, done) {
        const all = [];
        for (const [number, write] of this.writes) if (write.done === done && namesPlace(write.pdu, target, length)) all.push(number);
        return all;
    }

    // Requests behind an event that are no events, and named a place to write it.
    /** @param {{ target: Target, length: number }} place @param {number} behind */
    left({ target, length }, behind) {
        return this.doubts.all.flatMap(e => e.left).filter(left => {
            const pdu = left.at.behind >= behind ? archive.readPdu(left.apdu) : null;
            return pdu !== null && pdu.outcome === 0 && namesPlace(pdu, target, length);
        });
    }

    // What is not known of a place that a dump has otherwise: each doubt with the event that it is about, 0 for none.
    /** @param {Change<Other>} change */
    otherDoubts(change) {
        /** @type {[number, Doubt][]} */
        const all = [];
        const group = this.group(change.at), own = group === null ? undefined : this.doubts.ownTo(group);
        for (const [{ mark }] of byKnown(change)) {
            /** @type {Doubt[]} */
            const about = mark ? this.doubts.about(this.rests(mark), group) : own ? [{ doubt: "own address", own }] : [];
            for (const doubt of about) if (!all.some(of => sameDoubt(of[1], doubt))) all.push([mark, doubt]);
        }
        return all;
    }

    // Of a request that playing does not carry out: whether the recorded answer says otherwise, and what is not known. The device's own
    // answer leaves no doubt, unless the recording does not fit together: then it may be that to another. Where no answer is recorded
    // nothing but playing says that it was refused, and every doubt counts.
    /** @param {number} number @returns {{ otherwise: boolean, doubts: Doubt[] }} */
    refusal(number) {
        const answer = this.doubts.seen(number)?.seen.answer, doubts = this.doubts.about(this.rests(number), null);
        if (answer === "absent" && !doubts.length) doubts.push({ doubt: "not answered", of: number });
        return { otherwise: answer === "other", doubts: answer === "same" ? doubts.filter(Doubts.unfit) : doubts };
    }

    /** @param {Uint8Array} dump @returns {Final} */
    beside(dump) {
        const broken = brokenRule(dump), { last, first, gave, marks } = this;
        if (broken) {
            const bytes = dump.length === last.length ? places(0, last.length).filter(at => last[at] !== dump[at]) : [];
            return { broken: broken.text, bytes: bytes.map(at => [at, last[at], dump[at]]) };
        }
        if (!Places.sameLayout(last, dump)) return { layout: differences(last, dump) };
        // what is known of two bytes is the same if it is one object
        const other = (/** @type {number} */ at) => {
            const mark = marks[at], origin = gave[at] || (first[at] === dump[at] ? "first" : "never"), key = `${mark} ${origin}`;
            if (!this.others.has(key)) this.others.set(key, { mark, origin });
            return /** @type {Other} */ (this.others.get(key));
        };
        return { places: Places.touched(last, dump, other, at => last[at] !== dump[at]) };
    }
}
