// What a recording shows of its events beside their bytes, and what it can't show (tools/trace/src/evidence.rs): `make` finds it out,
// and the side file NAME.evidence has it. A first line has the form's number and ties it to its trace, the last line says that it is whole.

/**
 * @typedef {"-" | "acknowledged" | "unacknowledged" | "refused" | "ended" | "unwired"} Taken how the recording shows that the device took an
 *     event: nothing is due that would show it; by T_ACK or by an answer; no T_ACK of its number; T_NAK, or the device's disconnect, in its
 *     place; no acknowledgement on the wire
 * @typedef {"-" | "same" | "other" | "absent"} AnswerSeen
 * @typedef {{ line: number, data: boolean, taken: Taken, answer: AnswerSeen, silence: number, twofold: boolean }} Seen data: on a connection,
 *     which the device acknowledges; silence: so many seconds of its partner before it, longer than transport allows; twofold: other data
 *     had its number and was not taken
 * @typedef {{ behind: number, line: number }} At a place in a recording: behind so many events of its trace, and the line
 * @typedef {{ at: At, why: GapWhy }} Gap
 * @typedef {"turn" | "took-out-of-turn" | "stray-acknowledgement" | "no-acknowledgement" | "no-answer" | "stray-receipt" | "stray-end"
 *     | "stray-disconnect" | "late-acknowledgement"} Sign what does not fit together unless frames are missing
 * @typedef {{ at: At, sign: Sign, times: number }} Loss
 * @typedef {{ at: At, asked: boolean }} Parted the first recorded answer that playing does not give: of an event, if one asked for it
 * @typedef {{ at: At, group: number }} Own a frame under the device's own address to a group, or to all by 0
 * @typedef {{ at: At, what: "itself" | "disconnect" }} Forged
 * @typedef {{ at: At, why: "out-of-turn" | "untaken" | "stranger" | "itself", known: Known, apdu: Uint8Array }} Left a request that is no event
 */

class Evidence {
    /** The recording has frames of the device. */
    device = false;
    /** @type {Seen[]} */
    events = [];
    /** @type {Gap[]} */
    gaps = [];
    /** @type {Loss[]} */
    losses = [];
    /** @type {Parted | null} */
    parted = null;
    /** @type {Own[]} */
    own = [];
    /** @type {Forged[]} */
    forged = [];
    /** @type {Left[]} */
    left = [];
    // Where times go back first, and how often.
    /** @type {{ at: At, times: number } | null} */
    back = null;

    /** The number of the form; and so many requests that are no events are kept. */
    static FORM = 1;
    static MOST_LEFT = 200;
    /** @type {Taken[]} */
    static TAKEN = ["-", "acknowledged", "unacknowledged", "refused", "ended", "unwired"];
    /** @type {AnswerSeen[]} */
    static ANSWER = ["-", "same", "other", "absent"];
    /** @type {Sign[]} */
    static SIGNS = ["turn", "took-out-of-turn", "stray-acknowledgement", "no-acknowledgement", "no-answer", "stray-receipt", "stray-end", "stray-disconnect", "late-acknowledgement"];
    /** @type {Left["why"][]} */
    static WHYS = ["out-of-turn", "untaken", "stranger", "itself"];

    /** @param {At} at @param {Sign} sign */
    loss(at, sign) {
        const same = this.losses.slice(-Evidence.SIGNS.length).reverse().find(l => l.at.behind === at.behind && l.sign === sign);
        if (same) same.times++;
        else this.losses.push({ at, sign, times: 1 });
    }

    // A gap; several behind one event for one reason are one.
    /** @param {At} at @param {GapWhy} why */
    gap(at, why) {
        const last = this.gaps[this.gaps.length - 1], here = last && last.at.behind === at.behind;
        if (here && last.why.why === "stopped" && why.why === "stopped") last.why = { ...last.why, to: why.to };
        else if (!here || JSON.stringify(last.why) !== JSON.stringify(why)) this.gaps.push({ at, why });
    }

    // A frame under the device's own address; several behind one event to one group are one, the last.
    /** @param {At} at @param {number} group */
    ownFrame(at, group) {
        for (let i = this.own.length - 1; i >= 0 && this.own[i].at.behind === at.behind; i--) {
            if (this.own[i].group !== group) continue;
            this.own[i].at = at;
            return;
        }
        this.own.push({ at, group });
    }

    // A forged frame; several of a kind behind one event are one.
    /** @param {At} at @param {Forged["what"]} what */
    forgedFrame(at, what) {
        if (!this.forged.slice(-2).some(f => f.at.behind === at.behind && f.what === what)) this.forged.push({ at, what });
    }

    /** @param {Left} left */
    leftOut(left) {
        if (this.left.length < Evidence.MOST_LEFT) this.left.push(left);
    }

    // The same with the places for which it holds, moved by so many events.
    /** @param {Seen[]} events @param {number} by @param {(at: At) => boolean} mine */
    moved(events, by, mine) {
        /** @template {{ at: At }} T @param {T[]} all @returns {T[]} */
        const each = all => all.filter(one => mine(one.at)).map(one => ({ ...one, at: { ...one.at, behind: one.at.behind + by } }));
        /** @template {{ at: At }} T @param {T | null} one @returns {T | null} */
        const only = one => (one ? each([one])[0] ?? null : null);
        return Object.assign(new Evidence(), { device: this.device, events, gaps: each(this.gaps), losses: each(this.losses), parted: only(this.parted),
            own: each(this.own), forged: each(this.forged), left: each(this.left), back: only(this.back) });
    }

    // The part for events from..to of a recording that becomes several traces, the last of them or not. What stands behind the last event
    // of a part belongs to it.
    /** @param {number} from @param {number} to @param {boolean} last */
    part(from, to, last) {
        return this.moved(this.events.slice(from, to), -from, at => (at.behind > from || from === 0) && (at.behind <= to || last));
    }

    // The same of a trace that is played behind others with so many events.
    /** @param {number} events */
    behind(events) {
        return this.moved(this.events, events, () => true);
    }

    // Whether what the device sent fits to the events; and nothing shows that frames are missing or stand in another order.
    fits() {
        return this.losses.length === 0 && this.parted === null;
    }

    clean() {
        return this.gaps.length === 0 && this.back === null && this.fits() && !this.forged.some(f => f.what === "disconnect");
    }

    // ---- the file ----

    /** @param {Uint8Array} trace @param {number} events */
    static firstLine(trace, events) {
        return `evidence of a trace: form=${Evidence.FORM} ${Times.tied(trace, events)}`;
    }

    // The side file of a trace.
    /** @param {Uint8Array} trace */
    write(trace) {
        const truth = (/** @type {boolean} */ is) => (is ? "yes" : "no"), words = (/** @type {At} */ at) => `behind=${at.behind} line=${at.line}`;
        const field = (/** @type {string} */ name, /** @type {string | number | null} */ value) => (value === null || value === "-" || value === 0 ? "" : ` ${name}=${value}`);
        const whys = (/** @type {GapWhy} */ w) => w.why + (w.why === "stopped" ? field("from", w.from) + field("to", w.to) : w.why === "counted" ? ` frames=${w.frames}` : "");
        return [
            Evidence.firstLine(trace, this.events.length),
            `device heard=${truth(this.device)}`,
            ...this.events.map((e, i) => `${i + 1} line=${e.line}${e.data ? " data=yes" : ""}${field("taken", e.taken)}${field("answer", e.answer)}${field("silence", e.silence)}${e.twofold ? " twofold=yes" : ""}`),
            ...this.gaps.map(g => `gap ${words(g.at)} why=${whys(g.why)}`),
            ...this.losses.map(l => `loss ${words(l.at)} sign=${l.sign} times=${l.times}`),
            ...(this.parted ? [`parted ${words(this.parted.at)} asked=${truth(this.parted.asked)}`] : []),
            ...this.own.map(o => `own ${words(o.at)} group=${hex([o.group >> 8, o.group & 255])}`),
            ...this.forged.map(f => `forged ${words(f.at)} what=${f.what}`),
            ...this.left.map(l => `left ${words(l.at)} why=${l.why}${Times.words(l.known)} apdu=${run(l.apdu)}`),
            ...(this.back ? [`back ${words(this.back.at)} times=${this.back.times}`] : []),
            "end\n",
        ].join("\n");
    }

    // What a side file says of the events of its trace.
    /** @param {string} text @param {Uint8Array} trace @param {number} events */
    static read(text, trace, events) {
        const all = new Evidence();
        const last = Times.sideLines(text, line => {
            const form = line.split("form=")[1]?.split(" ")[0] ?? "1";
            if (form !== String(Evidence.FORM)) throw new Fault(`form ${short(form)}, and ${Evidence.FORM} is read`);
            if (trimEnd(line) !== Evidence.firstLine(trace, events)) throw new Fault("it is not of this trace");
        }, (first, words) => {
            const fields = new EvidenceFields(words);
            all.take(first, fields, events);
            fields.end();
        });
        if (all.events.length < events) throw new Fault(`line ${last}: event ${all.events.length + 1} is missing`);
        return all;
    }

    // Takes a line of the side file, by its first word.
    /** @param {string} first @param {EvidenceFields} f @param {number} events */
    take(first, f, events) {
        const due = this.events.length + 1, known = ["gap", "loss", "parted", "own", "forged", "left", "back"].includes(first);
        const at = known ? f.at(events) : { behind: 0, line: 0 };
        if (first === "device") this.device = f.truth("heard");
        else if (first === "gap") this.gaps.push({ at, why: f.gap() });
        else if (first === "loss") this.losses.push({ at, sign: f.word("sign", Evidence.SIGNS), times: f.number("times") });
        else if (first === "parted") this.parted = { at, asked: f.truth("asked") };
        else if (first === "own") this.own.push({ at, group: Texts.group(f.must("group")) });
        else if (first === "forged") this.forged.push({ at, what: f.word("what", /** @type {Forged["what"][]} */ (["itself", "disconnect"])) });
        else if (first === "left") this.left.push({ at, why: f.word("why", Evidence.WHYS), known: f.known(), apdu: f.apdu() });
        else if (first === "back") this.back = { at, times: f.number("times") };
        else {
            if (whole(first) !== BigInt(due) || due > events) throw new Fault(`"${short(first)}" stands where event ${due} is due`);
            const line = f.number("line"), data = f.may("data") === "yes", twofold = f.may("twofold") === "yes";
            const taken = f.has("taken") ? f.word("taken", Evidence.TAKEN) : "-", answer = f.has("answer") ? f.word("answer", Evidence.ANSWER) : "-";
            this.events.push({ line, data, taken, answer, silence: f.has("silence") ? f.number("silence") : 0, twofold });
        }
    }
}

/** The fields of a line, each once. */
class EvidenceFields {
    /** @param {Line} words */
    constructor(words) {
        /** @type {Map<string, string>} */
        this.all = new Map();
        for (let pair = words.pair(); pair; pair = words.pair()) {
            if (this.all.has(pair[0])) throw new Fault(`${short(pair[0])} is given twice`);
            this.all.set(...pair);
        }
    }

    /** @param {string} field */
    has(field) {
        return this.all.has(field);
    }

    /** @param {string} field */
    may(field) {
        const value = this.all.get(field) ?? null;
        this.all.delete(field);
        return value;
    }

    /** @param {string} field */
    must(field) {
        const value = this.may(field);
        if (value === null) throw new Fault(`${field} is missing`);
        return value;
    }

    /** @param {string} field */
    number(field) {
        const value = this.must(field), n = value.startsWith("+") ? null : whole(value);
        if (n === null) throw new Fault(`${field} is no number: "${short(value)}"`);
        return Number(n);
    }

    /** @param {string} field */
    truth(field) {
        const value = this.must(field);
        if (value !== "yes" && value !== "no") throw new Fault(`${field} is "${short(value)}", not yes or no`);
        return value === "yes";
    }

    // One of some words.
    /** @template {string} T @param {string} field @param {T[]} table @returns {T} */
    word(field, table) {
        const value = this.must(field), found = table.find(word => word === value);
        if (found === undefined) throw new Fault(`${field} is "${short(value)}", which is not known`);
        return found;
    }

    /** @param {string} field */
    time(field) {
        const value = this.may(field);
        return value === null ? null : Texts.time(value);
    }

    /** @param {number} events @returns {At} */
    at(events) {
        const at = { behind: this.number("behind"), line: this.number("line") };
        if (at.behind > events) throw new Fault(`behind ${at.behind} of ${events} events`);
        return at;
    }

    /** @returns {GapWhy} */
    gap() {
        const why = this.word("why", /** @type {GapWhy["why"][]} */ (["stopped", "unconnected", "lost", "counted", "unreadable"]));
        if (why === "stopped") return { why, from: this.time("from"), to: this.time("to") };
        return why === "counted" ? { why, frames: Math.min(this.number("frames"), 255) } : { why };
    }

    /** @returns {Known} */
    known() {
        const time = this.time("time"), from = this.may("from");
        return { time, from: from === null ? null : Texts.address(from) };
    }

    apdu() {
        const digits = this.must("apdu"), bytes = digits === "-" ? new Uint8Array(0) : Texts.bytes(digits);
        if (typeof bytes === "number") throw new Fault("apdu is not bytes in hex");
        return bytes;
    }

    end() {
        for (const field of this.all.keys()) throw new Fault(`"${short(field)}" does not belong here`);
    }
}
