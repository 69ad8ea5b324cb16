// The device while it hears a recording (tools/trace/src/hearing.rs): which frame is an event, by the module's word; and what the
// recording shows of the events and of itself, by the device's own frames in it.

/** @typedef {number | "device" | "not its own" | "out of turn" | "untaken" | "repeated" | "confirmed" | "unsent" | "signal" | "damaged"} NoEvent why a frame is no event: by the module's number, or a word of Make.WHYS */
/** @typedef {{ why: NoEvent } | { bytes: Uint8Array, f: Frame }} Sent a frame that reached the bus, or why it is none */
/** @typedef {{ i: number, f: Frame, bytes: Uint8Array, apdu: Uint8Array, number: number, toOne: boolean }} FrameRead a frame that was read, and where it stands */
/** @typedef {{ why: NoEvent } | { event: Happening }} Heard */

/** The module's numbers: what is no frame, by its length; an acknowledgement; why connected data, a connect or a disconnect is nobody's partner's; from the device to itself. */
const SHORT_FRAME = 40, WRONG_LENGTH = 43, ACKNOWLEDGED = 45, STRANGER = 61, NO_PLACE = 62, NO_PARTNER = 63, ITSELF = 65;
/** The octets of T_ACK and T_NAK, without the number; the acknowledgement of a frame on the wire; the bit that says a group, or all; the code of an indication; the bit that is clear in a repetition. */
const T_ACK = 0xc2, T_NAK = 0xc3, L_ACK = 0xcc, TO_GROUP = 0x80, INDICATION = 0x29, FIRST_SENT = 0x20;

class Hearing {
    /** Transport ends a connection whose partner is silent for longer, in seconds. */
    static LIMIT = 6;

    /** @param {Uint8Array} sheet @param {Recording} recording @param {Sent[]} frames @param {Set<number>} untaken frames with data that the device did not take, as what follows them shows */
    constructor(sheet, recording, frames, untaken) {
        this.recording = recording;
        this.recorded = recording.frames;
        this.frames = frames;
        this.untaken = untaken;
        // The frames that an address sent, or that were sent to it alone.
        /** @type {Map<number, number[]>} */
        this.parties = new Map();
        for (const [i, frame] of frames.entries()) {
            if (!("f" in frame) || frame.f.outcome !== 0 || frame.f.control2 & TO_GROUP) continue;
            for (const address of new Set([frame.f.source, frame.f.destination])) {
                const all = this.parties.get(address);
                if (all) all.push(i);
                else this.parties.set(address, [i]);
            }
        }
        // gaps that are told, of which so many are passed
        this.notes = 0;
        this.sheet = sheet.slice();
        // The addresses that the device had before.
        /** @type {Set<number>} */
        this.former = new Set();
        // the sessions and, behind them, the address of each partner
        this.link = new Uint8Array(archive.fields.get("link").size);
        this.sessions = this.link.subarray(0, archive.fields.get("sessions").size);
        this.sessions.set(archive.fresh());
        this.transport = new Transport();
        this.answers = new Answers();
        this.evidence = new Evidence();
        // the last frame, without the bit that tells a repetition
        this.last = "";
        // When a partner was heard last.
        /** @type {Map<number, string>} */
        this.heard = new Map();
        // Data out of turn: where. A sign of missing frames, if the device's own can't tell.
        /** @type {At[]} */
        this.odd = [];
        // Events whose frame nobody acknowledged on the wire.
        /** @type {boolean[]} */
        this.unwired = [];
        // The frame of each event, and that of the device's acknowledgement.
        /** @type {number[]} */
        this.of = [];
        /** @type {Map<number, number>} */
        this.acknowledged = new Map();
    }

    own() {
        return number(this.sheet, 16, 2);
    }

    /** @param {number} c @param {number} [address] the address of a connection's partner, or another that it gets */
    partner(c, address) {
        const view = new DataView(this.link.buffer), at = archive.fields.get("link.address").at + 2 * c;
        if (address !== undefined) view.setUint16(at, address, true);
        return view.getUint16(at, true);
    }

    // The connection of an address: open, and it connected last.
    /** @param {number} address */
    placeOf(address) {
        return [0, 1].find(c => this.sessions[2 * c] && this.partner(c) === address);
    }

    /** @param {number} i @returns {At} */
    at(i) {
        const frame = this.recorded[i] ?? this.recorded[this.recorded.length - 1];
        return { behind: this.evidence.events.length, line: frame ? frame.line : 0 };
    }

    /** @param {FrameRead} r @returns {Known} */
    known(r) {
        return { time: this.recorded[r.i].time, from: r.f.source };
    }

    /** @param {number} i @param {{ bytes: Uint8Array, f: Frame }} frame @returns {FrameRead} */
    read(i, { bytes, f }) {
        return { i, f, bytes, apdu: f.tpdu, number: ((f.tpdu[0] ?? 0) >> 2) & 15, toOne: !(f.control2 & TO_GROUP) };
    }

    // ---- frame by frame ----

    // The event of a frame and what is known of it, the event having happened; or why it is none.
    /** @param {number} i @returns {{ why: NoEvent } | { event: Happening, known: Known }} */
    hear(i) {
        this.gapsBefore(i);
        const { back } = this.recording, frame = this.frames[i];
        if (back[0] === i) this.evidence.back = { at: this.at(i), times: back.length };
        if ("why" in frame) {
            if (frame.why === "damaged" && !this.repeatedNext(i)) this.evidence.gap(this.at(i), { why: "unreadable" });
            return frame;
        }
        const { outcome } = frame.f;
        if (outcome !== 0) {
            if (outcome === SHORT_FRAME || outcome === WRONG_LENGTH) this.evidence.gap(this.at(i), { why: "unreadable" });
            return { why: outcome };
        }
        const r = this.read(i, frame);
        if (this.repeated(r)) return { why: "repeated" };
        const heard = this.mayBeItsOwn(r) ? this.byDevice(r) : this.byOther(r);
        return "event" in heard ? { ...heard, known: this.known(r) } : heard;
    }

    // The frames of data that the device did not acknowledge, once all are heard.
    unacknowledged() {
        return new Set(this.of.filter((_, event) => this.evidence.events[event].data && this.evidence.events[event].taken !== "acknowledged"));
    }

    // Under the device's address; or to a group or to all under one that it had before, for that may be recorded late.
    /** @param {FrameRead} r */
    mayBeItsOwn(r) {
        return r.f.source === this.own() || (!r.toOne && this.former.has(r.f.source));
    }

    // What the whole recording shows.
    finish() {
        const { evidence } = this, n = this.frames.length;
        this.gapsBefore(n);
        // an answer that has not come is missing, unless the recording ends with the acknowledgement before it
        for (const event of this.answers.missing()) {
            const i = this.acknowledged.get(event);
            if (i !== undefined && i + 1 < n) evidence.loss(this.at(n), "no-answer");
        }
        if (!evidence.device) for (const at of this.odd) evidence.loss(at, "turn");
        for (const [i, seen] of evidence.events.entries())
            if (seen.taken === "-") seen.taken = evidence.device && seen.data ? "unacknowledged" : this.unwired[i] ? "unwired" : "-";
        evidence.losses.sort((a, b) => a.at.behind - b.at.behind);
        return evidence;
    }

    /** @param {number} i */
    gapsBefore(i) {
        for (const { notes } = this.recording; this.notes < notes.length && notes[this.notes].before <= i; this.notes++) {
            const { line, gap } = notes[this.notes];
            this.evidence.gap({ behind: this.evidence.events.length, line }, gap);
        }
    }

    /** @param {FrameRead} r @param {Sign} sign */
    loss(r, sign) {
        this.evidence.loss(this.at(r.i), sign);
    }

    // The answer to an event has not come: it is missing if the device took the event.
    /** @param {FrameRead} r @param {number} event */
    unanswered(r, event) {
        if (this.evidence.events[event].taken === "acknowledged") this.loss(r, "no-answer");
    }

    // An event was taken, and its acknowledgement is not recorded.
    /** @param {FrameRead} r @param {number} event */
    takenAllTheSame(r, event) {
        this.evidence.events[event].taken = "acknowledged";
        this.loss(r, "no-acknowledgement");
    }

    // Whether the frame behind a damaged one says that it is a repetition: of that one.
    /** @param {number} i */
    repeatedNext(i) {
        let next = i + 1;
        const signal = (/** @type {Sent | undefined} */ frame) => frame && "why" in frame && frame.why === "signal";
        while (signal(this.frames[next])) next++;
        const frame = this.frames[next];
        return frame !== undefined && "f" in frame && frame.f.outcome === 0 && frame.f.code === INDICATION && !(frame.f.control1 & FIRST_SENT);
    }

    // A repetition on the wire says that it is one, and is what was sent last.
    /** @param {FrameRead} r */
    repeated({ i, f, bytes }) {
        const control = 2 + f.info.length, bare = hex([bytes[0], bytes[control] | FIRST_SENT, ...bytes.subarray(control + 1)]);
        const same = f.code === INDICATION && !(f.control1 & FIRST_SENT) && bare === this.last;
        this.last = bare;
        if (same && this.unwired.length && this.wired(i)) this.unwired[this.unwired.length - 1] = false;
        return same;
    }

    // Whether a frame was acknowledged on the wire, or was not recorded there.
    /** @param {number} i */
    wired(i) {
        const next = this.recorded[i + 1];
        return !this.recorded[i].wire || (next !== undefined && next.wire && next.bytes.length === 1 && next.bytes[0] === L_ACK);
    }

    // ---- what others send ----

    /** @param {FrameRead} r @returns {Heard} */
    byOther(r) {
        const partner = r.f.source, { transport } = this;
        transport.sends(partner);
        const heard = archive.heard(this.link, this.sheet, r.bytes), what = heard.event;
        const connected = what === CONNECTED;
        /** @type {Happening} */
        let event;
        if (what === FRAME_CONNECT || what === FRAME_DISCONNECT) {
            this.starts(r, partner);
            if (what === FRAME_CONNECT) transport.connects(partner);
            else transport.leaves(partner);
            event = happening(what === FRAME_CONNECT ? CONNECT : DISCONNECT, heard.connection);
        } else if (connected) {
            const turn = transport.turn(partner, r.number, r.apdu);
            if (turn === "again") {
                transport.again(partner, r.number);
                return { why: "repeated" };
            }
            if (turn === "out") {
                transport.odd(partner, r.number);
                this.odd.push(this.at(r.i));
                this.leftOut(r, "out-of-turn");
                return { why: "out of turn" };
            }
            if (this.untaken.has(r.i)) {
                transport.passes(partner, r.number);
                this.leftOut(r, "untaken");
                return { why: "untaken" };
            }
            event = { kind: REQUEST, mode: CONNECTED, connection: heard.connection, group: 0, apdu: r.apdu };
        } else if (what < CONNECTED) {
            event = { kind: REQUEST, mode: what, connection: 0, group: what === MULTICAST ? heard.group : 0, apdu: r.apdu };
        } else {
            this.noEvent(r, what);
            return { why: what };
        }
        this.happens(r, event);
        if (connected) {
            const index = this.evidence.events.length - 1;
            this.evidence.events[index].twofold = transport.takes(partner, r.number, index, r.apdu);
        }
        this.heardNow(r);
        return { event };
    }

    // A partner's frame that is no event, and what it shows.
    /** @param {FrameRead} r @param {number} number */
    noEvent(r, number) {
        const partner = r.f.source, { transport } = this;
        if (number === ACKNOWLEDGED) {
            // a receipt may cross the device's own disconnect
            if (!transport.wasDue(partner, r.number) && !transport.ended(partner)) this.loss(r, "stray-receipt");
            this.heardNow(r);
        } else if (number === STRANGER) {
            transport.turnsAway(partner, r.i);
            transport.odd(partner, r.number);
            this.leftOut(r, "stranger");
        } else if (number === NO_PLACE) transport.turnsAway(partner, r.i);
        else if (number === NO_PARTNER && !transport.ended(partner)) this.loss(r, "stray-disconnect");
    }

    /** @param {FrameRead} r */
    heardNow(r) {
        const { time } = this.recorded[r.i];
        if (time !== null) this.heard.set(r.f.source, time);
    }

    /** @param {FrameRead} r @param {Left["why"]} why */
    leftOut(r, why) {
        this.evidence.leftOut({ at: this.at(r.i), why, known: this.known(r), apdu: r.apdu });
    }

    // A connection begins or ends: answers on it that have not come are missing, where the device took what asked for them.
    /** @param {FrameRead} r @param {number} partner */
    starts(r, partner) {
        for (const event of this.answers.ends(partner)) this.unanswered(r, event);
    }

    // ---- what the device sends ----

    // A frame under the device's own address. To itself it is nobody's, by the module's number; to a group or to all it may be the
    // device's own.
    /** @param {FrameRead} r @returns {Heard} */
    byDevice(r) {
        const to = r.f.destination, what = r.f.event;
        if (r.toOne && to === this.own()) {
            const number = Math.max(archive.heard(this.link, this.sheet, r.bytes).event, ITSELF);
            this.evidence.forgedFrame(this.at(r.i), "itself");
            if (what <= CONNECTED) this.leftOut(r, "itself");
            return { why: number };
        }
        this.evidence.device = true;
        if (r.toOne && what === FRAME_DISCONNECT) return this.deviceEnds(r);
        if (r.toOne && what === ACKNOWLEDGED) this.acknowledges(r);
        else if (r.toOne && what === CONNECTED) this.answersOn(r);
        else if (r.toOne && what < CONNECTED) this.answered(r, to, this.answers.onNone(Answers.toOne(to), r.apdu));
        else if (what < CONNECTED) this.answersAll(r);
        return { why: "device" };
    }

    // A disconnect under the device's address: its own, unless it goes on to acknowledge that partner.
    /** @param {FrameRead} r @returns {Heard} */
    deviceEnds(r) {
        const partner = r.f.destination, connection = this.placeOf(partner), { transport, evidence } = this;
        if (connection === undefined) {
            if (!transport.owed(partner, r.i)) this.loss(r, "stray-end");
            transport.ends(partner);
            return { why: "device" };
        }
        const late = this.wentOn(r.i, partner);
        if (late !== null) {
            evidence.forgedFrame(this.at(r.i), "disconnect");
            if (late) this.loss(r, "late-acknowledgement");
            return { why: "not its own" };
        }
        for (const event of transport.ends(partner)) if (evidence.events[event].taken === "-") evidence.events[event].taken = "ended";
        this.starts(r, partner);
        const event = happening(DISCONNECT, connection);
        this.happens(r, event);
        return { event };
    }

    // Whether the device goes on to acknowledge a partner behind this frame, before that one connects or disconnects; and if so, whether
    // it is of data that was sent before it.
    /** @param {number} i @param {number} partner @returns {boolean | null} */
    wentOn(i, partner) {
        const own = this.own();
        let next = this.transport.next(partner), sent = 0;
        for (const j of this.parties.get(partner) ?? []) {
            const frame = this.frames[j];
            if (j <= i || !("f" in frame)) continue;
            const r = this.read(j, frame), { source, destination, event } = r.f;
            if (source === partner) {
                // under which address the device goes on is not followed
                if (event === FRAME_CONNECT || (destination === own && event === FRAME_DISCONNECT)) return null;
                if (destination !== own || event !== CONNECTED) continue;
                if (r.number === next || ((r.number + 1) & 15) === next) sent |= 1 << r.number;
                if (r.number === next) next = (next + 1) & 15;
            } else if (event === ACKNOWLEDGED && source === own) {
                if (sent & (1 << r.number)) return false;
                if (this.transport.waits(partner, r.number)) return true;
            }
        }
        return null;
    }

    /** @param {FrameRead} r */
    acknowledges(r) {
        const partner = r.f.destination, octet = (r.apdu[0] ?? 0) & ~(15 << 2), { events } = this.evidence;
        if (octet === T_NAK) {
            const of = this.transport.refused(partner, r.number);
            if (typeof of === "object") events[of.event].taken = "refused";
        }
        if (octet !== T_ACK) return;
        const of = this.transport.acknowledged(partner, r.number);
        if (typeof of === "object") {
            events[of.event].taken = "acknowledged";
            this.acknowledged.set(of.event, r.i);
            for (const event of of.before) this.takenAllTheSame(r, event);
        } else if (of === "odd") this.loss(r, "took-out-of-turn");
        else if (of === "nothing") this.loss(r, "stray-acknowledgement");
    }

    // An answer on a connection.
    /** @param {FrameRead} r */
    answersOn(r) {
        const partner = r.f.destination, [compared, missing] = this.answers.on(partner, r.number, r.apdu);
        for (const event of missing) this.unanswered(r, event);
        this.answered(r, partner, compared);
    }

    // A frame to a group or to all: an answer that is due, or one that may be the device's own.
    /** @param {FrameRead} r */
    answersAll(r) {
        const group = r.f.destination, service = Words.service(r.apdu), kind = service & 0x3c0;
        const answer = kind === 0x040 || service === 0x140 || service === 0x3dd, stores = kind === 0x040 || kind === 0x080 || service === 0x0c0 || service === 0x3de;
        /** @type {Compared} */
        const compared = answer ? this.answers.onNone(Answers.toGroup(group), r.apdu) : { is: "unasked" };
        if ("event" in compared) return this.answered(r, 0, compared);
        // the address, or the value of a group that the device has
        if (stores && (group === 0 || entriesOf(this.sheet).groups.some(g => g.address === group))) this.evidence.ownFrame(this.at(r.i), group);
    }

    // What a recorded answer shows.
    /** @param {FrameRead} r @param {number} partner @param {Compared} compared */
    answered(r, partner, compared) {
        if (!("event" in compared)) {
            if (compared.is === "unasked") this.parts(this.at(r.i), false);
            return;
        }
        const seen = this.evidence.events[compared.event];
        seen.answer = compared.is;
        if (!seen.data) seen.taken = "acknowledged";
        for (const event of this.transport.answered(partner, compared.event)) this.takenAllTheSame(r, event);
        if (compared.is === "other") this.parts({ ...this.at(r.i), behind: compared.event + 1 }, true);
    }

    /** @param {At} at @param {boolean} asked */
    parts(at, asked) {
        this.evidence.parted ??= { at, asked };
    }

    // ---- events ----

    // The event is played, and what is due of it is noted.
    /** @param {FrameRead} r @param {Happening} event */
    happens(r, event) {
        const at = this.at(r.i), index = at.behind, partner = r.f.source, before = this.sessions.slice(), own = this.own(), log = new Uint8Array(LOG_LINE);
        archive.play(this.sessions, this.sheet, traceOf([event]), 0, 1, log);
        if (this.own() !== own) this.former.add(own);
        if (event.kind === CONNECT) this.partner(event.connection, partner);
        const data = event.kind === REQUEST && event.mode === CONNECTED, answer = log.slice(2, 2 + log[1]);
        /** @type {Seen} */
        const seen = { line: at.line, data, taken: "-", answer: answer.length ? "absent" : "-", silence: 0, twofold: false };
        if (answer.length) {
            if (event.mode === CONNECTED) this.answers.dueOn(partner, this.transport.answers(partner), index, answer);
            else if (event.mode === CONNECTIONLESS) this.answers.due(Answers.toOne(partner), index, answer);
            else this.answers.due(Answers.toGroup(event.mode === MULTICAST ? event.group : 0), index, answer);
        }
        const last = this.heard.get(partner), now = this.recorded[r.i].time;
        const passed = data && last !== undefined && now !== null ? Order.between(last, now) : null;
        if (passed !== null && passed > Hearing.LIMIT) seen.silence = passed;
        this.evidence.events.push(seen);
        this.of.push(r.i);
        this.unwired.push(!this.wired(r.i));
        // whom a Restart has cut off, the device tells
        if (event.kind === REQUEST) for (const c of [0, 1]) if (before[2 * c] && !this.sessions[2 * c]) this.transport.cutOff(this.partner(c), r.i);
    }
}
