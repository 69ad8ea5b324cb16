// The events of a recording (tools/trace/src/make.rs): each frame is read by the module, heard by the device that the sheet is, and
// played on it, so that address and sessions are at every frame what they were. What is no event is left out and counted; what the
// recording shows beside its events is evidence (hearing.js).

/** @typedef {{ events: [Happening, Known][], frames: number, left: Map<NoEvent, number>, evidence: Evidence | null }} Made a text has events alone */
/** @typedef {{ bytes: Uint8Array, events: Happening[], known: Known[], times: string | null, evidence: Evidence | null, side: string | null }} MadePart one trace of several that go on one after the other, with its side files */

const Make = (() => {
    /** Why a frame is no event, in the order in which it is told, behind the module's numbers. */
    const WHYS = /** @type {Record<string, string>} */ ({
        device: "sent by the device",
        "not its own": Sentences.NOT_ITS_OWN,
        "out of turn": "data out of turn",
        untaken: "data that the device did not take",
        repeated: "a repetition",
        confirmed: "a request to send, told again by its confirmation",
        unsent: "not sent, by its confirmation",
        signal: "an acknowledgement on the wire",
        damaged: "damaged on the wire",
    });
    const ORDER = Object.keys(WHYS);
    const REQ = 0x11, CON = 0x2e;
    /** Bit 0 of control 1 of a confirmation: the frame was not sent. */
    const FAILED = 1;

    // A frame as the USB interface would hand it up, of one as on the wire: control, source, destination, address type with hop count and
    // length, the TPDU, a sum over all that makes FFh.
    /** @param {Uint8Array} wire @returns {Uint8Array | "signal" | "damaged"} */
    function offTheWire(wire) {
        if (wire.length < 7) return wire.length === 1 ? "signal" : "damaged";
        if (wire.reduce((sum, byte) => sum ^ byte, 0) !== 0xff) return "damaged";
        return Uint8Array.from([INDICATION, 0, wire[0], wire[5] & 0xf0, ...wire.subarray(1, 5), wire[5] & 15, ...wire.subarray(6, -1)]);
    }

    // What of a frame tells it from others that are sent: control 2, destination and TPDU. A request to send has no source yet.
    /** @param {Uint8Array} frame */
    function content(frame) {
        const at = 2 + frame[1] + 1;
        return frame.length < 2 || frame.length < at + 3 ? null : hex([frame[at], ...frame.subarray(at + 3)]);
    }

    // The frames that reached the bus, each once: a confirmation stands for the request to send, which may lack its source.
    /** @param {Recorded[]} recorded @returns {Sent[]} */
    function sent(recorded) {
        /** @type {(Uint8Array | NoEvent)[]} */
        const all = [];
        /** @type {Map<string, number[]>} */
        const waiting = new Map();
        for (const [i, r] of recorded.entries()) {
            if (Gaps.damaged(r.status) || r.wire) {
                all.push(Gaps.damaged(r.status) ? "damaged" : offTheWire(r.bytes));
                continue;
            }
            const code = r.bytes[0], told = code === REQ || code === CON ? content(r.bytes) : null;
            all.push(r.bytes);
            if (told === null) continue;
            const asked = waiting.get(told) ?? [];
            waiting.set(told, asked);
            if (code === REQ) {
                asked.push(i);
                continue;
            }
            const control = 2 + r.bytes[1], failed = (r.bytes[control] & FAILED) !== 0, request = asked.shift();
            if (request !== undefined) all[request] = failed ? "unsent" : "confirmed";
            const indication = r.bytes.slice();
            // bit 5 is the sender's wish there, and tells no repetition
            indication[0] = INDICATION;
            indication[control] |= FIRST_SENT;
            all[i] = failed ? "unsent" : indication;
        }
        return all.map(one => (one instanceof Uint8Array ? { bytes: one, f: archive.readFrame(one) } : { why: one }));
    }

    // The events of a recording for the device with this sheet, which must be accepted. Data that the device did not acknowledge is an
    // event, of which that is told; unless the rest of the recording does not fit to it, and does without it. If the rest fits with it
    // alone, the device took it, and the recording lacks its acknowledgement. Where gaps are told, what fits shows no more than that it
    // may be so.
    /** @param {Recording} recording @param {Uint8Array} sheet @returns {Made} */
    function fromFrames(recording, sheet) {
        const frames = sent(recording.frames), { made, evidence, unacknowledged } = heard(recording, frames, sheet, new Set());
        if (!evidence.device || !unacknowledged.size) return made;
        const other = heard(recording, frames, sheet, unacknowledged), fits = evidence.fits(), otherFits = other.evidence.fits();
        if (!fits && otherFits && !evidence.gaps.length) return other.made;
        const last = recording.frames[recording.frames.length - 1];
        if (fits && !otherFits) evidence.loss({ behind: made.events.length, line: last ? last.line : 0 }, "no-acknowledgement");
        return made;
    }

    // The events without data in these frames, and the frames of data that was not acknowledged.
    /** @param {Recording} recording @param {Sent[]} frames @param {Uint8Array} sheet @param {Set<number>} untaken */
    function heard(recording, frames, sheet, untaken) {
        const device = new Hearing(sheet, recording, frames, untaken);
        /** @type {Made} */
        const made = { events: [], frames: frames.length, left: new Map(), evidence: null };
        for (let i = 0; i < frames.length; i++) {
            const heard = device.hear(i);
            if ("event" in heard) made.events.push([heard.event, heard.known]);
            else made.left.set(heard.why, (made.left.get(heard.why) ?? 0) + 1);
        }
        const unacknowledged = device.unacknowledged(), evidence = device.finish();
        made.evidence = evidence;
        return { made, evidence, unacknowledged };
    }

    // ---- traces ----

    /** @param {Made} made @returns {MadePart[]} */
    function parts(made) {
        const lengths = Events.lengths(made.events.map(([event]) => event));
        let from = 0;
        return lengths.map((length, i) => {
            const mine = made.events.slice(from, from + length), events = mine.map(([event]) => event), known = mine.map(of => of[1]), bytes = traceOf(events);
            const evidence = made.evidence && made.evidence.part(from, from + length, i + 1 === lengths.length);
            from += length;
            return { bytes, events, known, times: Times.write(bytes, known), evidence, side: evidence && evidence.write(bytes) };
        });
    }

    // The names of so many traces: the name that was given, or with a number before its ending.
    /** @param {string} name @param {number} parts */
    function names(name, parts) {
        if (parts === 1) return [name];
        const file = name.lastIndexOf("/") + 1, dot = name.slice(file).lastIndexOf("."), at = dot > 0 ? file + dot : name.length;
        return places(1, parts).map(part => `${name.slice(0, at)}-${String(part).padStart(String(parts).length, "0")}${name.slice(at)}`);
    }

    // What was made, and what was left out.
    /** @param {Made} made @param {MadePart[]} parts @param {string[]} names */
    function text(made, parts, names) {
        const rank = (/** @type {NoEvent} */ why) => (typeof why === "number" ? why : 256 + ORDER.indexOf(why));
        const words = (/** @type {NoEvent} */ why) => (typeof why !== "number" ? WHYS[why] : `${why === ITSELF ? Sentences.ITSELF : Words.outcome(why)} (${why})`);
        const beside = (/** @type {MadePart} */ p) => (p.times ? (p.side ? ", its times and its evidence" : ", and its times") : p.side ? ", and its evidence" : "");
        const left = [...made.left].sort((a, b) => rank(a[0]) - rank(b[0]));
        return [
            ...parts.map((part, i) => `${names[i]}: ${many(part.events.length, "event")}${beside(part)}`),
            ...(made.frames ? [`left out: ${left.reduce((sum, of) => sum + of[1], 0)} of ${many(made.frames, "frame")}`] : []),
            ...left.map(([why, frames]) => `${String(frames).padStart(6)}  ${words(why)}`),
            ...(made.evidence ? Sentences.shows(made.evidence) : []),
        ].map(plain);
    }

    return { sent, fromFrames, parts, names, text };
})();
