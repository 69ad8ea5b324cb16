// What an account can't know (tools/trace/src/doubts.rs): of an event that gave a byte, by what the recording shows and lacks.

/** @typedef {Gap | Loss} Cause why frames are missing */
/**
 * A doubt about an account. Events are told by their numbers.
 * @typedef {{ doubt: "not acknowledged", of: number, taken: Taken } | { doubt: "not answered" | "two of a number", of: number }
 *     | { doubt: "device not recorded" } | { doubt: "silence", of: number, seconds: number } | { doubt: "missing before" | "missing after", cause: Cause }
 *     | { doubt: "parted", parted: Parted } | { doubt: "times go back", at: At, times: number } | { doubt: "own address", own: Own } | { doubt: "ended", at: At }} Doubt
 *     ended: a disconnect under the device's address stands between the connect and the event: forged, or events are missing
 */
/**
 * The event that an account names: its number, those of the connect and the offer on which it rests, 0 for none; whether it is data on a
 * connection; or an answer to a group, which behind a gap may be the device's own, under an address that it got there.
 * @typedef {{ event: number, connect: number, offer: number, connected: boolean, answer: boolean }} Rests
 */

/** @param {Doubt} a @param {Doubt} b */
const sameDoubt = (a, b) => JSON.stringify(a) === JSON.stringify(b);

class Doubts {
    // The evidence of all traces, each behind those before it.
    /** @param {Trace[]} traces */
    constructor(traces) {
        /** @type {Evidence[]} */
        this.all = [];
        // For each trace that has evidence, so many events are before its first.
        /** @type {number[]} */
        this.from = [];
        let behind = 0;
        for (const { events, evidence } of traces) {
            if (evidence) {
                this.all.push(evidence.behind(behind));
                this.from.push(behind);
            }
            behind += events.length;
        }
        this.gaps = this.all.flatMap(e => e.gaps);
        this.losses = this.all.flatMap(e => e.losses);
        this.own = this.all.flatMap(e => e.own);
        this.forged = this.all.flatMap(e => e.forged);
    }

    // The evidence of an event's trace, and what is seen of the event.
    /** @param {number} event */
    seen(event) {
        const part = this.from.filter(from => from <= event - 1).length - 1;
        const seen = event > 0 && part >= 0 ? this.all[part].events[event - 1 - this.from[part]] : undefined;
        return seen ? { evidence: this.all[part], seen } : null;
    }

    // Doubts about whether the device took an event.
    /** @param {number} of @param {Doubt[]} out */
    taken(of, out) {
        const known = this.seen(of);
        if (!known) return;
        const { evidence: { device }, seen: { data, taken, answer, silence, twofold } } = known;
        if (taken !== "-" && taken !== "acknowledged") out.push({ doubt: "not acknowledged", of, taken });
        if (!data && answer === "absent" && device) out.push({ doubt: "not answered", of });
        if (!device && (data || answer === "absent")) out.push({ doubt: "device not recorded" });
        if (silence > 0 && taken !== "acknowledged") out.push({ doubt: "silence", of, seconds: silence });
        if (twofold && answer !== "same") out.push({ doubt: "two of a number", of });
    }

    // Whether an account rests on something before a gap that was told. A new key may have been written in it; only the device's own
    // answer shows which level an offer gave.
    /** @param {Rests} rests @param {number} gap */
    restsBefore({ connect, offer, connected, answer }, gap) {
        const offered = offer > 0 && (offer <= gap || this.seen(offer)?.seen.answer !== "same");
        return answer || (connected && (connect <= gap || offered));
    }

    // All doubts about what an event gave, of a place to which frames go under the device's own address, if it is one.
    /** @param {Rests} rests @param {number | null} group */
    about(rests, group) {
        /** @type {Doubt[]} */
        const out = [];
        this.taken(rests.event, out);
        if (rests.offer > 0) this.taken(rests.offer, out);
        const before = (/** @type {{ at: At }} */ of) => of.at.behind < rests.event, after = (/** @type {{ at: At }} */ of) => !before(of);
        const missing = lastOf(this.gaps, g => before(g) && this.restsBefore(rests, g.at.behind)) ?? lastOf(this.losses, before);
        if (missing) out.push({ doubt: "missing before", cause: missing });
        const since = this.losses.find(after) ?? this.gaps.find(after);
        if (since) out.push({ doubt: "missing after", cause: since });
        out.push(...this.whole());
        const ended = lastOf(this.forged, f => f.what === "disconnect" && rests.connected && before(f) && f.at.behind >= rests.connect);
        if (ended) out.push({ doubt: "ended", at: ended.at });
        const own = group === null ? undefined : lastOf(this.own, own => own.group === group && after(own));
        if (own) out.push({ doubt: "own address", own });
        return out.filter((doubt, i) => i === 0 || !sameDoubt(doubt, out[i - 1]));
    }

    // A doubt about what stood somewhere before an event, as at first.
    /** @param {number} event @returns {Doubt[]} */
    before(event) {
        const gap = this.gaps.find(g => g.at.behind < event);
        return gap ? [{ doubt: "missing before", cause: gap }] : [];
    }

    // Doubts about what playing gives of an event, its outcome for one. What is missing in a gap that is told behind it does not matter;
    // where a sign was seen behind it, what is missing may be before it.
    /** @param {Rests} rests */
    outcome(rests) {
        return this.about(rests, null).filter(of => !(of.doubt === "missing after" && "why" in of.cause));
    }

    // Doubts about everything.
    /** @returns {Doubt[]} */
    whole() {
        const parted = this.all.find(e => e.parted)?.parted, back = this.all.find(e => e.back)?.back;
        return [...(parted ? [{ doubt: /** @type {const} */ ("parted"), parted }] : []), ...(back ? [{ doubt: /** @type {const} */ ("times go back"), ...back }] : [])];
    }

    // The last frame under the device's own address to a group, or to all by 0.
    /** @param {number} group */
    ownTo(group) {
        return lastOf(this.own, own => own.group === group);
    }

    // Whether it is that the recording does not fit together.
    /** @param {Doubt} of */
    static unfit(of) {
        return of.doubt === "parted" || of.doubt === "times go back" || ("cause" in of && "sign" in of.cause);
    }

    clean() {
        return this.all.every(e => e.clean());
    }
}
