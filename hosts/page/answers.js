// The answers that are due by playing, and those that the recording has (tools/trace/src/answers.rs): the same, another, once more, or
// one that no event asked for.

/** @typedef {{ to: string, number: number, event: number, apdu: Uint8Array }} Due */
/** @typedef {{ is: "same" | "other", event: number } | { is: "again" | "unasked" }} Compared */

class Answers {
    /** So many answers that are on no connection are waited for: requests without one go to many devices. */
    static MOST = 64;
    /** @type {Map<number, Due[]>} */
    connected = new Map();
    // The last that was recorded on each connection.
    /** @type {Map<number, { number: number, apdu: Uint8Array }>} */
    last = new Map();
    /** @type {Due[]} */
    loose = [];

    // To whom an answer goes: a group, or all by 0.
    /** @param {number} address */
    static toOne = address => `one ${address}`;
    /** @param {number} group */
    static toGroup = group => `group ${group}`;

    // The bits of an APDU that are no transport's.
    /** @param {Uint8Array} a @param {Uint8Array} b */
    static same(a, b) {
        return a.length === b.length && a.every((byte, i) => (i ? byte === b[i] : (byte & 3) === (b[0] & 3)));
    }

    // An answer is due to the partner of a connection, with a number.
    /** @param {number} partner @param {number} number @param {number} event @param {Uint8Array} apdu */
    dueOn(partner, number, event, apdu) {
        if (!this.connected.has(partner)) this.connected.set(partner, []);
        this.connected.get(partner)?.push({ to: "", number, event, apdu });
    }

    // An answer is due on no connection.
    /** @param {string} to @param {number} event @param {Uint8Array} apdu */
    due(to, event, apdu) {
        this.loose.push({ to, number: 0, event, apdu });
        if (this.loose.length > Answers.MOST) this.loose.shift();
    }

    // A connection ends or begins anew: the events whose answers have not come.
    /** @param {number} partner */
    ends(partner) {
        const due = this.connected.get(partner) ?? [];
        this.last.delete(partner);
        this.connected.delete(partner);
        return due.map(of => of.event);
    }

    // The events whose answers on connections have not come.
    missing() {
        return [...this.connected.values()].flat().map(due => due.event).sort((a, b) => a - b);
    }

    // An answer on a connection, and the events before it whose answers are missing.
    /** @param {number} partner @param {number} number @param {Uint8Array} apdu @returns {[Compared, number[]]} */
    on(partner, number, apdu) {
        const due = this.connected.get(partner) ?? [], at = due.findIndex(of => of.number === number), last = this.last.get(partner);
        if (at < 0) return [{ is: last && last.number === number && Answers.same(last.apdu, apdu) ? "again" : "unasked" }, []];
        const passed = due.splice(0, at + 1), of = passed[at];
        this.last.set(partner, { number, apdu });
        return [{ is: Answers.same(of.apdu, apdu) ? "same" : "other", event: of.event }, passed.slice(0, at).map(one => one.event)];
    }

    // An answer on no connection. Where several are due to one, that which is the same, else another; of several the last, since a device
    // answers at once.
    /** @param {string} to @param {Uint8Array} apdu @returns {Compared} */
    onNone(to, apdu) {
        const exact = lastOf(this.loose, due => due.to === to && Answers.same(due.apdu, apdu)), found = exact ?? lastOf(this.loose, due => due.to === to);
        if (!found) return { is: "unasked" };
        this.loose.splice(this.loose.indexOf(found), 1);
        return { is: exact ? "same" : "other", event: found.event };
    }
}
