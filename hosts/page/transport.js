// Whose turn it is on a connection (tools/trace/src/transport.rs): the sequence number that is next, data that waits for the device's
// acknowledgement, and whether an acknowledgement is of something that was recorded. By the partner's address, for what a connection
// was is still acknowledged when a Restart has closed it.

/** @typedef {{ number: number, event: number, copies: number }} Waiting */
/** @typedef {"again" | "odd" | "nothing" | { event: number, before: number[] }} AcknowledgementOf what an acknowledgement of the device is of: an event, and those before it that had none, which it took too */

/** A partner's connection. */
class PartnerLine {
    next = 0;
    // The data before it, if there is any; and a number of data that was not taken.
    /** @type {string | null} */
    data = null;
    /** @type {number | null} */
    untaken = null;
    /** @type {Waiting[]} */
    waiting = [];
    // The number that was acknowledged last, and how often it was sent beyond that.
    /** @type {{ number: number, copies: number } | null} */
    last = null;
    /** Numbers of data out of turn, and of the answers that were due, a bit for each; the next of these. */
    odd = 0;
    answers = 0;
    answer = 0;
    /** The device ended it, or turned it away, and its partner may not have heard. */
    ended = false;
    // A disconnect of the device is due to it, since this frame.
    /** @type {number | null} */
    owed = null;

    /** @param {number} number @returns {AcknowledgementOf} */
    ofOdd(number) {
        if (!(this.odd & (1 << number))) return "nothing";
        this.odd &= ~(1 << number);
        return "odd";
    }
}

class Transport {
    /** So many frames behind what it is due to stands what a device sends at once. */
    static AT_ONCE = 12;
    /** @type {Map<number, PartnerLine>} */
    lines = new Map();

    /** @param {number} partner */
    line(partner) {
        let line = this.lines.get(partner);
        if (!line) this.lines.set(partner, line = new PartnerLine());
        return line;
    }

    // A connect, a second one too: numbers begin at 0. What waited is acknowledged no more.
    /** @param {number} partner */
    connects(partner) {
        this.lines.set(partner, new PartnerLine());
    }

    // Somebody is turned away: a disconnect of the device is due.
    /** @param {number} partner @param {number} frame */
    turnsAway(partner, frame) {
        this.cutOff(partner, frame);
        this.line(partner).waiting = [];
    }

    // A frame of a partner: no disconnect is due any more to what it sent before.
    /** @param {number} partner */
    sends(partner) {
        this.line(partner).owed = null;
    }

    // Whether a disconnect of the device is due, which is this one: it comes at once, with few frames of others between.
    /** @param {number} partner @param {number} frame */
    owed(partner, frame) {
        const line = this.line(partner), since = line.owed;
        line.owed = null;
        return since !== null && frame - since <= Transport.AT_ONCE;
    }

    // The device ended a connection: the events that it had not acknowledged.
    /** @param {number} partner */
    ends(partner) {
        const line = this.line(partner);
        line.ended = true;
        return line.waiting.splice(0).map(w => w.event);
    }

    // A partner ends its connection: nothing that it sent is acknowledged any more.
    /** @param {number} partner */
    leaves(partner) {
        Object.assign(this.line(partner), { waiting: [], last: null, odd: 0 });
    }

    // A Restart closes a connection; what its partner sent is acknowledged yet.
    /** @param {number} partner @param {number} frame */
    cutOff(partner, frame) {
        Object.assign(this.line(partner), { ended: true, owed: frame });
    }

    // Whether a partner may not know yet that it has no connection.
    /** @param {number} partner */
    ended(partner) {
        return this.lines.get(partner)?.ended ?? false;
    }

    // Whether a number is the next; the one before, with the same data: the partner has no acknowledgement yet; or another one, or the
    // one before with other data.
    /** @param {number} partner @param {number} number @param {Uint8Array} data */
    turn(partner, number, data) {
        const line = this.line(partner);
        if (number === line.next) return "next";
        const before = ((number + 1) & 15) === line.next;
        if (before && (line.data === null || line.data === hex(data))) return "again";
        // an acknowledgement to come may be of either
        if (before) line.waiting = line.waiting.filter(w => w.number !== number);
        return "out";
    }

    // Data in turn, which is an event; whether other data had its number, and was not taken.
    /** @param {number} partner @param {number} number @param {number} event @param {Uint8Array} data */
    takes(partner, number, event, data) {
        const line = this.line(partner), untaken = line.untaken;
        Object.assign(line, { next: (number + 1) & 15, data: hex(data), untaken: null });
        line.waiting.push({ number, event, copies: 1 });
        return untaken === number;
    }

    // Data in turn that was not taken.
    /** @param {number} partner @param {number} number */
    passes(partner, number) {
        this.line(partner).untaken = number;
        this.odd(partner, number);
    }

    // The same once more.
    /** @param {number} partner @param {number} number */
    again(partner, number) {
        const line = this.line(partner), waits = line.waiting.find(w => w.number === number);
        if (waits) waits.copies++;
        else if (line.last?.number === number) line.last.copies++;
        // a device acknowledges the number before the first too
        else line.last = { number, copies: 1 };
    }

    // Data that is no event.
    /** @param {number} partner @param {number} number */
    odd(partner, number) {
        this.line(partner).odd |= 1 << number;
    }

    // T_ACK of the device.
    /** @param {number} partner @param {number} number @returns {AcknowledgementOf} */
    acknowledged(partner, number) {
        const line = this.line(partner), at = line.waiting.findIndex(w => w.number === number);
        if (at >= 0) {
            const taken = line.waiting.splice(0, at + 1), { event, copies } = taken[at];
            line.last = { number, copies: copies - 1 };
            return { event, before: taken.slice(0, at).map(w => w.event) };
        }
        if (line.last?.number === number && line.last.copies > 0) {
            line.last.copies--;
            return "again";
        }
        return line.ofOdd(number);
    }

    // T_NAK of the device: the data still waits, for it may be sent once more.
    /** @param {number} partner @param {number} number @returns {AcknowledgementOf} */
    refused(partner, number) {
        const line = this.line(partner), waits = line.waiting.find(w => w.number === number);
        return waits ? { event: waits.event, before: [] } : line.ofOdd(number);
    }

    // An answer shows that an event was taken: it waits no more, nor do those before it, which were taken too.
    /** @param {number} partner @param {number} event */
    answered(partner, event) {
        const line = this.line(partner);
        return line.waiting.splice(0, line.waiting.findIndex(w => w.event === event) + 1).map(w => w.event);
    }

    // An answer is due on the connection: its number.
    /** @param {number} partner */
    answers(partner) {
        const line = this.line(partner), number = line.answer;
        line.answer = (number + 1) & 15;
        line.answers |= 1 << number;
        return number;
    }

    // Whether an answer of this number was due, which the partner acknowledges.
    /** @param {number} partner @param {number} number */
    wasDue(partner, number) {
        return ((this.lines.get(partner)?.answers ?? 0) & (1 << number)) !== 0;
    }

    // Whether data waits that has this number, and which number is next.
    /** @param {number} partner @param {number} number */
    waits(partner, number) {
        return this.lines.get(partner)?.waiting.some(w => w.number === number) ?? false;
    }

    /** @param {number} partner */
    next(partner) {
        return this.lines.get(partner)?.next ?? 0;
    }
}
