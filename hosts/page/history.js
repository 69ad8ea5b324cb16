// The history of each place (tools/trace/src/history.rs): every event that changed it, with what stood there before and after.

/** @typedef {{ event: number, at: number, old: Uint8Array, now: Uint8Array }} Delta a run of bytes that an event changed */
/** @typedef {{ event: number, old: Uint8Array, now: Uint8Array }} PlaceStep */

class Histories {
    /** @type {Delta[]} */
    deltas = [];

    // What an event changed.
    /** @param {number} event @param {Uint8Array} before @param {Uint8Array} after */
    note(event, before, after) {
        const [was, is] = [inFours(before), inFours(after)];
        for (let at = 0; at < before.length; at++) {
            // four bytes at a time, where they are the same
            if ((at & 3) === 0 && was && is && was[at >> 2] === is[at >> 2] && at + 4 <= before.length) {
                at += 3;
                continue;
            }
            const from = at;
            while (at < before.length && before[at] !== after[at]) at++;
            if (at > from) this.deltas.push({ event, at: from, old: before.slice(from, at), now: after.slice(from, at) });
        }
    }

    // The changes of a run of bytes, whose first content is given, in order.
    /** @param {number} at @param {Uint8Array} first */
    steps(at, first) {
        /** @type {PlaceStep[]} */
        const steps = [];
        let now = first;
        for (const delta of this.deltas) {
            if (delta.at >= at + first.length || delta.at + delta.now.length <= at) continue;
            const old = now;
            now = now.slice();
            for (const [i, byte] of delta.now.entries()) if (delta.at + i >= at && delta.at + i < at + first.length) now[delta.at + i - at] = byte;
            const last = steps[steps.length - 1];
            if (last && last.event === delta.event) last.now = now;
            else steps.push({ event: delta.event, old, now });
        }
        return steps;
    }
}
