// A trace's bytes and its events (tools/trace/src/events.rs). Whether a trace is good the module says; where it is not is looked for here.

const Events = (() => {
    const ENTRY = 8, LAST_START = 65535, LONGEST = LAST_START + 255;

    // The connection whose rights count: that of a request in mode 3.
    /** @param {Happening} e */
    const rights = e => (e.kind === REQUEST && e.mode === CONNECTED && e.connection < CONNECTIONS ? e.connection : null);

    // The events of a trace, or a fault that says why it is refused and where.
    /** @param {Uint8Array} trace */
    function read(trace) {
        const refusal = archive.traceCheck(trace);
        if (refusal !== 0) throw new Fault(`${refusal}: ${Words.outcome(refusal)}: ${place(trace, refusal)}`);
        return eventsOf(trace);
    }

    // Where a refused trace is wrong.
    /** @param {Uint8Array} t @param {number} refusal */
    function place(t, refusal) {
        if (refusal === 50) return `offset 0: ${many(t.length, "byte")}`;
        const n = number(t, 0, 2);
        let end = 2 + ENTRY * n;
        if (refusal === 51) return `offset 0: ${n} events, more than ${MOST_EVENTS}`;
        if (refusal === 52) return `offset 2: the table ends at ${end}, the trace at ${t.length}`;
        for (let k = 0; k < n; k++) {
            const from = 2 + ENTRY * k, e = t.subarray(from, from + ENTRY), at = number(e, 4, 2), length = e[6];
            const wrong = (/** @type {number} */ field, /** @type {string} */ what) => `offset ${from + field}: event ${k + 1}, ${what}`;
            if (refusal === 53 && e[0] > BUTTON_OFF) return wrong(0, `kind ${e[0]}`);
            if (refusal === 54 && length > 0 && e[0] !== REQUEST) return wrong(6, `a length of ${length} and no request`);
            if (refusal === 55 && e[7] !== 0) return wrong(7, `the last byte is ${e[7]}`);
            if (refusal === 56 && at !== end) return wrong(4, `its APDU begins at ${at}, what is before it ends at ${end}`);
            if (refusal === 57 && end + length > t.length) return wrong(6, `its APDU ends at ${end + length}, the trace at ${t.length}`);
            end += length;
        }
        return `offset ${end}: ${t.length > LONGEST ? "at least " : ""}${many(t.length - end, "byte")} left over`;
    }

    // The lengths of the traces that events make up, one after the other; no events are one trace too.
    /** @param {Happening[]} events */
    function lengths(events) {
        const all = [0];
        let bytes = 0;
        for (const e of events) {
            const n = all[all.length - 1];
            if (n === MOST_EVENTS || 2 + ENTRY * (n + 1) + bytes > LAST_START) {
                all.push(0);
                bytes = 0;
            }
            all[all.length - 1]++;
            bytes += e.apdu.length;
        }
        return all;
    }

    return { LONGEST, rights, read, lengths };
})();
