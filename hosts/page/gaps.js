// Gaps that the recorder itself tells (tools/trace/src/gaps.rs): a recording that was stopped, a connection to the bus that was not
// there, and what a bus monitor says in its status: frames that were lost, by its flag or its counter, and frames that it could not read.

/** @typedef {{ why: "stopped", from: string | null, to: string | null } | { why: "unconnected" | "lost" | "unreadable" } | { why: "counted", frames: number }} GapWhy */
/** @typedef {{ before: number, line: number, gap: GapWhy }} Note a gap that the recorder tells, before the frame of this index */

const Gaps = (() => {
    /** The bits of a bus monitor's status: errors of frame, bit and parity; frames lost; a counter, which has only three bits. */
    const ERRORS = 0xe0, LOST = 0x08, COUNTER = 0x07;

    // Whether the status says that the frame itself was not received as it was sent.
    /** @param {number | null} status */
    const damaged = status => status !== null && (status & ERRORS) !== 0;

    // The gaps of which the status of frames tells. A counter that never moves counts nothing.
    /** @param {Recorded[]} frames */
    function byStatus(frames) {
        const counts = new Set(frames.flatMap(f => (f.status === null ? [] : [f.status & COUNTER]))).size > 1;
        /** @type {Note[]} */
        const notes = [];
        let last = -1;
        for (const [before, { status, line }] of frames.entries()) {
            if (status === null) continue;
            const missed = last < 0 ? 0 : (status - last - 1) & COUNTER;
            if (status & LOST) notes.push({ before, line, gap: { why: "lost" } });
            else if (counts && missed) notes.push({ before, line, gap: { why: "counted", frames: missed } });
            last = status & COUNTER;
        }
        return notes;
    }

    return { damaged, byStatus };
})();
