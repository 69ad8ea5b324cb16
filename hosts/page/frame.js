// A frame of the USB interface in words, and words as a frame, in the language of the desk unit (docs/UNIT.md). The module reads and writes it.

/** @typedef {ReturnType<Proved["readFrame"]>} Frame */

/** The fields that are numbers: the word for each, and its name in the header. */
const FRAME_FIELDS = /** @type {const} */ ({ code: "code", c1: "control1", c2: "control2", source: "source", destination: "destination", transport: "transport" });
const FRAME_RUNS = ["info", "apdu"];
const FRAME_EVENTS = ["multicast", "broadcast", "connectionless", "connected", "connect", "disconnect"];

/**
 * A frame in words: its fields, and what it means. What has a key in it is shown or hidden.
 * @param {Frame} frame @param {boolean} [keys]
 */
function frameText(frame, keys = true) {
    const fields = Object.entries(FRAME_FIELDS).map(([word, name]) => `${word}=${frame[name]}`);
    const means = FRAME_EVENTS[frame.event] ?? String(frame.event);
    return [...fields, `info=${run(frame.info)}`, `tpdu=${!keys && hasKey(frame.tpdu) ? HIDDEN : run(frame.tpdu)}`, means, ...(frame.event === 0 ? [frame.destination] : [])].join(" ");
}

/**
 * The fields that words say.
 * @param {string[]} words
 */
function frameFields(words) {
    /** @type {Record<string, bigint>} */
    const fields = {};
    /** @type {Record<string, Uint8Array>} */
    const runs = {};
    const names = /** @type {Record<string, string>} */ (FRAME_FIELDS), all = [...Object.keys(names), ...FRAME_RUNS];
    for (const word of words) {
        const [name, text = ""] = word.split("=");
        if (!all.includes(name)) throw new Fault(`a frame has no field ${name}, but ${all.join(", ")}`);
        if (names[name] in fields || name in runs) throw new Fault(`${name} stands twice`);
        if (FRAME_RUNS.includes(name)) runs[name] = unhex(text);
        else fields[names[name]] = fieldOf(name, text);
    }
    const missing = all.filter(name => !(names[name] in fields) && !(name in runs));
    if (missing.length) throw new Fault(`a frame needs ${missing.join(", ")}`);
    return { fields, info: runs.info, apdu: runs.apdu };
}

/**
 * The frame that a person typed: in words, or hex digits as they are.
 * @param {Proved} proved @param {string} text
 */
function frameOf(proved, text) {
    if (!text.includes("=")) return unhex(text);
    const { fields, info, apdu } = frameFields(text.trim().split(/\s+/)), out = new Uint8Array(LONGEST_FRAME);
    const framed = proved.writeFrame(fields, info, apdu, out);
    if (framed.outcome !== 0) throw new Fault(outcomeText(framed.outcome));
    return out.slice(0, framed.count);
}
