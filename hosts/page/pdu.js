// A PDU in words, and words as a PDU, in the language of the desk unit (docs/UNIT.md). The module reads and writes it.

/** The fields of each kind, by its number. */
const FIELDS = ["", "v data", "v data", "address", "", "serial", "serial address", "t", "object id n s", "object id n s data",
    "object id index", "n address", "n address data", "n address and xor", "key", "level key", "", "", "serial domain", "t data",
    "object id n s data", "object id index type maximum access", "n address data", "level", "level", "n address",
    "n address data", "n address data"].map(names => names.split(" ").filter(Boolean));
/** Fields in hex, with so many digits. */
const DIGITS = /** @type {Record<string, number>} */ ({ serial: 12, key: 8 });
const RUNS = ["data", "and", "xor"];
const HIDDEN = "••••••••";

/**
 * A PDU in words: its kind and its fields. A key is shown or hidden.
 * @param {FlatPdu} pdu @param {boolean} [keys] @param {string} [hidden]
 */
function pduText(pdu, keys = true, hidden = HIDDEN) {
    const half = pdu.data.length / 2;
    const runs = /** @type {Record<string, Uint8Array>} */ ({ data: pdu.data, and: pdu.data.slice(0, half), xor: pdu.data.slice(half) });
    const value = (/** @type {string} */ name) => {
        if (RUNS.includes(name)) return run(runs[name]);
        if (name === "key" && !keys && pdu.fields.key !== 0xffffffff) return hidden;
        return DIGITS[name] ? pdu.fields[name].toString(16).padStart(DIGITS[name], "0") : String(pdu.fields[name]);
    };
    return [MADE.kinds[pdu.kind], ...FIELDS[pdu.kind].map(name => `${name}=${value(name)}`)].join(" ");
}

// Whether an APDU offers or sets a key, whole or cut, and not the public one: FFFFFFFFh hides nothing.
/** @param {Uint8Array} apdu */
function hasKey(apdu) {
    const code = ((apdu[0] & 3) << 8) | apdu[1];
    return apdu.length > 2 && (code === 0x3d1 || code === 0x3d3) && !(apdu.length === 7 && number(apdu, 3, 4) === 0xffffffff);
}

// An APDU in words, or by its bytes if it is no PDU.
/** @param {Proved} proved @param {Uint8Array} apdu @param {boolean} [keys] */
function apduText(proved, apdu, keys = true) {
    const pdu = proved.readPdu(apdu);
    return pdu.outcome === 0 ? pduText(pdu, keys) : `${!keys && hasKey(apdu) ? HIDDEN : run(apdu)}, ${outcomeText(pdu.outcome)}`;
}

/** @param {number} outcome */
const outcomeText = outcome => `${MADE.outcomes[outcome] ?? "no outcome"} (${outcome})`;

/**
 * The value of a field as typed: decimal, or hex digits with an h; serial and key are hex.
 * @param {string} name @param {string} text
 */
function fieldOf(name, text) {
    if (DIGITS[name]) {
        if (!new RegExp(`^[0-9a-f]{${DIGITS[name]}}$`, "i").test(text)) throw new Fault(`${name} has ${DIGITS[name]} hex digits`);
        return BigInt("0x" + text);
    }
    if (/^[0-9]+$/.test(text)) return BigInt(text);
    if (/^[0-9a-f]+h$/i.test(text)) return BigInt("0x" + text.slice(0, -1));
    throw new Fault(`${name}=${text} is no number`);
}

/**
 * The PDU that words say: its kind, its fields and its data.
 * @param {string[]} words
 */
function pduOf(words) {
    const kind = MADE.kinds.indexOf(words[0]), names = FIELDS[kind];
    /** @type {Record<string, bigint>} */
    const fields = {};
    /** @type {Record<string, Uint8Array>} */
    const runs = {};
    for (const word of words.slice(1)) {
        const [name, text = ""] = word.split("=");
        if (!names.includes(name)) throw new Fault(`${words[0]} has no field ${name}${names.length ? `, but ${names.join(", ")}` : ""}`);
        if (name in fields || name in runs) throw new Fault(`${name} stands twice`);
        if (RUNS.includes(name)) runs[name] = unhex(text);
        else fields[name] = fieldOf(name, text);
    }
    const missing = names.filter(name => !(name in fields) && !(name in runs));
    if (missing.length) throw new Fault(`${words[0]} needs ${missing.join(", ")}`);
    if (runs.and && runs.and.length !== runs.xor.length) throw new Fault("and and xor are of unequal length");
    const data = runs.and ? [...runs.and, ...runs.xor] : runs.data || [];
    return { kind, fields, data: Uint8Array.from(data) };
}

/**
 * The APDU that a person typed: a PDU in words, or hex digits as they are.
 * @param {Proved} proved @param {string} text
 */
function apduOf(proved, text) {
    const words = text.trim().split(/\s+/);
    if (!MADE.kinds.includes(words[0])) {
        if (/^[a-z_]{3,}/.test(words[0]) && /[g-z_]/.test(words[0])) throw new Fault(`there is no request “${words[0]}”`);
        return unhex(text);
    }
    const { kind, fields, data } = pduOf(words), out = new Uint8Array(ANSWER);
    const written = proved.writePdu(kind, fields, data, out);
    if (written.outcome !== 0) throw new Fault(outcomeText(written.outcome));
    return out.slice(0, written.count);
}
