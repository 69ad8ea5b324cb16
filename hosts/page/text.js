// A trace as text (tools/trace/src/text.rs): an event in the words of the proved program; and the events of such a text.

/** @typedef {{ time: string | null, from: number | null }} Known what is known of an event beside its bytes */

/** The words of a line up to a comment. */
class Line {
    /** @param {string} line */
    constructor(line) {
        this.words = wordsOf(line.split("#")[0]);
    }

    word() {
        return this.words.shift();
    }

    // A word such as name=value, if there is one more.
    /** @returns {[string, string] | null} */
    pair() {
        const word = this.word();
        if (word === undefined) return null;
        const at = word.indexOf("=");
        if (at < 0) throw new Fault(`"${short(word)}" is no field with its value`);
        return [word.slice(0, at), word.slice(at + 1)];
    }

    end() {
        const word = this.word();
        if (word !== undefined) throw new Fault(`"${short(word)}" is one word too many`);
    }
}

// What is thrown within a line, with the line's number before it.
/** @template T @param {number} line @param {() => T} read @returns {T} */
function inLine(line, read) {
    try {
        return read();
    } catch (error) {
        throw error instanceof Fault ? new Fault(`line ${line}: ${error.message}`) : error;
    }
}

const Texts = (() => {
    const END = "end", LONGEST_TIME = 40;

    // An event as the proved program writes it, a key in it hidden.
    /** @param {Happening} e */
    function event(e) {
        const { kind, mode, connection } = e;
        if (kind === CONNECT || kind === DISCONNECT) return `${kind === CONNECT ? "connect" : "disconnect"} connection=${connection}`;
        if (kind !== REQUEST) return `button ${switchText(kind === BUTTON_ON)}`;
        return `request mode=${mode} connection=${connection} group=${hex([e.group >> 8, e.group & 255])} apdu=${Words.secret(e.apdu) ? Words.HIDDEN : run(e.apdu)}`;
    }

    // An event for people: of a request to which group, and the PDU.
    /** @param {Happening} e */
    const meaning = e => (e.kind !== REQUEST ? event(e) : (e.mode === 0 ? `to ${groupText(e.group)}: ` : "") + Words.pdu(e.apdu));

    // An individual address, such as 1.1.250.
    /** @param {string} word */
    function address(word) {
        const parts = word.split(".").map(Number), value = (parts[0] << 12) | (parts[1] << 8) | parts[2];
        if (parts.length === 3 && value >= 0 && value < 65536 && individualText(value) === word) return value;
        throw new Fault(`no individual address, as 1.1.250: "${short(word)}"`);
    }

    // A time, in whatever form it was recorded: a word of letters, digits and marks.
    /** @param {string} word */
    function time(word) {
        if (word.length <= LONGEST_TIME && /^[A-Za-z0-9\-:.+/,]+$/.test(word)) return word;
        throw new Fault(`no time: "${short(word)}"`);
    }

    // The bytes of hex digits, or where the first is that is none, from 0.
    /** @param {string} digits @returns {Uint8Array | number} */
    function bytes(digits) {
        const wrong = digits.search(/[^0-9a-fA-F]/);
        return wrong >= 0 ? wrong : digits.length % 2 ? digits.length : Uint8Array.from(digits.match(/../g) ?? [], two => parseInt(two, 16));
    }

    /** @param {string} field @param {string} word @param {number} most */
    function upTo(field, word, most) {
        if (/^[0-9]+$/.test(word) && Number(word) <= most) return Number(word);
        throw new Fault(`${field} is "${short(word)}", not 0 to ${most}`);
    }

    // A group address in four hex digits.
    /** @param {string} word */
    function group(word) {
        if (/^[0-9a-fA-F]{4}$/.test(word)) return parseInt(word, 16);
        throw new Fault(`group is not 4 hex digits: "${short(word)}"`);
    }

    /** @param {string} word */
    function apdu(word) {
        if (word === "-") return new Uint8Array(0);
        if (word === Words.HIDDEN) throw new Fault("apdu is hidden, for it has a key: show the trace with --keys");
        const read = bytes(word);
        if (typeof read === "number") throw new Fault(`apdu is not bytes in hex: "${short(word)}"`);
        if (read.length === 0 || read.length > 255) throw new Fault(`apdu has ${read.length} bytes, not 1 to 255, or - for none`);
        return read;
    }

    // The kind of an event, by its first words.
    /** @param {string} first @param {Line} words */
    function kindOf(first, words) {
        const kind = ["request", "connect", "disconnect"].indexOf(first);
        if (kind >= 0) return kind;
        if (first !== "button") throw new Fault(`"${short(first)}" is no request, connect, disconnect or button`);
        const word = words.word();
        if (word === undefined) throw new Fault("button is on or off, and neither is said");
        if (word !== "on" && word !== "off") throw new Fault(`button is on or off: "${short(word)}"`);
        return word === "on" ? BUTTON_ON : BUTTON_OFF;
    }

    // An event and what is known of it, from its line behind the number.
    /** @param {string} first @param {Line} words @returns {[Happening, Known]} */
    function lineEvent(first, words) {
        const kind = kindOf(first, words), known = Times.nothing();
        /** @type {Record<string, (word: string) => number | Uint8Array>} */
        const fields = { mode: word => upTo("mode", word, 15), connection: word => upTo("connection", word, 15), group };
        if (kind === REQUEST) fields.apdu = apdu;
        /** @type {Record<string, number | Uint8Array | undefined>} */
        const said = {};
        for (let pair = words.pair(); pair; pair = words.pair()) {
            const [field, value] = pair;
            if (Object.keys(fields).includes(field)) {
                const read = fields[field](value);
                if (said[field] !== undefined) throw new Fault(`${field} is given twice`);
                said[field] = read;
            } else if (!Times.take(known, field, value)) throw new Fault(`"${short(field)}" is no field of a ${first}`);
        }
        const asked = kind === CONNECT || kind === DISCONNECT || (kind === REQUEST && said.mode === CONNECTED);
        const due = [kind === REQUEST && "mode", kind === REQUEST && said.mode === 0 && "group", asked && "connection", kind === REQUEST && "apdu"];
        for (const field of due) if (field && said[field] === undefined) throw new Fault(`${field} of the ${first} is missing`);
        const n = (/** @type {string} */ field) => /** @type {number} */ (said[field] ?? 0);
        return [{ kind, mode: n("mode"), connection: n("connection"), group: n("group"), apdu: /** @type {Uint8Array} */ (said.apdu ?? new Uint8Array(0)) }, known];
    }

    // The events of a text, each with what is known of it. A number before an event must be the right one.
    /** @param {string} text */
    function events(text) {
        /** @type {[Happening, Known][]} */
        const all = [];
        let ended = false, last = 1;
        for (const [i, line] of linesOf(text).entries()) {
            last = i + 1;
            inLine(last, () => {
                const words = new Line(line);
                let first = words.word();
                if (first === undefined) return;
                if (ended) throw new Fault(`"${short(first)}" stands behind the ${END}`);
                if (first === END) {
                    ended = true;
                    return words.end();
                }
                if (/^[0-9]+$/.test(first)) {
                    const due = all.length + 1;
                    if (Number(first) !== due) throw new Fault(`event "${short(first)}" stands where ${due} is due`);
                    first = words.word();
                    if (first === undefined) throw new Fault(`event ${due} is not said`);
                }
                if (all.length === Recordings.MOST) throw new Fault(`more than ${Recordings.MOST} events`);
                all.push(lineEvent(first, words));
            });
        }
        if (!ended) throw new Fault(`line ${last}: ${END} is missing as the last line: the text may have been cut off`);
        return all;
    }

    return { event, meaning, address, time, bytes, group, events };
})();
