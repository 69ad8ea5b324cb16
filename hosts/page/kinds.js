// What a file is, by its bytes (tools/sheet/src/kinds.rs), as the tools tell it of one that is not what they want.

const Kinds = (() => {
    const NAMES = /** @type {const} */ ({ sheet: "a sheet", store: "a store of versions", trace: "a trace", "sheet text": "the text of a sheet", "trace text": "the text of a trace",
        times: "the side file of a trace", ets: "a recording of ETS", knxtool: "a recording of knxtool", hex: "a recording in hex", "sheet hex": "a sheet in hex digits",
        list: "a list of bytes for C", json: "JSON", archive: "an archive", program: "a program", text: "a text" });
    /** @typedef {keyof typeof NAMES} ToolKind */
    /** So many bytes are looked at. */
    const MOST = 1 << 17;

    // The line that says so, of a file that can't be what is wanted; none if nobody can tell, or it is of that kind and has a fault.
    /** @param {Uint8Array} bytes @param {ToolKind} wanted */
    function other(bytes, wanted) {
        const is = of(bytes);
        return is && is !== wanted ? `this is ${NAMES[is]}, and ${NAMES[wanted]} is wanted` : null;
    }

    /** @param {Uint8Array} bytes @returns {ToolKind | null} */
    function of(bytes) {
        const head = bytes.subarray(0, MOST);
        if (!head.length) return null;
        try {
            // the last character may have been cut off
            const text = new TextDecoder("utf-8", { fatal: true, ignoreBOM: true }).decode(head, { stream: true });
            return /(?!\p{White_Space})\p{Cc}/u.test(text) ? ofBytes(head) : ofText(text.replace(/^\ufeff+/, ""));
        } catch {
            return ofBytes(head);
        }
    }

    /** @param {Uint8Array} b @returns {ToolKind | null} */
    function ofBytes(b) {
        const begins = (/** @type {string} */ digits) => hex(b.subarray(0, digits.length / 2)) === digits;
        if (begins("504b0304") || begins("1f8b") || begins("213c617263683e0a")) return "archive";
        if (begins("7f454c46")) return "program";
        if ([0, OLD].includes(archive.check(b))) return "sheet";
        // one to which no number was given is nothing but zeros in front
        if (b.length >= 8 && archive.storeCheck(b) === 0 && number(b, 2, 2) > 0) return "store";
        if (isTrace(b)) return "trace";
        // one that breaks a rule
        return b.length >= HEAD && (b[0] === 1 || b[0] === 2) && number(b, 4, 2) === b.length ? "sheet" : null;
    }

    // Whether the places that a trace states are where they must be.
    /** @param {Uint8Array} b */
    function isTrace(b) {
        const n = b.length < 2 ? 513 : number(b, 0, 2);
        let end = 2 + 8 * n;
        if (n > MOST_EVENTS || end > b.length) return false;
        for (let at = 2; at < 2 + 8 * n; at += 8) {
            if (b[at] > BUTTON_OFF || b[at + 7] !== 0 || number(b, at + 4, 2) !== end) return false;
            end += b[at + 6];
        }
        return end === b.length;
    }

    /** The fields of a sheet's head, as its text has them; the words of an event. */
    const FIELDS = ["edition", "rules", "serial", "mask", "programming", "verify", "address", "key"], EVENTS = ["request", "connect", "disconnect", "button"];

    /** @param {string} text @returns {ToolKind} */
    function ofText(text) {
        const begun = trimStart(text), lines = linesOf(text).map(trim).filter(line => line && !line.startsWith("#"));
        const [first, second] = wordsOf(lines[0] ?? "");
        if (begun.startsWith("times of a trace:")) return "times";
        if (begun.startsWith("<")) return "ets";
        if (/^[{[]/.test(begun)) return "json";
        if (FIELDS.includes(first) && second !== undefined && !second.endsWith(":")) return "sheet text";
        if (EVENTS.includes(first) || (EVENTS.includes(second) && /^\+?\d+$/.test(first) && Number(first) < 2 ** 32)) return "trace text";
        if (first && /^(L_|LPDU)/.test(first)) return "knxtool";
        return lines.some(line => line.startsWith("0x")) ? "list" : ofDigits(text) ?? "text";
    }

    // A text whose words are hex digits: of a sheet, or a frame to a line, with or without a time before it.
    /** @param {string} text @returns {ToolKind | null} */
    function ofDigits(text) {
        const lines = linesOf(text).map(line => trim(line.split("#")[0])).filter(line => line), bytes = Texts.bytes(wordsOf(text).join(""));
        if (typeof bytes !== "number" && bytes.length && [0, OLD].includes(archive.check(bytes))) return "sheet hex";
        const frame = (/** @type {string} */ line) => wordsOf(line).some(word => /^(29|11)[0-9a-fA-F]*$/.test(word));
        return lines.length && lines.every(frame) ? "hex" : null;
    }

    return { MOST, NAMES, other, of, ofText };
})();
