// The bytes of a sheet's text (tools/sheet/src/make.rs). A fault names the line and the field, and there are then no bytes.

const SheetText = (() => {
    const END = "end";
    /** @param {string} word */
    const shown = word => `"${short(word)}"`;

    // A number from `least` to `most`: decimal, or hex digits and h.
    /** @param {string} field @param {string} word @param {bigint | number} least @param {bigint | number} most */
    function amount(field, word, least, most) {
        const hexed = word.endsWith("h"), digits = hexed ? word.slice(0, -1) : word;
        if (!(hexed ? /^[0-9a-f]+$/i : /^[0-9]+$/).test(digits)) throw new Fault(`${field} is no number: ${shown(word)}`);
        const value = BigInt(hexed ? `0x${digits}` : digits);
        if (value < least || value > most) throw new Fault(`${field} is ${shown(word)}, not ${least} to ${most}`);
        return value;
    }

    // So many bytes in hex.
    /** @param {string} field @param {string} word @param {number} n */
    function hexBytes(field, word, n) {
        const bytes = Texts.bytes(word);
        if (typeof bytes === "number" || bytes.length !== n) throw new Fault(`${field} is not ${2 * n} hex digits: ${shown(word)}`);
        return bytes;
    }

    // Parts of so many bits, the first the highest, such as those of an address.
    /** @param {string} field @param {string} word @param {string} mark @param {number[]} bits */
    function parts(field, word, mark, bits) {
        const words = word.split(mark);
        if (words.length !== bits.length) throw new Fault(`${field} has not ${bits.length} parts with ${mark} between them: ${shown(word)}`);
        return words.reduce((value, part, i) => (value << bits[i]) | Number(amount(field, part, 0, (1 << bits[i]) - 1)), 0);
    }

    /** @param {string} field @param {string} word */
    function onOrOff(field, word) {
        if (word !== "on" && word !== "off") throw new Fault(`${field} is on or off: ${shown(word)}`);
        return word === "on";
    }

    // The fields of the head that are one word, and how each is read.
    /** @type {Record<string, (word: string) => number | boolean | Uint8Array>} */
    const READ = {
        edition: word => {
            const edition = Number(amount("edition", word, 1, 2));
            if (edition === 1) throw new Fault("edition 1 is old: write 2");
            return edition;
        },
        rules: word => Number(amount("rules", word, 0, 1)),
        serial: word => hexBytes("serial", word, 6),
        mask: word => hexBytes("mask", word, 2),
        programming: word => onOrOff("programming", word),
        verify: word => onOrOff("verify", word),
        address: word => parts("address", word, ".", [4, 4, 8]),
    };

    /** The words after an entry's name, each field to be taken from them once. */
    class Fields {
        /** @param {string} kind @param {string[]} words */
        constructor(kind, words) {
            if (!words.length) throw new Fault(`${kind} has no name`);
            this.key = words[0];
            this.entry = `${kind} ${short(this.key)}`;
            this.words = words.slice(1);
        }

        // What is read, its fault with the entry before it.
        /** @template T @param {() => T} read @returns {T} */
        of(read) {
            try {
                return read();
            } catch (error) {
                throw error instanceof Fault ? this.fault(error.message) : error;
            }
        }

        /** @param {string} what */
        fault(what) {
            return new Fault(`${this.entry}, ${what}`);
        }

        // True if the word is there; it is then taken.
        /** @param {string} word */
        flag(word) {
            const at = this.words.indexOf(word);
            return at >= 0 && this.words.splice(at, 1).length > 0;
        }

        // The number after a field's name.
        /** @param {string} field @param {number} least @param {number} most */
        number(field, least, most) {
            const at = this.words.indexOf(field);
            if (at < 0) throw this.fault(`${field} is missing`);
            if (at + 1 === this.words.length) throw this.fault(`${field} has no value`);
            const word = this.words.splice(at, 2)[1];
            return this.of(() => Number(amount(field, word, least, most)));
        }

        // A level, such as r3.
        /** @param {string} mark @param {string} field */
        level(mark, field) {
            const at = this.words.findIndex(w => new TextEncoder().encode(w).length === 2 && w.startsWith(mark));
            if (at < 0) throw this.fault(`${field} is missing: ${mark}0 to ${mark}3`);
            const word = this.words.splice(at, 1)[0];
            return this.of(() => Number(amount(field, word.slice(1), 0, 3)));
        }

        levels() {
            const read = this.level("r", "read level");
            return (read << 4) | this.level("w", "write level");
        }

        // Nothing is left over.
        end() {
            if (this.words.length) throw this.fault(`${shown(this.words[0])} is no field of it, or one too many`);
        }
    }

    /** @typedef {{ kind: Entry["kind"], line: number, head: number[], tail: number[], name: string, body: number[], size: number, maximum: number, due: number, code: number }} Draft an entry on its way: what stands before and behind the place of its body */

    /** @param {string} word @param {string[]} rest @param {number} line @returns {Draft} */
    function entry(word, rest, line) {
        const f = new Fields(word, rest), two = (/** @type {number} */ n) => [n >> 8, n & 255];
        const none = { line, body: [], size: 1, maximum: 0, due: -1, code: 0 };
        if (word === "property") {
            const key = f.of(() => parts("object/id", f.key, "/", [8, 8])), type = f.number("type", 0, 63), writable = f.flag("writable") ? 128 : 0;
            const size = f.number("size", 1, 10), maximum = f.number("maximum", 1, 4095), count = f.number("count", 0, 4095), levels = f.levels();
            f.end();
            return { ...none, kind: "property", name: `property ${key >> 8}/${key & 255}`, size, maximum, head: [...two(key), writable | type, size, ...two(maximum), ...two(count)], tail: [levels, 0] };
        }
        if (word === "group") {
            const address = f.of(() => parts("group address", f.key, "/", [5, 3, 8])), code = f.number("code", 0, 14);
            const flags = FLAGS.reduce((sum, [bit, flag]) => sum + (f.flag(flag) ? bit : 0), 0);
            f.end();
            return { ...none, kind: "group", name: `group object ${groupText(address)}`, head: [...two(address), code, flags], tail: [0, 0], due: Math.max(code, 1), code };
        }
        const address = f.of(() => Number(amount("first address", f.key, 0, 65535))), levels = f.levels();
        f.end();
        return { ...none, kind: word === "user" ? "user" : "region", name: "", head: two(address), tail: [levels, 0] };
    }

    // A line of bytes or elements, which belongs to the entry before it.
    /** @param {Draft} e @param {string[]} words */
    function body(e, words) {
        const what = e.kind === "group" ? "group object" : e.kind === "user" ? "user region" : "region";
        for (const word of words) {
            if (e.kind === "property") {
                const at = e.body.length / e.size + 1, field = `${e.name}, element ${at}`;
                if (at > e.maximum) throw new Fault(`${field} is one too many: maximum ${e.maximum}`);
                const value = amount(field, word, 0n, (1n << BigInt(8 * e.size)) - 1n);
                for (let i = e.size - 1; i >= 0; i--) e.body.push(Number((value >> BigInt(8 * i)) & 255n));
            } else {
                const at = e.body.length, [byte] = hexBytes(`byte ${at} of the ${what}`, word, 1);
                if (at === 65535) throw new Fault(`byte ${at} of the ${what} is one too many`);
                e.body.push(byte);
            }
        }
    }

    // The bytes of a text; they are an accepted sheet.
    /** @param {string} text */
    function bytes(text) {
        /** @type {Record<string, number | boolean | Uint8Array>} */
        const head = {};
        /** @type {Draft[]} */
        const all = [];
        let ended = false, last = 1;
        const once = (/** @type {string} */ field, /** @type {number | boolean | Uint8Array} */ value) => {
            if (Object.keys(head).includes(field)) throw new Fault(`${field} is given twice`);
            head[field] = value;
        };
        for (const [i, line] of linesOf(text).entries()) {
            last = i + 1;
            inLine(last, () => {
                const words = wordsOf(line.split("#")[0]), [first, ...rest] = words;
                if (first === undefined) return;
                if (ended) throw new Fault(`${shown(first)} stands behind the ${END}`);
                if (Object.keys(READ).includes(first)) {
                    if (!rest.length) throw new Fault(`${first} has no value`);
                    if (rest.length > 1) throw new Fault(`${first} has one value, and ${shown(rest[1])} is more`);
                    once(first, READ[first](rest[0]));
                } else if (first === "key") {
                    if (rest.length !== 2) throw new Fault("key has a level and eight hex digits");
                    const field = `key ${amount("level of the key", rest[0], 0, 2)}`;
                    if (rest[1] === Words.HIDDEN) throw new Fault(`${field} is hidden: show the sheet with --keys`);
                    once(field, hexBytes(field, rest[1], 4));
                } else if (["region", "property", "group", "user"].includes(first)) {
                    const one = entry(first, rest, last), kind = KINDS.find(of => of.kind === one.kind);
                    all.push(one);
                    if (kind && all.filter(of => of.kind === one.kind).length > kind.most) throw new Fault(`S3: more than ${kind.most} ${kind.name}`);
                } else if (first === END) {
                    if (rest.length) throw new Fault(`${END} stands alone, and ${shown(rest[0])} is more`);
                    ended = true;
                } else {
                    if (!all.length) throw new Fault(`${shown(first)} is no name of a field, and no entry has begun`);
                    body(all[all.length - 1], words);
                }
            });
        }
        if (!ended) throw new Fault(`line ${last}: ${END} is missing as the last line: the text may have been cut off`);
        for (const e of all) {
            while (e.kind === "property" && e.body.length < e.size * e.maximum) e.body.push(0);
            if (e.due >= 0 && e.body.length !== e.due) throw new Fault(`line ${e.line}: ${e.name}, its body has ${e.body.length} bytes, and code ${e.code} wants ${e.due}`);
        }
        for (const field of ["serial", "mask", "programming", "verify", "address", "key 0", "key 1", "key 2"]) if (!Object.keys(head).includes(field)) throw new Fault(`line ${last}: ${field} is missing`);
        return put(head, all, last);
    }

    // Head, entries and bodies, in the order of the kinds.
    /** @param {Record<string, any>} head @param {Draft[]} all @param {number} last */
    function put(head, all, last) {
        const order = KINDS.flatMap(kind => all.filter(e => e.kind === kind.kind)), n = KINDS.map(kind => all.filter(e => e.kind === kind.kind).length);
        let next = HEAD + KINDS.reduce((sum, kind, i) => sum + kind.length * n[i], 0);
        const out = [head.edition ?? 2, n[0], n[1], n[2], 0, 0, ...head.serial, ...head.mask, Number(head.programming) + 2 * Number(head.verify), n[3], head.address >> 8, head.address & 255,
            ...head["key 0"], ...head["key 1"], ...head["key 2"], head.rules ?? 0, 0];
        for (const e of order) {
            // of a region its length stands before its body's place
            const length = e.kind === "region" || e.kind === "user" ? [e.body.length >> 8, e.body.length & 255] : [];
            out.push(...e.head, ...length, (next >> 8) & 255, next & 255, ...e.tail);
            next += e.body.length;
        }
        for (const e of order) for (const byte of e.body) out.push(byte);
        [out[4], out[5]] = [(out.length >> 8) & 255, out.length & 255];
        const sheet = Uint8Array.from(out), broken = brokenRule(sheet), entries = inOrder(entriesOf(sheet));
        if (broken) throw new Fault(`line ${broken.entry ? order[entries.findIndex(e => e.at === broken.entry?.at)].line : last}: ${broken.text}`);
        return sheet;
    }

    return { bytes };
})();
