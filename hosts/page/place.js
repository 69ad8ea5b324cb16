// What each byte of an accepted sheet means (tools/sheet/src/place.rs), and by that what has changed between two sheets of one layout.

/**
 * What a request names to write a place, if it can: such places are the locations, and what it takes to write one is a level.
 * @typedef {{ is: "nothing" } | { is: "memory", address: number } | { is: "user", address: number } | { is: "element", object: number, id: number, i: number }
 *     | { is: "count", object: number, id: number } | { is: "key", level: number }} Target
 * @typedef {"fixed" | "number" | "digits" | "bytes" | "memory" | "flags" | "address" | "key" | "type" | "levels" | "group flags"} PlaceForm fixed: what
 *     says where and how long everything is, the same in all sheets of one layout
 * @typedef {{ at: number, length: number, name: string, form: PlaceForm, target: Target, entry: Entry | null }} Place a run of bytes with one meaning
 */
/** @template K @typedef {{ at: number, length: number, lines: string[], target: Target, bytes: [number, K][], place: Place }} Change a place at which two sheets differ: what, and the bytes, each with what the caller knows of it */

const Places = (() => {
    /** Neighbours of memory on one line, up to so many. */
    const TO_A_LINE = 8;
    /** @type {Target} */
    const NOTHING = { is: "nothing" };

    // What all bytes of an accepted sheet mean, in their order.
    /** @param {Uint8Array} s @returns {Place[]} */
    function all(s) {
        /** @type {Place[]} */
        const out = [];
        let at = 0;
        const put = (/** @type {number} */ length, /** @type {string} */ name, /** @type {PlaceForm} */ form, /** @type {Target} */ target = NOTHING, /** @type {Entry | null} */ entry = null) => {
            out.push({ at, length, name, form, target, entry });
            at += length;
        };
        put(1, "edition", "number");
        put(5, "numbers and length", "fixed");
        put(6, "serial number", "digits");
        put(2, "mask version", "digits");
        put(1, "flags", "flags");
        put(1, "number of user regions", "fixed");
        put(2, "individual address", "address");
        for (const level of [0, 1, 2]) put(4, `key of level ${level}`, "key", { is: "key", level });
        put(1, "rules", "number");
        put(1, "zero", "fixed");
        const entries = inOrder(entriesOf(s));
        for (const e of entries) {
            const name = entryName(e);
            if (e.kind === "property") {
                put(2, name, "fixed");
                put(1, name, "type");
                put(3, name, "fixed");
                put(2, `${name} count`, "number", { is: "count", object: e.object, id: e.id }, e);
                put(2, name, "fixed");
            } else if (e.kind === "group") {
                put(3, name, "fixed");
                put(1, `${name} flags`, "group flags");
                put(4, name, "fixed");
                continue;
            } else put(6, name, "fixed");
            put(1, name, "levels");
            put(1, name, "fixed");
        }
        for (const e of entries) {
            if (e.kind === "group") put(e.length, entryName(e), "bytes", NOTHING, e);
            else if (e.kind === "property") for (let i = 1; i <= e.maximum; i++) put(e.size, `${entryName(e)} element ${i}`, "number", { is: "element", object: e.object, id: e.id, i }, e);
            else {
                const [is, whose] = e.kind === "user" ? /** @type {const} */ (["user", "user memory"]) : /** @type {const} */ (["memory", "memory"]);
                for (let i = 0; i < e.length; i++) put(1, `${whose} ${memoryText(e.address + i)}`, "memory", { is, address: e.address + i }, e);
            }
        }
        return out;
    }

    /** @param {Place} p @param {Uint8Array} s */
    const of = (p, s) => s.subarray(p.at, p.at + p.length);

    // What the bytes of a place say, of one that an event can change; of a key nothing.
    /** @param {Place} p @param {Uint8Array} bytes */
    function value(p, bytes) {
        if (p.form === "key") return null;
        if (p.form === "number") return elementText(bytes, 0, p.length);
        if (p.form === "bytes" || p.form === "memory") return byteText(bytes, 0, bytes.length);
        if (p.form === "flags") return switchText(bytes[0] & 1);
        return p.form === "address" ? individualText(number(bytes, 0, 2)) : hex(bytes);
    }

    // The same with its name before it.
    /** @param {Place} p @param {Uint8Array} bytes */
    function named(p, bytes) {
        const name = p.form === "flags" ? "programming mode" : p.name, said = value(p, bytes);
        return said === null ? name : `${name}: ${said}`;
    }

    // What tells the new bytes of a place from the old ones: of a key only that it changed.
    /** @param {Place} p @param {Uint8Array} a @param {Uint8Array} b */
    function told(p, a, b) {
        const { name } = p, both = (/** @type {string} */ what, /** @type {(bytes: Uint8Array) => string | number} */ tell) => changed(what, tell(a), tell(b));
        switch (p.form) {
            case "key": return [`${name} changed`];
            case "flags": return [...both("programming mode", x => switchText(x[0] & 1)), ...both("verify", x => switchText(x[0] & 2))];
            case "type": return [...both(`${name} type`, x => x[0] & 63), ...both(name, x => (x[0] & 128 ? "writable" : "not writable"))];
            case "levels": return [...both(`${name} read level`, x => x[0] >> 4), ...both(`${name} write level`, x => x[0] & 15)];
            case "group flags": return both(name, x => flagText(x[0]));
            default: return both(name, x => value(p, x) ?? "");
        }
    }

    // Whether two accepted sheets have all at the same places.
    /** @param {Uint8Array} a @param {Uint8Array} b */
    const sameLayout = (a, b) => a.length === b.length && all(a).every(p => p.form !== "fixed" || same(of(p, a), of(p, b)));

    // What differs between two accepted sheets of one layout, of all places with a byte that was touched, in the order of the bytes; some
    // say what they did at first, and have no lines. Neighbours of memory are one change if the caller knows the same of each.
    /** @template K @param {Uint8Array} a @param {Uint8Array} b @param {(at: number) => K} known @param {(at: number) => boolean} was @returns {Change<K>[]} */
    function touched(a, b, known, was) {
        /** @type {Change<K>[]} */
        const out = [], places = all(a);
        for (let i = 0; i < places.length; i++) {
            const first = places[i], touched = (/** @type {Place} */ p) => Array.from({ length: p.length }, (_, k) => p.at + k).filter(was), differs = !same(of(first, a), of(first, b));
            if (!touched(first).length) continue;
            const run = { ...first }, { target } = first;
            if (first.form === "memory" && "address" in target) {
                const joins = (/** @type {Place | undefined} */ p) => p && p.target.is === target.is && "address" in p.target && p.target.address === target.address + run.length
                    && was(p.at) && (a[p.at] !== b[p.at]) === differs && known(p.at) === known(first.at);
                for (; run.length < TO_A_LINE && joins(places[i + 1]); i++) run.length++;
            }
            out.push({ at: run.at, length: run.length, lines: differs ? told(run, of(run, a), of(run, b)) : [], target, place: run,
                bytes: touched(run).map(at => [at, known(at)]) });
        }
        return out;
    }

    return { all, of, value, named, told, sameLayout, touched };
})();
