// Which rule a sheet breaks, and where. The module is asked for both: of the whole sheet, and then of smaller ones made of its
// parts, until the entry and the field are found for which it says the same.

/** @typedef {{ rule: number, text: string, marks: number[], entry?: Entry }} Verdict */

// The fields of an entry that a rule of its own is about: name, offset, length.
/** @type {Record<string, [string, number, number][]>} */
const JUDGED = {
    region: [["first address", 0, 2], ["length", 2, 2], ["levels", 6, 1], ["the zero byte", 7, 1]],
    property: [["object", 0, 1], ["id", 1, 1], ["type", 2, 1], ["size", 3, 1], ["maximum", 4, 2], ["count", 6, 2], ["levels", 10, 1], ["the zero byte", 11, 1]],
    group: [["address", 0, 2], ["length code", 2, 1], ["flags", 3, 1], ["the zero bytes", 6, 2]],
};
JUDGED.user = JUDGED.region;

/** @param {Proved} proved @param {Uint8Array} sheet @returns {Verdict} */
function verdictOf(proved, sheet) {
    const rule = proved.check(sheet);
    if (rule === 0) return { rule, text: "accepted", marks: [] };
    if (rule === OLD) return { rule, text: "a sheet of edition 1, which is retired: convert it", marks: [0] };
    const found = rule <= 5 ? inHead(proved, sheet, rule) : rule < 9 ? inEntries(proved, sheet, rule) : inBodies(proved, sheet);
    return { ...found, rule, text: `breaks rule S${rule}, ${MADE.rules[rule]}${found.text ? `: ${found.text}` : ""}` };
}

// S1 to S5.
/** @param {Proved} proved @param {Uint8Array} s @param {number} rule @returns {{ text: string, marks: number[] }} */
function inHead(proved, s, rule) {
    if (rule === 1) return { text: `it has ${counted(s.length, "byte")}`, marks: [] };
    if (rule === 2) return { text: `edition ${s[0]}`, marks: [0] };
    if (rule === 4) {
        const told = s.slice();
        told[4] = s.length >> 8;
        told[5] = s.length & 255;
        if (proved.check(told) !== 4) return { text: `the head states ${number(s, 4, 2)} bytes, the sheet has ${s.length}`, marks: [4, 5] };
        return { text: `head and entries take ${entriesOf(s).contents} bytes, the sheet has ${s.length}`, marks: KINDS.map(kind => kind.counted) };
    }
    // a byte is at fault if the rule is still broken with the others zero
    const judged = rule === 3 ? KINDS.filter(kind => stated(s, kind)).map(kind => kind.counted) : s[0] === 2 ? [14, 30, 31] : [14, 15, 30, 31];
    const marks = judged.filter(at => {
        const alone = s.slice();
        for (const other of judged) if (other !== at) alone[other] = 0;
        return proved.check(alone) === rule;
    });
    return { text: marks.map(at => `${headName(at)} is ${s[at]}`).join(", "), marks };
}

// A sheet of the same head with these entries alone, all of one kind.
/** @param {Uint8Array} s @param {Entry[]} entries */
function only(s, entries) {
    const kind = /** @type {typeof KINDS[number]} */ (KINDS.find(k => k.kind === entries[0].kind));
    const small = new Uint8Array(HEAD + kind.length * entries.length);
    small.set(s.subarray(0, HEAD));
    for (const k of KINDS) if (k.kind !== "user" || s[0] === 2) small[k.counted] = 0;
    small[kind.counted] = entries.length;
    small[4] = small.length >> 8;
    small[5] = small.length & 255;
    entries.forEach((e, i) => small.set(s.subarray(e.at, e.at + kind.length), HEAD + kind.length * i));
    return small;
}

// S6 to S8: the first entry with which the module still says so.
/** @param {Proved} proved @param {Uint8Array} s @param {number} rule */
function inEntries(proved, s, rule) {
    const e = entriesOf(s), lists = rule === 6 ? [e.regions, e.users] : rule === 7 ? [e.properties] : [e.groups];
    for (const list of lists) {
        for (let k = 1; k <= list.length; k++) {
            const small = only(s, list.slice(0, k));
            if (proved.check(small) !== rule) continue;
            const entry = list[k - 1], fields = atFault(proved, small, entry, rule);
            const names = fields.map(([name]) => name), one = names.slice(0, -1).join(", ") + (names.length > 1 ? " or " : "") + names.slice(-1);
            const marks = fields.flatMap(([, at, length]) => places(entry.at + at, length));
            const whole = places(entry.at, entry.kind === "property" ? 12 : 8);
            return { entry, text: `${entryName(entry)}, ${one || "in more than one field"}`, marks: marks.length ? marks : whole };
        }
    }
    return { text: "", marks: [] };
}

// The fields of the last entry any one of which, with another value, would keep the rule.
/** @param {Proved} proved @param {Uint8Array} small @param {Entry} entry @param {number} rule */
function atFault(proved, small, entry, rule) {
    const from = small.length - (entry.kind === "property" ? 12 : 8);
    return JUDGED[entry.kind].filter(([, at, length]) => tries(small, from, at, length).some(value => {
        const other = small.slice();
        for (let i = 0; i < length; i++) other[from + at + i] = value >> (8 * (length - 1 - i));
        return proved.check(other) !== rule;
    }));
}

// Values to try in a field: all of a byte; of two bytes the smallest, the largest, and those around what stands there and before.
/** @param {Uint8Array} small @param {number} from @param {number} at @param {number} length */
function tries(small, from, at, length) {
    if (length === 1) return places(0, 256);
    const near = [number(small, from + at, 2)];
    if (from >= HEAD + 8) near.push(number(small, from - 8, 2), number(small, from - 8, 2) + number(small, from - 6, 2));
    const around = near.flatMap(value => [value - 1, value, value + 1]), powers = places(0, 16).flatMap(i => [1 << i, (1 << i) - 1]);
    return [...powers, 65535, ...around].filter(value => value >= 0 && value < 65536);
}

// S9: the first entry whose body the module does not take where it stands.
/** @param {Proved} proved @param {Uint8Array} s */
function inBodies(proved, s) {
    const e = entriesOf(s), all = inOrder(e);
    let end = e.contents;
    for (let k = 1; k <= all.length; k++) {
        const entry = all[k - 1], small = upTo(s, e.contents, all.slice(0, k));
        if (small.length > LONGEST || proved.check(small) === 9) {
            const at = entry.kind === "property" ? 8 : 4;
            // its body is the last of them: with 0 in it the module takes it, unless it stands elsewhere
            const zero = small.slice();
            zero[zero.length - 1] = 0;
            if (entry.kind === "group" && proved.check(zero) === 0)
                return { entry, text: `${entryName(entry)}, six-bit value ${s[entry.body]}`, marks: [entry.body] };
            return { entry, text: `${entryName(entry)}, its body starts at ${entry.body}, and the one before ends at ${end}`, marks: places(entry.at + at, 2) };
        }
        end += entry.length;
    }
    return { text: `the last body ends at ${end}, the sheet at ${s.length}`, marks: places(end, Math.max(0, s.length - end)) };
}

// A sheet with the first entries alone, their bodies moved down behind them.
/** @param {Uint8Array} s @param {number} contents @param {Entry[]} entries */
function upTo(s, contents, entries) {
    const lengths = entries.map(e => (e.kind === "property" ? 12 : 8)), start = HEAD + lengths.reduce((a, b) => a + b, 0);
    const bodies = entries.reduce((sum, e) => sum + e.length, 0), small = new Uint8Array(start + bodies);
    small.set(s.subarray(0, HEAD));
    for (const kind of KINDS) if (kind.kind !== "user" || s[0] === 2) small[kind.counted] = entries.filter(e => e.kind === kind.kind).length;
    small[4] = small.length >> 8;
    small[5] = small.length & 255;
    let to = HEAD;
    entries.forEach((e, i) => {
        small.set(s.subarray(e.at, e.at + lengths[i]), to);
        const place = to + (e.kind === "property" ? 8 : 4), moved = e.body - (contents - start);
        small[place] = moved >> 8;
        small[place + 1] = moved;
        to += lengths[i];
    });
    small.set(s.subarray(contents, contents + bodies), start);
    return small;
}
