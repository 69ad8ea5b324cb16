// The rules S1 to S9 in the sheet tool's words (tools/sheet/src/check.rs), each broken one with the field and the entry that break it.
// Whether a sheet is accepted the module says; this says why not, as `trace explain` does of a dump.

/** @param {Uint8Array} s @returns {{ text: string, entry: Entry | null } | null} the first rule broken, if there is one */
function brokenRule(s) {
    const long = s.length, whole = (/** @type {number} */ rule, /** @type {string} */ why) => ({ text: `S${rule}: ${why}`, entry: null });
    if (long < HEAD) return whole(1, `the sheet has ${long} bytes, fewer than ${HEAD}`);
    if (long > LONGEST) return whole(1, `the sheet has more than ${LONGEST} bytes`);
    if (s[0] !== 1 && s[0] !== 2) return whole(2, `edition ${s[0]}, not 1 or 2`);
    for (const kind of KINDS) if (stated(s, kind) > kind.most) return whole(3, `${stated(s, kind)} ${kind.name}, more than ${kind.most}`);
    if (number(s, 4, 2) !== long) return whole(4, `the head states ${number(s, 4, 2)} bytes, the sheet has ${long}`);
    const e = entriesOf(s), all = inOrder(e);
    if (e.contents > long) return whole(4, `head and entries take ${e.contents} bytes, the sheet has ${long}`);
    // edition 2 has numbers in the first two
    for (const at of s[0] === 1 ? [15, 30, 31] : [31]) if (s[at] !== 0) return whole(5, `byte ${at} of the head is ${s[at]}, not 0`);
    if (s[30] > 1) return whole(5, `rules ${s[30]}, not 0 or 1`);
    if (s[14] > 3) return whole(5, `flags ${s[14]}, of which only 1 and 2 may be set`);

    const levels = (/** @type {Levels} */ { read, write }) => (read > 3 ? `read level ${read} above 3` : write > 3 ? `write level ${write} above 3` : null);
    const zero = (/** @type {Entry} */ of, /** @type {number} */ at) => (s[of.at + at] ? `byte ${at} of the entry is ${s[of.at + at]}, not 0` : null);
    const region = (/** @type {Region} */ r, /** @type {Region | undefined} */ before) => {
        const free = before ? before.address + before.length : 0;
        if (r.length === 0) return "length 0";
        if (r.address + r.length > 65536) return `length ${r.length} runs past the last address, ffffh`;
        return r.address < free ? `first address below the end of the region before, ${memoryText(free)}` : levels(r.levels) ?? zero(r, 7);
    };
    const property = (/** @type {Property} */ p, /** @type {Property | undefined} */ before) => {
        const key = (/** @type {Property} */ of) => of.object * 256 + of.id, type = s[p.at + 2];
        if (p.id === 0) return "id 0";
        if (before && key(p) <= key(before)) return `object and id not above the property before, ${before.object}/${before.id}`;
        if (type & 64) return `type ${hex([type])}h, of which bit 6 must be 0`;
        if (p.size < 1 || p.size > 10) return `size ${p.size}, not 1 to 10`;
        if (p.maximum < 1 || p.maximum > 4095) return `maximum ${p.maximum}, not 1 to 4095`;
        return p.count > p.maximum ? `count ${p.count} above maximum ${p.maximum}` : levels(p.levels) ?? zero(p, 11);
    };
    const group = (/** @type {Group} */ g, /** @type {Group | undefined} */ before) => {
        if (g.address === 0) return "address 0";
        if (before && g.address <= before.address) return `address not above the group object before, ${groupText(before.address)}`;
        if (g.code > 14) return `length code ${g.code} above 14`;
        return g.flags > 7 ? `flags ${g.flags} above 7` : zero(g, 6) ?? zero(g, 7);
    };
    /** @template {Entry} T @param {number} rule @param {T[]} list @param {(e: T, before: T | undefined) => string | null} judge */
    const each = (rule, list, judge) => {
        for (const [i, entry] of list.entries()) {
            const fault = judge(entry, list[i - 1]);
            if (fault) return { text: `S${rule}: ${entryName(entry)}, ${fault}`, entry };
        }
        return null;
    };
    const fault = each(6, e.regions, region) ?? each(6, e.users, region) ?? each(7, e.properties, property) ?? each(8, e.groups, group);
    if (fault) return fault;
    let next = e.contents;
    const body = (/** @type {Entry} */ of) => {
        const at = of.body, six = of.kind === "group" && of.code === 0;
        if (at !== next) return `its body starts at ${at}, and the one before ends at ${next}`;
        next += of.length;
        return six && at >= long ? `its body at ${at} lies past the end of the sheet` : six && s[at] > 63 ? `six-bit value ${s[at]} above 63` : null;
    };
    return each(9, all, body) ?? (next !== long ? whole(9, `the last body ends at ${next}, the sheet at ${long}`) : null);
}
