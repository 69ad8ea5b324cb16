// What stands where in a sheet (docs/SHEET.md), for showing it. Whether it is accepted is the module's to say.

/** @typedef {{ read: number, write: number }} Levels */
/** @typedef {{ kind: "region" | "user", at: number, address: number, length: number, body: number, levels: Levels }} Region */
/** @typedef {{ kind: "property", at: number, object: number, id: number, type: number, writable: boolean, size: number, maximum: number, count: number, body: number, length: number, levels: Levels }} Property */
/** @typedef {{ kind: "group", at: number, address: number, code: number, flags: number, body: number, length: number }} Group */
/** @typedef {Region | Property | Group} Entry */
/** @typedef {{ regions: Region[], properties: Property[], groups: Group[], users: Region[], contents: number }} Entries */

const HEAD = 32, LONGEST = 16384, OLD = 14;
const KEYS = 18, KEY = 4;
/** @type {[number, string][]} */
const FLAGS = [[1, "read"], [2, "write"], [4, "response"]];
/** The length of an entry, where the head counts them, and how many there may be, in the order in which they stand. */
const KINDS = /** @type {const} */ ([
    { kind: "region", length: 8, counted: 1, most: 16, name: "regions" },
    { kind: "property", length: 12, counted: 2, most: 64, name: "properties" },
    { kind: "group", length: 8, counted: 3, most: 64, name: "group objects" },
    { kind: "user", length: 8, counted: 15, most: 16, name: "user regions" },
]);

// How many entries of a kind the head states; edition 1 has no user regions.
/** @param {Uint8Array} s @param {typeof KINDS[number]} kind */
const stated = (s, kind) => (kind.kind === "user" && s[0] !== 2 ? 0 : s[kind.counted]);

/** @param {number} byte @returns {Levels} */
const levelsOf = byte => ({ read: byte >> 4, write: byte & 15 });

/** @param {Uint8Array} s @param {"region" | "user"} kind @param {number} at @returns {Region} */
function regionAt(s, kind, at) {
    return { kind, at, address: number(s, at, 2), length: number(s, at + 2, 2), body: number(s, at + 4, 2), levels: levelsOf(s[at + 6]) };
}

/** @param {Uint8Array} s @param {number} at @returns {Property} */
function propertyAt(s, at) {
    const size = s[at + 3], maximum = number(s, at + 4, 2);
    return { kind: "property", at, object: s[at], id: s[at + 1], type: s[at + 2] & 63, writable: s[at + 2] >= 128, size, maximum,
        count: number(s, at + 6, 2), body: number(s, at + 8, 2), length: size * maximum, levels: levelsOf(s[at + 10]) };
}

/** @param {Uint8Array} s @param {number} at @returns {Group} */
function groupAt(s, at) {
    return { kind: "group", at, address: number(s, at, 2), code: s[at + 2], flags: s[at + 3], body: number(s, at + 4, 2), length: Math.max(s[at + 2], 1) };
}

// The entries, those that lie in the sheet.
/** @param {Uint8Array} s @returns {Entries} */
function entriesOf(s) {
    /** @type {Entries} */
    const all = { regions: [], properties: [], groups: [], users: [], contents: HEAD };
    for (const kind of KINDS) {
        for (let k = 0; k < stated(s, kind); k++, all.contents += kind.length) {
            const at = all.contents;
            if (at + kind.length > s.length) continue;
            if (kind.kind === "property") all.properties.push(propertyAt(s, at));
            else if (kind.kind === "group") all.groups.push(groupAt(s, at));
            else (kind.kind === "user" ? all.users : all.regions).push(regionAt(s, kind.kind, at));
        }
    }
    return all;
}

// All entries in the order in which they stand.
/** @param {Entries} e @returns {Entry[]} */
const inOrder = e => [...e.regions, ...e.properties, ...e.groups, ...e.users];

/** @param {Entry} e */
function entryName(e) {
    if (e.kind === "property") return `property ${e.object}/${e.id}`;
    if (e.kind === "group") return `group object ${groupText(e.address)}`;
    return `${e.kind === "user" ? "user region" : "region"} ${memoryText(e.address)}`;
}

// An element: a number if it has up to four bytes, else its hex digits.
/** @param {Uint8Array} s @param {number} at @param {number} size */
const elementText = (s, at, size) => (size > 4 ? hex(s.slice(at, at + size)) + "h" : String(number(s, at, size)));

/** @param {number} flags */
const flagText = flags => FLAGS.filter(([bit]) => flags & bit).map(([, word]) => word).join(" ") || "none";
/** @param {boolean | number} on */
const switchText = on => (on ? "on" : "off");

// Whether byte p is of a key, and not one that is public: FFFFFFFFh hides nothing.
/** @param {Uint8Array} s @param {number} p */
function secret(s, p) {
    if (p < KEYS || p >= KEYS + 3 * KEY) return false;
    const at = p - ((p - KEYS) % KEY);
    return number(s, at, KEY) !== 0xffffffff;
}

// What byte p is, by meaning.
/** @param {number} p @param {Entries} e */
function byteName(p, e) {
    if (p < HEAD) return headName(p);
    for (const entry of inOrder(e)) {
        const length = entry.kind === "property" ? 12 : 8;
        if (p >= entry.at && p < entry.at + length) {
            const count = entry.kind === "property" && p >= entry.at + 6 && p < entry.at + 8;
            return count ? `count of ${entryName(entry)}` : `entry of ${entryName(entry)}, byte ${p - entry.at}`;
        }
        if (p >= entry.body && p < entry.body + entry.length) {
            const i = p - entry.body;
            if (entry.kind === "property") return `${entryName(entry)} element ${1 + Math.floor(i / entry.size)}`;
            if (entry.kind === "group") return `${entryName(entry)}${entry.length > 1 ? `, byte ${i}` : ""}`;
            return `${entry.kind === "user" ? "user memory" : "memory"} ${memoryText(entry.address + i)}`;
        }
    }
    return `byte ${p}`;
}

/** @param {number} p */
function headName(p) {
    const names = ["edition", "number of regions", "number of properties", "number of group objects", "length", "length"];
    if (p < 6) return names[p];
    if (p < 12) return "serial number";
    if (p < 14) return "mask version";
    if (p === 14) return "programming mode and verify";
    if (p === 15) return "number of user regions";
    if (p < 18) return "individual address";
    if (p < 30) return `key of level ${Math.floor((p - KEYS) / KEY)}`;
    return p === 30 ? "rules" : "a zero of the head";
}
