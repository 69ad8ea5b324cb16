// What differs between two accepted sheets, by meaning, in the words of `sheet diff` (docs/SHEET.md). No line shows a key.

// The lines that tell one sheet from the other: none exactly if their bytes are the same.
/** @param {Uint8Array} a @param {Uint8Array} b */
function differences(a, b) {
    if (same(a, b)) return [];
    const ea = entriesOf(a), eb = entriesOf(b);
    return [
        ...headDiffers(a, b),
        ...memoryDiffers("", a, b, ea.regions, eb.regions),
        ...propertiesDiffer(a, b, ea.properties, eb.properties),
        ...bothDiffer(ea.groups, eb.groups, g => g.address, (x, y) => groupDiffers(a, b, x, y),
            g => [`${entryName(g)} is new: length code ${g.code}, flags ${flagText(g.flags)}, value ${byteText(b, g.body, g.length)}`]),
        ...memoryDiffers("user ", a, b, ea.users, eb.users),
    ];
}

// A line if the two differ.
/** @param {string} what @param {string | number} x @param {string | number} y */
const changed = (what, x, y) => (x === y ? [] : [`${what}: ${x} → ${y}`]);
/** @param {Uint8Array} s @param {number} at @param {number} length */
const byteText = (s, at, length) => Array.from(s.slice(at, at + length), byte => hex([byte])).join(" ");
/** @param {string} name @param {Levels} x @param {Levels} y */
const levelsDiffer = (name, x, y) => [...changed(`${name} read level`, x.read, y.read), ...changed(`${name} write level`, x.write, y.write)];
/** @param {Levels} levels */
const levelText = levels => `read level ${levels.read}, write level ${levels.write}`;

/** @param {Uint8Array} a @param {Uint8Array} b */
function headDiffers(a, b) {
    const lines = [
        ...changed("edition", a[0], b[0]),
        ...changed("rules", a[30], b[30]),
        ...changed("serial number", hex(a.slice(6, 12)), hex(b.slice(6, 12))),
        ...changed("mask version", hex(a.slice(12, 14)), hex(b.slice(12, 14))),
        ...changed("programming mode", switchText(a[14] & 1), switchText(b[14] & 1)),
        ...changed("verify", switchText(a[14] & 2), switchText(b[14] & 2)),
        ...changed("individual address", individualText(number(a, 16, 2)), individualText(number(b, 16, 2))),
    ];
    for (let level = 0; level < 3; level++)
        if (number(a, KEYS + KEY * level, KEY) !== number(b, KEYS + KEY * level, KEY)) lines.push(`key of level ${level} changed`);
    return lines;
}

/**
 * Entries that only one sheet has, with what a new one is, and what differs in those that both have.
 * @template {Entry} T @param {T[]} a @param {T[]} b @param {(e: T) => number} key
 * @param {(x: T, y: T) => string[]} differ @param {(e: T) => string[]} told
 */
function bothDiffer(a, b, key, differ, told) {
    const old = new Map(a.map(e => [key(e), e])), now = new Map(b.map(e => [key(e), e]));
    const all = [...new Set([...old.keys(), ...now.keys()])].sort((x, y) => x - y);
    return all.flatMap(k => {
        const x = old.get(k), y = now.get(k);
        return x && y ? differ(x, y) : y ? told(y) : x ? [`${entryName(x)} is gone`] : [];
    });
}

/** @param {string} whose @param {Uint8Array} a @param {Uint8Array} b @param {Region[]} ra @param {Region[]} rb */
function memoryDiffers(whose, a, b, ra, rb) {
    const entries = bothDiffer(ra, rb, r => r.address,
        (x, y) => [...changed(`${entryName(x)} length`, x.length, y.length), ...levelsDiffer(entryName(x), x.levels, y.levels)],
        r => [`${entryName(r)} is new: length ${r.length}, ${levelText(r.levels)}`]);
    const old = addresses(a, ra), now = addresses(b, rb), other = [], fresh = [];
    for (const [address, byte] of now) {
        const was = old.get(address);
        if (was !== undefined && was !== byte) other.push(address);
        if (was === undefined && byte !== 0) fresh.push(address);
    }
    const text = (/** @type {Map<number, number>} */ m, /** @type {number[]} */ line) => line.map(at => hex([m.get(at) ?? 0])).join(" ");
    return [...entries,
        ...neighbours(other).map(line => `${whose}memory ${memoryText(line[0])}: ${text(old, line)} → ${text(now, line)}`),
        ...neighbours(fresh).map(line => `${whose}memory ${memoryText(line[0])}: new, ${text(now, line)}`)];
}

// The bytes of a memory by their addresses.
/** @param {Uint8Array} s @param {Region[]} regions */
function addresses(s, regions) {
    const all = new Map();
    for (const r of regions) for (let i = 0; i < r.length; i++) all.set(r.address + i, s[r.body + i]);
    return all;
}

// Numbers in runs of neighbours, up to eight of them.
/** @param {number[]} numbers */
function neighbours(numbers) {
    /** @type {number[][]} */
    const runs = [];
    for (const n of numbers) {
        const last = runs[runs.length - 1];
        if (last && last.length < 8 && last[last.length - 1] + 1 === n) last.push(n);
        else runs.push([n]);
    }
    return runs;
}

/** @param {Uint8Array} a @param {Uint8Array} b @param {Property[]} pa @param {Property[]} pb */
function propertiesDiffer(a, b, pa, pb) {
    return bothDiffer(pa, pb, p => p.object * 256 + p.id, (x, y) => propertyDiffers(a, b, x, y), p => newProperty(b, p));
}

/** @param {Property} p */
const writableText = p => (p.writable ? "writable" : "not writable");

/** @param {Uint8Array} a @param {Uint8Array} b @param {Property} x @param {Property} y */
function propertyDiffers(a, b, x, y) {
    const name = entryName(x), lines = [
        ...changed(`${name} type`, x.type, y.type),
        ...changed(name, writableText(x), writableText(y)),
        ...changed(`${name} size`, x.size, y.size),
        ...changed(`${name} maximum`, x.maximum, y.maximum),
        ...changed(`${name} count`, x.count, y.count),
        ...levelsDiffer(name, x.levels, y.levels),
    ];
    // no element of one size can be held against one of another
    if (x.size !== y.size) return lines;
    /** @param {Uint8Array} s @param {Property} p @param {number} i */
    const element = (s, p, i) => (i < p.maximum ? s.subarray(p.body + i * p.size, p.body + (i + 1) * p.size) : new Uint8Array(p.size));
    for (let i = 0; i < Math.max(x.maximum, y.maximum); i++) {
        const old = element(a, x, i), now = element(b, y, i);
        if (!same(old, now)) lines.push(`${name} element ${i + 1}: ${elementText(old, 0, x.size)} → ${elementText(now, 0, x.size)}`);
    }
    return lines;
}

/** @param {Uint8Array} s @param {Property} p */
function newProperty(s, p) {
    const lines = [`${entryName(p)} is new: type ${p.type}, ${writableText(p)}, size ${p.size}, maximum ${p.maximum}, count ${p.count}, ${levelText(p.levels)}`];
    for (let i = 0; i < p.maximum; i++) {
        const at = p.body + i * p.size;
        if (s.slice(at, at + p.size).some(byte => byte !== 0)) lines.push(`${entryName(p)} element ${i + 1}: new, ${elementText(s, at, p.size)}`);
    }
    return lines;
}

/** @param {Uint8Array} a @param {Uint8Array} b @param {Group} x @param {Group} y */
function groupDiffers(a, b, x, y) {
    return [...changed(`${entryName(x)} length code`, x.code, y.code), ...changed(`${entryName(x)} flags`, flagText(x.flags), flagText(y.flags)),
        ...changed(entryName(x), byteText(a, x.body, x.length), byteText(b, y.body, y.length))];
}
