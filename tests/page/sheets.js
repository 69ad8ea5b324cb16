// Sheets for the tests of the page: one as full as can be, and others at random.
"use strict";

// numbers from a seed (xorshift)
function random(seed) {
    let x = seed >>> 0 || 1;
    return below => {
        x ^= x << 13;
        x ^= x >>> 17;
        x ^= x << 5;
        return (x >>> 0) % below;
    };
}

const two = n => [(n >> 8) & 255, n & 255];

// a sheet of edition 2 of these entries: regions and users [address, levels, bytes], properties [object, id, type, size, maximum,
// count, levels, bytes], groups [address, code, flags, bytes]
function sheetOf({ regions = [], properties = [], groups = [], users = [], rules = 0 }) {
    const contents = 32 + 8 * regions.length + 12 * properties.length + 8 * groups.length + 8 * users.length;
    const entries = [], bodies = [];
    const place = bytes => {
        const at = two(contents + bodies.length);
        bodies.push(...bytes);
        return at;
    };
    const memory = list => {
        for (const [address, levels, bytes] of list) entries.push(...two(address), ...two(bytes.length), ...place(bytes), levels, 0);
    };
    memory(regions);
    for (const [object, id, type, size, maximum, count, levels, bytes] of properties)
        entries.push(object, id, type, size, ...two(maximum), ...two(count), ...place(bytes), levels, 0);
    for (const [address, code, flags, bytes] of groups) entries.push(...two(address), code, flags, ...place(bytes), 0, 0);
    memory(users);
    const head = [2, regions.length, properties.length, groups.length, ...two(contents + bodies.length), 0, 0xc5, 1, 2, 3, 9, 7, 0xb0, 2, users.length, 0x11, 9,
        0x11, 0x11, 0x11, 0x11, 0x22, 0x22, 0x22, 0x22, 0x33, 0x33, 0x33, 0x33, rules, 0];
    return Uint8Array.from([...head, ...entries, ...bodies]);
}

// entries at random, so many at most of each kind, with bodies of at most so many bytes
function randomSheet(next, most = 4, length = 24) {
    const bytes = n => Array.from({ length: n }, () => next(256)), levels = () => 16 * next(4) + next(4);
    const memory = () => {
        const list = [];
        for (let address = next(300), k = next(most + 1); k > 0; k--) {
            const body = bytes(1 + next(length));
            list.push([address, levels(), body]);
            address += body.length + (next(2) ? 0 : next(9));
        }
        return list;
    };
    const properties = [], groups = [];
    for (let k = next(most + 1), id = 1; k > 0; k--, id += 1 + next(3)) {
        const size = 1 + next(10), maximum = 1 + next(4);
        properties.push([1, id, 128 * next(2) + next(64), size, maximum, next(maximum + 1), levels(), bytes(size * maximum)]);
    }
    for (let k = next(most + 1), address = 1 + next(2100); k > 0; k--, address += 1 + next(300)) {
        const code = next(15);
        groups.push([address, code, next(8), code ? bytes(code) : [next(64)]]);
    }
    return sheetOf({ regions: memory(), properties, groups, users: memory(), rules: next(2) });
}

// the longest sheet there is, with as many entries of each kind as there may be
function fullSheet() {
    const run = (n, from) => Array.from({ length: n }, (_, i) => (from + i * 7) & 255);
    const regions = [], users = [], properties = [], groups = [];
    for (let k = 0; k < 16; k++) {
        regions.push([0x1000 * k, 0x32, run(256, k)]);
        users.push([0x1000 * k + 16, 0x31, run(256, 3 * k)]);
    }
    for (let k = 0; k < 64; k++) {
        properties.push([k >> 4, 1 + (k & 15), 0x84, 2, k < 63 ? 40 : 100, 20, 0x31, run(k < 63 ? 80 : 200, k)]);
        groups.push([1 + 32 * k, [0, 1, 2, 4][k & 3], 7, run([1, 1, 2, 4][k & 3], 0).map(b => b & 63)]);
    }
    const short = sheetOf({ regions, properties, groups, users });
    users[15][2] = run(256 + 16384 - short.length, 5);
    return sheetOf({ regions, properties, groups, users });
}

module.exports = { random, sheetOf, randomSheet, fullSheet };
