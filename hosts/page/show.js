// A sheet by meaning, on the page: head, keys, both memories, properties, group objects.

/**
 * How it is shown: keys or not, what is marked, which entry breaks a rule; and, of a sheet that events have changed, the histories of
 * the places in a run of its bytes, with the runs of which they are open.
 * @typedef {{ keys: boolean, marked: (p: number) => boolean, broken?: Entry, histories?: { told: (at: number, length: number) => Node[], open: Set<number> } }} Look
 */

/** @param {Proved} proved @param {Uint8Array} s @param {Look} look */
function sheetView(proved, s, look) {
    const e = entriesOf(s);
    return el("div", { class: "sheet" },
        headView(s, look),
        listView("Memory", e.regions.map(r => regionView(s, r, look))),
        listView("User memory", e.users.map(r => regionView(s, r, look))),
        listView("Properties", e.properties.map(p => propertyView(s, p, look))),
        listView("Group objects", e.groups.map(g => groupView(proved, s, g, look))));
}

/** @param {Look} look @param {number} at @param {number} length */
function anyMarked(look, at, length) {
    for (let p = at; p < at + length; p++) if (look.marked(p)) return true;
    return false;
}

// Text for a place of the sheet, marked if a byte of it is.
/** @param {Look} look @param {number} at @param {number} length @param {string} text */
const placed = (look, at, length, text) => (anyMarked(look, at, length) ? el("mark", {}, text) : text);

// A term that is explained where it stands, by touch, mouse or key.
/** @param {Child} told @param {() => string} words */
function term(told, words) {
    /** @type {HTMLElement | undefined} */
    let shown;
    const opener = el("button", { type: "button", class: "link term", "aria-expanded": "false", onclick: () => {
        if (shown) shown.remove();
        else opener.after(shown = el("span", { class: "means" }, words()));
        if (!shown.isConnected) shown = undefined;
        opener.setAttribute("aria-expanded", String(shown !== undefined));
    } }, told);
    return opener;
}

// What a level asks of who would do something.
/** @param {number} level @param {string} doing */
const levelMeans = (level, doing) => (level === 3 ? `everybody may ${doing} it, level 3 being everybody's` : `to ${doing} it a connection needs level ${level}${level ? " or a lower number" : ""}, by offering the key`);

/** @param {Levels} levels */
const rightsMean = levels => `r${levels.read} w${levels.write} in a sheet's text: ${levelMeans(levels.read, "read")}; ${levelMeans(levels.write, "write")}.`;

/** @param {Property} p */
function countMeans({ count, maximum }) {
    const some = `the first ${count === 1 ? "one counts" : `${count} count`}; what is behind, shown smaller, is room that a write may fill, and can't be read`;
    const counts = count === maximum ? (count === 1 ? "it counts" : "all count") : count === 0 ? "none counts yet" : some;
    return `count ${count}, maximum ${maximum} in a sheet's text: there is room for ${counted(maximum, "element")}, and ${counts}.`;
}

// The name of a place; who touches it is shown what happened there, in the box that has it.
/** @param {string} name @param {number} at @param {number} length @param {Look} look @param {HTMLElement} box */
function named(name, at, length, look, box) {
    const { histories } = look;
    if (!histories) return name;
    const opener = button(name, () => show(!histories.open.has(at)), { class: "link", "aria-expanded": "false" });
    /** @type {HTMLElement | undefined} */
    let shown;
    /** @param {boolean} open */
    const show = open => {
        opener.setAttribute("aria-expanded", String(open));
        histories.open[open ? "add" : "delete"](at);
        shown?.remove();
        if (open) box.append(shown = el("div", { class: "story" }, ...histories.told(at, length)));
    };
    if (histories.open.has(at)) queueMicrotask(() => show(true));
    return opener;
}

/** @param {Uint8Array} s @param {Look} look */
function headView(s, look) {
    /** @param {string} name @param {...Child} value */
    const fact = (name, ...value) => el("div", {}, el("dt", {}, name), el("dd", {}, ...value));
    // what an event can change, with its place
    /** @param {string} name @param {number} at @param {number} length @param {Child} value */
    const place = (name, at, length, value) => {
        const box = el("div"), dd = el("dd", {}, value);
        box.append(el("dt", {}, named(name, at, length, look, box)), dd);
        return box;
    };
    return el("dl", { class: "facts" },
        fact("Edition", placed(look, 0, 1, String(s[0])), s[0] === 2 && ", rules ", s[0] === 2 && placed(look, 30, 1, String(s[30]))),
        fact("Length", counted(s.length, "byte")),
        fact("Serial number", el("code", {}, hex(s.slice(6, 12)))),
        fact("Mask version", el("code", {}, hex(s.slice(12, 14)))),
        place("Address", 16, 2, placed(look, 16, 2, individualText(number(s, 16, 2)))),
        place("Programming mode", 14, 1, placed(look, 14, 1, switchText(s[14] & 1))),
        fact("Verify", switchText(s[14] & 2)),
        ...[0, 1, 2].map(level => place(`Key of level ${level}`, KEYS + KEY * level, KEY, keyView(s, level, look))));
}

/** @param {Uint8Array} s @param {number} level @param {Look} look */
function keyView(s, level, look) {
    const at = KEYS + KEY * level, open = number(s, at, KEY) === 0xffffffff;
    const text = look.keys || open ? hex(s.slice(at, at + KEY)) : HIDDEN;
    return el("span", {}, el("code", {}, placed(look, at, KEY, text)), open && el("small", {}, ` public: it opens level ${level} to all`));
}

/** @param {string} title @param {HTMLElement[]} entries */
const listView = (title, entries) => (entries.length ? el("section", {}, el("h3", {}, title), el("ul", { class: "entries" }, ...entries)) : null);

/** @param {Levels} levels */
const rights = levels => `read ${levels.read}, write ${levels.write}`;

/** @param {Entry} entry @param {Look} look @param {string} name @param {Child[]} meta @param {HTMLElement} value */
function entryView(entry, look, name, meta, value) {
    const box = el("li", { class: look.broken && look.broken.at === entry.at ? "entry broken" : "entry" });
    box.append(el("div", { class: "name" }, named(name, entry.body, entry.length, look, box)), el("div", { class: "meta" }, ...meta), el("div", { class: "value" }, value));
    return box;
}

/** @param {Uint8Array} s @param {Region} r @param {Look} look */
function regionView(s, r, look) {
    const length = Math.min(r.length, Math.max(0, s.length - r.body));
    const pieces = places(r.body, length).map(p => ({ text: DIGITS_OF[s[p]], marked: look.marked(p) }));
    return entryView(r, look, `${memoryText(r.address)} to ${memoryText(r.address + r.length - 1)}`, [counted(r.length, "byte"), ", ", term(placed(look, r.at + 6, 1, rights(r.levels)), () => rightsMean(r.levels))],
        el("code", {}, ...flow(pieces, " ")));
}

/** @param {Uint8Array} s @param {Property} p @param {Look} look */
function propertyView(s, p, look) {
    const room = p.size ? Math.floor(Math.max(0, s.length - p.body) / p.size) : 0, pieces = [];
    for (let i = 0; i < Math.min(p.maximum, room); i++) {
        const at = p.body + i * p.size;
        pieces.push({ text: elementText(s, at, p.size), marked: anyMarked(look, at, p.size), quiet: i >= p.count });
    }
    const meta = [`type ${p.type}, ${writableText(p)}, ${counted(p.size, "byte")} an element, `, term(placed(look, p.at + 10, 1, rights(p.levels)), () => rightsMean(p.levels)), ", ",
        term(el("span", {}, placed(look, p.at + 6, 2, `${p.count} of ${p.maximum}`), " valid"), () => countMeans(p))];
    return entryView(p, look, `${p.object}/${p.id}`, meta, el("span", { class: "elements" }, ...flow(joined(pieces), " ")));
}

// Elements past the count in one piece, where none is marked.
/** @param {{ text: string, marked: boolean, quiet: boolean }[]} pieces */
function joined(pieces) {
    /** @type {{ text: string, marked: boolean, quiet: boolean }[]} */
    const out = [];
    for (const piece of pieces) {
        const last = out[out.length - 1];
        if (last && last.quiet && piece.quiet && !last.marked && !piece.marked) last.text += " " + piece.text;
        else out.push({ ...piece });
    }
    return out;
}

/** @param {Proved} proved @param {Uint8Array} s @param {Group} g @param {Look} look */
function groupView(proved, s, g, look) {
    const bytes = s.slice(g.body, g.body + g.length), pieces = Array.from(bytes, (byte, i) => ({ text: DIGITS_OF[byte], marked: look.marked(g.body + i) }));
    const point = bytes.length === g.length ? pointText(proved, g.code, bytes) : "";
    return entryView(g, look, groupText(g.address), [g.code ? counted(g.code, "byte") : "six bits", `, ${flagText(g.flags)}`],
        el("span", {}, el("code", {}, ...flow(pieces, " ")), point && el("span", { class: "point" }, point)));
}
