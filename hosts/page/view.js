// Elements of the page, made here and nowhere else of text alone: nothing that was opened or typed is ever taken for markup.

/** @typedef {Node | string | null | undefined | false} Child */

/**
 * An element. Attributes that begin with "on" are listeners; true is an attribute without a value, false none.
 * @template {keyof HTMLElementTagNameMap} K @param {K} tag
 * @param {Record<string, string | number | boolean | ((event: any) => void)>} [attributes] @param {...Child} children
 * @returns {HTMLElementTagNameMap[K]}
 */
function el(tag, attributes = {}, ...children) {
    const element = document.createElement(tag);
    for (const [name, value] of Object.entries(attributes)) {
        if (typeof value === "function") element.addEventListener(name.slice(2), value);
        else if (value === true) element.setAttribute(name, "");
        else if (value !== false) element.setAttribute(name, String(value));
    }
    element.append(...children.filter(child => child !== null && child !== undefined && child !== false && child !== "").map(child => /** @type {Node | string} */ (child)));
    return element;
}

/** @param {string} id */
function byId(id) {
    const element = document.getElementById(id);
    if (!element) throw new Error(`the page has no ${id}`);
    return element;
}

// A button.
/** @param {string} text @param {() => void} action @param {Record<string, string | number | boolean>} [attributes] */
const button = (text, action, attributes = {}) => el("button", { type: "button", ...attributes, onclick: action }, text);

// Lines of a list, of which so many are shown; how many more there are is said.
/** @param {string[]} lines @param {number} most */
const listed = (lines, most) => [...lines.slice(0, most), ...(lines.length > most ? [`and ${lines.length - most} more`] : [])].map(line => el("li", {}, line));

let lastId = 0;
const newId = () => `e${++lastId}`;

// A control with its label; it may stand in a box with others.
/** @param {string} text @param {HTMLElement} box @param {string} [kind] @param {HTMLElement} [control] */
function labelled(text, box, kind = "field", control = box) {
    control.id ||= newId();
    const label = el("label", { for: control.id }, text);
    return el("div", { class: kind }, ...(kind === "check" ? [box, label] : [label, box]));
}

// A choice. By `autocomplete` a browser that loads the page anew is told to bring back nothing, here and in what is typed or ticked.
/** @param {[string, string][]} options value and text @param {(value: string) => void} [chosen] */
function choice(options, chosen) {
    const select = el("select", { autocomplete: "off" }, ...options.map(([value, text]) => el("option", { value }, text)));
    if (chosen) select.addEventListener("change", () => chosen(select.value));
    return select;
}

// Text in which some pieces are marked; pieces that are not become one text.
/** @param {{ text: string, marked?: boolean, quiet?: boolean }[]} pieces @param {string} between */
function flow(pieces, between) {
    /** @type {Child[]} */
    const out = [];
    let plain = "";
    pieces.forEach((piece, i) => {
        const gap = i ? between : "";
        if (!piece.marked && !piece.quiet) {
            plain += gap + piece.text;
            return;
        }
        out.push(plain + gap, el(piece.marked ? "mark" : "small", {}, piece.text));
        plain = "";
    });
    return [...out, plain];
}

/** Whether the window is wide, so that a row of bytes has sixteen. */
const wide = matchMedia("(min-width: 48rem)");
const rowLength = () => (wide.matches ? 16 : 8);
/** So many rows are laid out together, when they come into sight. */
const ROWS = 16;

// Rows in blocks that the browser lays out when they come into sight.
/** @param {HTMLElement[]} rows @param {string} kind */
function inBlocks(rows, kind) {
    const blocks = [];
    for (let i = 0; i < rows.length; i += ROWS) {
        const some = rows.slice(i, i + ROWS);
        const block = el("div", { class: "block" }, ...some);
        block.style.setProperty("--rows", String(some.length));
        blocks.push(block);
    }
    return el("div", { class: kind }, ...blocks);
}

// A byte as digits; of a key dots, unless keys are shown.
/** @param {Uint8Array} s @param {number} p @param {boolean} keys */
const byteShown = (s, p, keys) => (p >= s.length ? "  " : !keys && secret(s, p) ? "••" : DIGITS_OF[s[p]]);

// The bytes of a sheet in rows.
/** @param {Uint8Array} s @param {(p: number) => boolean} marked @param {boolean} keys */
function byteRows(s, marked, keys) {
    const length = rowLength(), rows = [];
    for (let at = 0; at < s.length; at += length) {
        const pieces = places(at, Math.min(length, s.length - at)).map(p => ({ text: byteShown(s, p, keys), marked: marked(p) }));
        rows.push(el("div", { class: "row" }, el("span", { class: "at" }, String(at)), el("code", {}, ...flow(pieces, " "))));
    }
    return inBlocks(rows, "bytes");
}
