// The text of a file, and its words (tools/trace/src/decode.rs): UTF-8, or UTF-16 in either order of bytes. What is neither is refused,
// by its name or by the place of the first byte that is no text. Blanks, lines and characters are those of the tool.

/** The module that is asked; each call of api.js sets it. */
let archive = /** @type {Proved} */ (/** @type {unknown} */ (null));

/** @param {string} text */
const linesOf = text => {
    const all = text.split("\n"), last = all.length - 1;
    return all.map((line, i) => (i < last && line.endsWith("\r") ? line.slice(0, -1) : line)).filter((line, i) => i < last || line);
};
/** @param {string} text */
const wordsOf = text => text.match(/\P{White_Space}+/gu) ?? [];
/** @param {string} text */
const trimStart = text => text.replace(/^\p{White_Space}+/u, "");
/** @param {string} text */
function trimEnd(text) {
    let end = text.length;
    while (end > 0 && /\p{White_Space}/u.test(text[end - 1])) end--;
    return text.slice(0, end);
}
/** @param {string} text */
const trim = text => trimStart(trimEnd(text));
// Letters of ASCII alone.
/** @param {string} a @param {string} b */
const sameName = (a, b) => a.length === b.length && [a, b].map(name => name.replace(/[A-Z]/g, c => c.toLowerCase())).every((name, _, all) => name === all[0]);

// A text as a message can have it: ? for what can't be printed.
/** @param {string} text */
const plain = text => text.replace(/[\p{C}\p{Z}\p{Gr_Ext}]/gu, c => (c === " " ? c : "?"));

// A word as a message has it: its first 24 characters.
/** @param {string} word */
function short(word) {
    const all = [...plain(word)];
    return all.slice(0, 24).join("") + (all.length > 24 ? ".." : "");
}

// The last of some for which it holds.
/** @template T @param {T[]} all @param {(one: T) => boolean} holds */
const lastOf = (all, holds) => all.filter(holds).pop();

/** @param {number} n @param {string} what */
const many = (n, what) => `${n} ${what}${n === 1 ? "" : "s"}`;

// A number without a sign or with +, as wide as 64 bits.
/** @param {string} word */
function whole(word) {
    const value = /^\+?[0-9]+$/.test(word) ? BigInt(word.replace("+", "")) : -1n;
    return value >= 0n && value < 1n << 64n ? value : null;
}

const MARK = "\ufeff";

// What is wrong behind so much text.
/** @param {string} upto @param {string} what */
function behind(upto, what) {
    const all = (upto.startsWith(MARK) ? upto.slice(1) : upto).split("\n");
    return new Fault(`line ${all.length}, column ${1 + [...all[all.length - 1]].length}: ${what}`);
}

/** @param {Uint8Array} bytes @param {boolean} high whether the high byte is first */
function utf16(bytes, high) {
    let text = "";
    for (let i = 0; i + 1 < bytes.length; i += 2) text += String.fromCharCode(high ? (bytes[i] << 8) | bytes[i + 1] : bytes[i] | (bytes[i + 1] << 8));
    const half = /\p{Cs}/u.exec(text);
    if (half || bytes.length % 2) throw behind(half ? text.slice(0, half.index) : text, "half a character of UTF-16");
    return text;
}

/** @param {Uint8Array} bytes */
function utf8(bytes) {
    // so many bytes, of which the last character may be cut off; null if a byte before that is no text
    const upTo = (/** @type {number} */ n) => {
        try {
            return new TextDecoder("utf-8", { fatal: true, ignoreBOM: true }).decode(bytes.subarray(0, n), { stream: true });
        } catch {
            return null;
        }
    };
    try {
        return new TextDecoder("utf-8", { fatal: true, ignoreBOM: true }).decode(bytes);
    } catch {
        let good = 0, bad = 1;
        while (bad <= bytes.length && upTo(bad) !== null) [good, bad] = [bad, 2 * bad];
        bad = Math.min(bad, bytes.length + 1);
        while (bad - good > 1) {
            const middle = (good + bad) >> 1;
            if (upTo(middle) === null) bad = middle;
            else good = middle;
        }
        throw behind(upTo(good) ?? "", "a byte that is no text");
    }
}

// The text, without the mark that some editors put in front; or a fault with its place.
/** @param {Uint8Array} b */
function textOf(b) {
    const begins = (/** @type {number[]} */ ...with_) => b.length >= with_.length && with_.every((byte, i) => byte === b[i]);
    const four = b.length >= 4;
    if (begins(0xff, 0xfe, 0, 0) || begins(0, 0, 0xfe, 0xff)) throw new Fault("line 1, column 1: UTF-32, which is not read");
    // without a mark: a text begins with a character below 256, which has a byte of zero
    const low = begins(0xff, 0xfe) || (four && b[0] && !b[1] && b[2] && !b[3]), high = begins(0xfe, 0xff) || (four && !b[0] && b[1] && !b[2] && b[3]);
    const text = low || high ? utf16(b, !low) : utf8(b);
    return text.startsWith(MARK) ? text.slice(1) : text;
}
