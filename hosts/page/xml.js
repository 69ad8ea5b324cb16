// As much of XML as an export of telegrams has (tools/trace/src/xml.rs): elements with attributes, text, comments, instructions. What
// is not well formed is refused with its line and column; so is a DOCTYPE, which no export has.

/** @typedef {{ name: string, attribute: (name: string) => string | null, line: number, fault: (what: string) => Fault }} XmlElement */

class Xml {
    /** @param {string} text */
    constructor(text) {
        this.text = text.startsWith(MARK) ? text.slice(1) : text;
        this.at = 0;
        this.line = 1;
        this.lineStart = 0;
        /** @type {string[]} */
        this.open = [];
        // the root has ended
        this.ended = false;
    }

    /** So deep an export is at most, and so many attributes an element has. */
    static MOST = 64;

    // Hands every element of a text to a function, in order; the first fault, or the function's, ends it.
    /** @param {string} text @param {(element: XmlElement) => void} each */
    static elements(text, each) {
        const r = new Xml(text);
        while (r.at < r.text.length) {
            if (r.is("<!--")) r.past("<!--", "-->", "a comment");
            else if (r.is("<![CDATA[") && r.open.length) r.past("<![CDATA[", "]]>", "a CDATA section");
            else if (r.is("<?")) r.past("<?", "?>", "an instruction");
            else if (r.is("<!")) throw r.fault("a declaration such as DOCTYPE, which no export has");
            else if (r.is("</")) r.endTag();
            else if (r.is("<")) each(r.startTag());
            else r.outside();
        }
        if (r.open.length) throw r.fault(`the end: ${short(r.open[r.open.length - 1])} has not ended`);
        if (!r.ended) throw r.fault("the end, and no element before it");
    }

    /** @param {string} what */
    is(what) {
        return this.text.startsWith(what, this.at);
    }

    // A fault here, or there. A whole export may be one line, so columns are counted for a fault alone.
    /** @param {string} what @param {{ line: number, lineStart: number, at: number }} place */
    fault(what, place = this) {
        return new Fault(`line ${place.line}, column ${[...this.text.slice(place.lineStart, place.at)].length + 1}: ${what}`);
    }

    here() {
        return { line: this.line, lineStart: this.lineStart, at: this.at };
    }

    /** @param {number} length */
    go(length) {
        const upto = this.at + length;
        for (let i = this.at; i < upto; i++) {
            if (this.text[i] !== "\n") continue;
            this.line++;
            this.lineStart = i + 1;
        }
        this.at = upto;
    }

    // What a pattern finds right here is passed.
    /** @param {RegExp} pattern */
    take(pattern) {
        pattern.lastIndex = this.at;
        const [found] = pattern.exec(this.text) ?? [""];
        this.go(found.length);
        return found;
    }

    blanks() {
        return this.take(/\p{White_Space}*/uy).length > 0;
    }

    /** @param {string} start @param {string} end @param {string} what */
    past(start, end, what) {
        const at = this.text.indexOf(end, this.at + start.length);
        if (at < 0) throw this.fault(`${what} without its end`);
        this.go(at + end.length - this.at);
    }

    // Text between tags; around the root there are blanks alone.
    outside() {
        if (this.open.length) this.take(/[^<]*/y);
        else this.blanks();
        if (!this.open.length && this.at < this.text.length && !this.is("<")) throw this.fault("text outside of all elements");
    }

    name() {
        const name = this.take(/[\p{Alphabetic}\p{N}_.:-]*/uy);
        if (!name) throw this.fault("a name is due");
        return name;
    }

    endTag() {
        const start = this.here();
        this.go(2);
        const name = this.name();
        this.blanks();
        if (!this.is(">")) throw this.fault("> is due");
        if (this.open.pop() !== name) throw this.fault(`${short(name)} ends and is not open`, start);
        this.go(1);
        this.ended = this.open.length === 0;
    }

    /** @returns {XmlElement} */
    startTag() {
        const start = this.here(), local = (/** @type {string} */ name) => name.slice(name.lastIndexOf(":") + 1);
        if (this.ended) throw this.fault("a second root");
        this.go(1);
        const name = this.name();
        /** @type {[string, string][]} */
        const attributes = [];
        const named = (/** @type {string} */ name) => attributes.find(of => sameName(of[0], name))?.[1] ?? null;
        for (;;) {
            const blank = this.blanks();
            if (this.is("/>")) {
                this.go(2);
                this.ended = this.open.length === 0;
                break;
            }
            if (this.is(">")) {
                this.go(1);
                if (this.open.push(name) > Xml.MOST) throw this.fault(`more than ${Xml.MOST} elements in each other`);
                break;
            }
            if (!blank) throw this.fault("a blank, > or /> is due");
            if (attributes.length === Xml.MOST) throw this.fault(`more than ${Xml.MOST} attributes`);
            const attribute = local(this.name());
            if (named(attribute) !== null) throw this.fault(`${short(attribute)} is given twice`);
            attributes.push([attribute, this.value()]);
        }
        return { name: local(name), attribute: named, line: start.line, fault: what => this.fault(what, start) };
    }

    // = and a value in quotation marks.
    value() {
        this.blanks();
        if (!this.is("=")) throw this.fault("= is due");
        this.go(1);
        this.blanks();
        const quote = this.text[this.at];
        if (quote !== '"' && quote !== "'") throw this.fault("a value in quotation marks is due");
        this.go(1);
        for (let value = ""; ;) {
            value += this.take(quote === '"' ? /[^"<&]*/y : /[^'<&]*/y);
            if (this.at === this.text.length) throw this.fault("a value without its end");
            if (this.is("<")) throw this.fault("< in a value");
            if (this.is("&")) value += this.entity();
            else {
                this.go(1);
                return value;
            }
        }
    }

    entity() {
        const end = this.text.indexOf(";", this.at), name = end < 0 ? "" : this.text.slice(this.at + 1, end);
        const named = /** @type {Record<string, string>} */ ({ amp: "&", lt: "<", gt: ">", quot: '"', apos: "'" });
        const digits = /^#(?:x\+?([0-9a-f]+)|\+?([0-9]+))$/i.exec(name), code = digits && name[1] !== "X" ? (digits[1] ? parseInt(digits[1], 16) : Number(digits[2])) : -1;
        const number = code >= 0 && code <= 0x10ffff && (code < 0xd800 || code > 0xdfff);
        if (!number && !Object.keys(named).includes(name)) throw this.fault("& and no character's name behind it");
        this.go(name.length + 2);
        return number ? String.fromCodePoint(code) : named[name];
    }
}
