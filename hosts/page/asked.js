// What is asked of files, and how a fault of one is told (tools/trace/src/main.rs): by its name, and by what it is if it is of another kind.

const Asked = (() => {
    /** The longest recording or text that is read. */
    const LONGEST = 1 << 28;
    /** The kind that is wanted for a form. */
    const WANTED = /** @type {const} */ ({ text: "trace text", hex: "hex", ets: "ets", knxtool: "knxtool" });

    // A fault with the file's name before it, or with what the file is instead.
    /** @template T @param {string} name @param {() => T} read @param {() => string | null} [instead] @returns {T} */
    function named(name, read, instead = () => null) {
        try {
            return read();
        } catch (error) {
            throw error instanceof Fault ? new Fault(`${name}: ${instead() ?? error.message}`) : error;
        }
    }

    // The text of a recording.
    /** @param {string} name @param {Uint8Array} bytes @param {keyof typeof WANTED} form */
    function text(name, bytes, form) {
        if (bytes.length > LONGEST) throw new Fault(`${name}: more than ${LONGEST} bytes`);
        return named(name, () => textOf(bytes), () => Kinds.other(bytes, WANTED[form]));
    }

    // What is read of a text. It may begin with anything, and its fault is told by its line: what it is by its first word is told where it is another's.
    /** @template T @param {string} name @param {string} text @param {keyof typeof WANTED} form @param {() => T} read */
    function fault(name, text, form, read) {
        const bytes = () => new TextEncoder().encode(text.slice(0, Kinds.MOST));
        return named(name, read, () => (Kinds.of(bytes()) === "text" ? null : Kinds.other(bytes(), WANTED[form])));
    }

    // A sheet that the module accepts.
    /** @param {Named} file */
    function sheet({ name, bytes }) {
        const rule = archive.check(bytes);
        if (rule !== 0) named(name, () => { throw new Fault(rule === OLD ? "old: convert it" : brokenRule(bytes)?.text ?? Words.outcome(rule)); }, () => Kinds.other(bytes, "sheet"));
    }

    return { named, text, fault, sheet };
})();
