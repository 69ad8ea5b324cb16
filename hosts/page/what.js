// What a file is, for the page: what the tools tell apart (kinds.js), with how much of it there is, or what is wrong with it.

const What = (() => {
    /** @param {Uint8Array} bytes */
    const size = bytes => counted(bytes.length, "byte");

    // The form of a recording, found out; of what is none, that of a hex recording, whose fault then says what it is.
    /** @param {string} name @param {Uint8Array} bytes @returns {RecordingForm | "text"} */
    function form(name, bytes) {
        const { kind } = is(name, bytes);
        return kind === "ets" || kind === "knxtool" ? kind : kind === "trace text" ? "text" : "hex";
    }

    /** @param {string} name @param {Uint8Array} bytes @returns {WhatIs} */
    function is(name, bytes) {
        const told = (/** @type {FileKind} */ kind, /** @type {string} */ words, /** @type {string | null} */ fault = null, /** @type {Uint8Array} */ of = bytes) => ({ name, kind, words, fault, bytes: of });
        if (!bytes.length) return told("unknown", "an empty file", "it has no bytes");
        let kind = Kinds.of(bytes), text = "";
        try {
            text = textOf(bytes);
            if (!kind && bytes.length > 3 && !/(?!\p{White_Space})\p{Cc}/u.test(text)) kind = Kinds.ofText(text);
        } catch (error) {
            if (!(error instanceof Fault)) throw error;
        }
        if (kind === "text" && text.startsWith("evidence of a trace:")) return told("evidence", "the evidence of a trace");
        if (kind === "text" || kind === "hex") kind = recordingIn(text) ?? kind;
        const digits = kind === "text" ? Texts.bytes(wordsOf(text).join("")) : 0, inside = typeof digits !== "number" && digits.length ? is(name, digits) : null;
        if (inside && ["bad sheet", "cut sheet", "store", "trace"].includes(inside.kind)) return { ...inside, words: `${inside.words}, in hex digits` };
        switch (kind) {
            case "sheet": return sheet(name, bytes, "a sheet");
            case "sheet hex": return sheet(name, /** @type {Uint8Array} */ (Texts.bytes(wordsOf(text).join(""))), "a sheet in hex digits");
            case "sheet text": return tried(told("bad sheet", "a sheet as text"), () => sheet(name, SheetText.bytes(text), "a sheet as text"));
            case "list": return tried(told("list", "a list of bytes for C"), () => {
                const all = Uint8Array.from(text.match(/0x[0-9a-f]{1,2}\b/gi) ?? [], Number);
                return Kinds.of(all) === "sheet" ? sheet(name, all, "a sheet as a list of bytes for C") : told("list", "a list of bytes for C", "it is no sheet");
            });
            case "store": return told("store", `a store of ${counted(archive.kept(bytes).length, "version")}, ${size(bytes)}`);
            case "trace": return tried(told("trace", "a trace"), () => told("trace", `a trace of ${counted(Events.read(bytes).length, "event")}`));
            case "times": return told("times", "the times of a trace");
            case "trace text": return tried(told(kind, "a trace as text"), () => told("trace text", `a trace as text, ${counted(Texts.events(text).length, "event")}`));
            case "hex": case "ets": case "knxtool": return recording(told(kind, Kinds.NAMES[kind]), kind, text);
            case null: return cut(name, bytes) ?? told("unknown", `no sheet, store, trace or recording, ${size(bytes)}`, "what it is nobody can tell");
            default: return told(kind, Kinds.NAMES[kind], "it is no sheet, store, trace or recording");
        }
    }

    // What is told, with the fault if there is one.
    /** @param {WhatIs} told @param {() => WhatIs} read */
    function tried(told, read) {
        try {
            return read();
        } catch (error) {
            if (!(error instanceof Fault)) throw error;
            return { ...told, fault: error.message };
        }
    }

    /** @param {string} name @param {Uint8Array} bytes @param {string} words @returns {WhatIs} */
    function sheet(name, bytes, words) {
        const rule = archive.check(bytes), fault = rule === 0 ? null : rule === OLD ? "old: convert it" : brokenRule(bytes)?.text ?? Words.outcome(rule);
        if (rule === OLD) return { name, kind: "old sheet", words: words.replace("a sheet", "an old sheet") + `, ${size(bytes)}`, fault, bytes };
        return { name, kind: rule === 0 ? "sheet" : "bad sheet", words: `${words}${rule === 0 ? "" : " that is not accepted"}, ${size(bytes)}`, fault, bytes };
    }

    // A dump that was cut off, or has more behind it: the head of a sheet states another length.
    /** @param {string} name @param {Uint8Array} bytes @returns {WhatIs | null} */
    function cut(name, bytes) {
        const long = bytes.length < 6 ? 0 : number(bytes, 4, 2), kinds = KINDS.every(kind => stated(bytes, kind) <= kind.most);
        if ((bytes[0] !== 1 && bytes[0] !== 2) || !kinds || long < HEAD || long > LONGEST) return null;
        const words = bytes.length < long ? `no whole dump: ${bytes.length} of ${long} bytes` : `no dump of a sheet alone: ${bytes.length} bytes, of which a sheet would have ${long}`;
        return { name, kind: "cut sheet", words, fault: words, bytes };
    }

    /** @param {WhatIs} told @param {RecordingForm} form @param {string} text */
    function recording(told, form, text) {
        const words = (/** @type {Recording} */ { frames }) => `${told.words}, ${counted(frames.length, "frame")}`;
        return tried(told, () => {
            try {
                return { ...told, words: words(Recordings.read(form, text, false)) };
            } catch (error) {
                // one that has the newest first is a recording too
                return { ...told, words: `${words(Recordings.read(form, text, true))}, the newest first` };
            }
        });
    }

    // The form by which frames in a text can be read, also where the tools call it a text: confirmations in hex, a monitor's lines without a label.
    /** @param {string} text */
    function recordingIn(text) {
        for (const form of /** @type {const} */ (["hex", "knxtool"])) {
            try {
                const good = Make.sent(Recordings.read(form, text, false).frames).some(one => "f" in one && one.f.outcome === 0);
                if (good) return form;
            } catch (error) {
                if (!(error instanceof Fault)) throw error;
            }
        }
        return null;
    }

    return { form, is };
})();
