// Recordings of a bus (tools/trace/src/recordings.rs): frames of the USB interface in hex, ETS's export of a group or bus monitor,
// knxtool's bus monitor. A fault in one names its line and column.

/** @typedef {{ line: number, time: string | null, bytes: Uint8Array, wire: boolean, status: number | null }} Recorded a frame; wire: as on the wire; status: the bus monitor's */
/** @typedef {{ frames: Recorded[], notes: Note[], back: number[] }} Recording its frames, oldest first; the gaps that it tells; the frames at which its times go back */
/** @typedef {"hex" | "ets" | "knxtool"} RecordingForm */
/** @typedef {{ word: string, at: number }} Placed a word and where it stands in its line */
/** @typedef {{ time: string | null, bytes: Uint8Array, wire: boolean, status: number | null }} Said */
/** @typedef {{ frame: Recorded } | { started: number, time: string | null } | { stopped: number, time: string | null } | { connected: boolean, line: number }} Item what stands in a recording */

/** Where in a line it is wrong, and how. */
class Misplaced extends Error {
    /** @param {number} at @param {string} what */
    constructor(at, what) {
        super(what);
        this.at = at;
    }
}

const Recordings = (() => {
    /** So many frames a recording has at most, so that none takes more memory than there is. */
    const MOST = 2000000;

    // Reads a recording; one that has the newest frame first is to be read in reverse.
    /** @param {RecordingForm} form @param {string} text @param {boolean} reverse @returns {Recording} */
    function read(form, text, reverse) {
        const items = form === "hex" ? lines(text, hexLine) : form === "ets" ? ets(text) : lines(text, knxtoolLine);
        const { frames, notes } = joined(reverse ? items.reverse() : items), { back, falls } = Order.judged(frames.map(frame => frame.time));
        const all = notes.concat(Gaps.byStatus(frames)).sort((a, b) => a.before - b.before);
        if (falls) {
            const instead = reverse ? "it has the oldest first, and is read without --reverse" : "it has the newest first, and --reverse takes it so";
            throw new Fault(`line ${frames[back[0]].line}: the times fall throughout: ${instead}`);
        }
        return { frames, notes: all, back };
    }

    // Frames and gaps of what stands in a recording.
    /** @param {Item[]} items */
    function joined(items) {
        /** @type {Recorded[]} */
        const frames = [];
        /** @type {Note[]} */
        const notes = [];
        const note = (/** @type {number} */ line, /** @type {GapWhy} */ gap) => notes.push({ before: frames.length, line, gap });
        let started = false, connected = true;
        /** @type {{ stopped: number, time: string | null } | null} */
        let stopped = null;
        /** @type {number | null} */
        let apart = null;
        for (const item of items) {
            if ("started" in item) {
                if (stopped || started || frames.length) note(item.started, { why: "stopped", from: stopped ? stopped.time : null, to: item.time });
                [stopped, started] = [null, true];
            } else if ("stopped" in item) {
                stopped = item;
            } else if ("connected" in item) {
                connected = item.connected;
                if (connected && apart !== null) note(apart, { why: "unconnected" });
                apart = connected ? null : item.line;
            } else {
                // what is recorded though nobody said that it goes on
                if (stopped) note(stopped.stopped, { why: "stopped", from: stopped.time, to: null });
                stopped = null;
                if (!connected && apart !== null) {
                    note(apart, { why: "unconnected" });
                    apart = null;
                }
                frames.push(item.frame);
            }
        }
        return { frames, notes };
    }

    /** @param {string} text @param {(line: string) => Said | null} read */
    function lines(text, read) {
        /** @type {Item[]} */
        const all = [];
        for (const [i, line] of linesOf(text).entries()) {
            try {
                const said = read(line);
                if (said && all.length === MOST) throw new Fault(`line ${i + 1}: more than ${MOST} frames`);
                if (said) all.push({ frame: { line: i + 1, ...said } });
            } catch (error) {
                throw error instanceof Misplaced ? new Fault(`line ${i + 1}, column ${[...line.slice(0, error.at)].length + 1}: ${error.message}`) : error;
            }
        }
        return all;
    }

    // The words of a part of a line that begins there.
    /** @param {string} part @param {number} from @returns {Placed[]} */
    const placed = (part, from) => Array.from(part.matchAll(/\P{White_Space}+/gu), found => ({ word: found[0], at: from + (found.index ?? 0) }));

    // Bytes in hex, in one word or in words of two digits each.
    /** @param {Placed[]} words */
    function hexWords(words) {
        const bytes = [];
        for (const { word, at } of words) {
            if (words.length > 1 && word.length !== 2 && /^[0-9a-f]*$/i.test(word)) throw new Misplaced(at, "a frame is one word, or a word of two digits for each byte");
            const read = Texts.bytes(word);
            if (typeof read === "number") throw new Misplaced(at + read, read === word.length ? "half a byte" : "no hex digit");
            for (const byte of read) bytes.push(byte);
        }
        return Uint8Array.from(bytes);
    }

    // The words of a time, such as a date and a clock's, as one.
    /** @param {Placed[]} words */
    function timeOf(words) {
        if (words.length > 2) throw new Misplaced(words[words.length - 1].at, "a time has a date and a clock at most");
        try {
            return words.length ? Texts.time(words.map(of => of.word).join("T")) : null;
        } catch (error) {
            throw error instanceof Fault ? new Misplaced(words[0].at, error.message) : error;
        }
    }

    // A frame of the USB interface; words before it with : . or - in them are its time.
    /** @param {string} line @returns {Said | null} */
    function hexLine(line) {
        const said = line.split("#")[0], words = placed(said, 0), first = words.findIndex(of => !/[:.-]/.test(of.word));
        if (!words.length) return null;
        const time = timeOf(first < 0 ? words : words.slice(0, first));
        if (first < 0) throw new Misplaced(trimEnd(said).length, "a time and no frame");
        return { time, bytes: hexWords(words.slice(first)), wire: false, status: null };
    }

    /** What knxtool's bus monitors write before the bytes. */
    const LABELS = ["L_Busmonitor:", "L_Busmon:", "LPDU:"];

    // A frame as on the wire, from one of knxtool's bus monitors: with a label before it and its meaning behind it; bare; with status and
    // time in front; or of its log with date and clock.
    /** @param {string} line @returns {Said | null} */
    function knxtoolLine(line) {
        const note = trim(line), label = LABELS.find(label => line.includes(label));
        if (!note || note.startsWith("TS-Base:") || note.includes("Logfile ")) return null;
        let from = label ? line.indexOf(label) + label.length : 0, status = null;
        let clock = label ? placed(line.slice(0, line.indexOf(label)), 0).filter(of => of.word !== ":") : [];
        if (!label && trimStart(line).startsWith("(")) {
            const open = line.indexOf("(") + 1, close = line.indexOf(")", open);
            if (close < 0) throw new Misplaced(line.length, ") is due");
            const [first, ...rest] = line.slice(open, close).split(",");
            let at = open + first.length + 1;
            clock = rest.map(word => {
                const start = at, inner = trim(word);
                at += word.length + 1;
                return { word: inner, at: inner ? start + word.indexOf(inner) : start };
            });
            const digits = /^\+?([0-9a-f]+)$/i.exec(trim(first)), value = digits ? parseInt(digits[1], 16) : 256;
            status = value < 256 ? value : null;
            from = close + 1;
        }
        // behind the bytes, their meaning
        const colon = line.indexOf(":", from), upto = colon < 0 ? line.length : colon;
        if (!label && colon >= 0) throw new Misplaced(colon, "neither bytes nor a label before them");
        const words = placed(line.slice(from, upto), from);
        if (!words.length || note.includes("empty LPDU")) return null;
        return { time: timeOf(clock), bytes: hexWords(words), wire: true, status };
    }

    /** The code of an indication of the bus monitor, which has a frame as on the wire behind its additional information; the type of that which tells the status. */
    const BUSMON = 0x2b, STATUS = 3;

    // The status of a bus monitor in the additional information of a frame.
    /** @param {Uint8Array} info */
    function statusIn(info) {
        for (let at = 0; at + 2 <= info.length; at += 2 + info[at + 1]) if (info[at] === STATUS && info[at + 1] === 1) return at + 2 < info.length ? info[at + 2] : null;
        return null;
    }

    const EXPORT = "CommunicationLog", TELEGRAM = "Telegram";

    // The telegrams of an export, each by its RawData. One of a quiet bus has none; what has none and is no export is refused.
    /** @param {string} text */
    function ets(text) {
        /** @type {Item[]} */
        const all = [];
        /** @type {Fault | null} */
        let other = null;
        let frames = 0, root = true;
        Xml.elements(text, element => {
            const { line } = element, is = (/** @type {string} */ name) => sameName(element.name, name);
            if (root && !is(EXPORT)) other = element.fault(`neither a ${TELEGRAM} in it nor ${EXPORT} as its name: no export`);
            root = false;
            const time = () => {
                const word = element.attribute("Timestamp");
                try {
                    return word === null ? null : Texts.time(word);
                } catch (error) {
                    throw error instanceof Fault ? element.fault(error.message) : error;
                }
            };
            if (is("RecordStart")) all.push({ started: line, time: time() });
            else if (is("RecordStop")) all.push({ stopped: line, time: time() });
            else if (is("Connection") || is("ConnectionState")) {
                const state = element.attribute("State");
                if (state !== null) all.push({ connected: sameName(trim(state), "Established"), line });
            }
            if (!is(TELEGRAM)) return;
            const format = element.attribute("FrameFormat") ?? "CommonEmi", raw = element.attribute("RawData");
            if (!sameName(format, "CommonEmi")) throw element.fault(`a ${TELEGRAM} of the format "${short(format)}", not CommonEmi`);
            if (raw === null) throw element.fault(`a ${TELEGRAM} without RawData`);
            let bytes = Texts.bytes(trim(raw));
            if (typeof bytes === "number") throw element.fault(`RawData is not bytes in hex from its digit ${bytes + 1} on`);
            const at = time(), wire = bytes[0] === BUSMON, start = 2 + (bytes[1] ?? 0), there = start <= bytes.length;
            const status = wire && there ? statusIn(bytes.subarray(2, start)) : null;
            if (wire) bytes = bytes.subarray(there ? start : bytes.length);
            all.push({ frame: { line, time: at, bytes, wire, status } });
            if (++frames > MOST) throw element.fault(`more than ${MOST} frames`);
        });
        if (other && frames === 0) throw other;
        return all;
    }

    return { MOST, read };
})();
