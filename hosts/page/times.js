// The side file of a trace, NAME.times (tools/trace/src/times.rs): of each event the time and the sender, where they are known. A
// first line ties it to its trace, the last line says that it is whole.

const Times = (() => {
    /** @returns {Known} */
    const nothing = () => ({ time: null, from: null });

    // As a line of text has it, a blank before each; and for people.
    /** @param {Known} known */
    const words = ({ time, from }) => (time === null ? "" : ` time=${time}`) + (from === null ? "" : ` from=${individualText(from)}`);
    /** @param {Known} known */
    const told = ({ time, from }) => (time === null ? "" : `, at ${time}`) + (from === null ? "" : `, from ${individualText(from)}`);

    // Takes a word such as time=.. or from=..; false if it is none.
    /** @param {Known} known @param {string} field @param {string} value */
    function take(known, field, value) {
        if (field !== "time" && field !== "from") return false;
        if (known[field] !== null) throw new Fault(`${field} is given twice`);
        if (field === "time") known.time = Texts.time(value);
        else known.from = Texts.address(value);
        return true;
    }

    // The sum by which a side file knows its trace: CRC-32.
    /** @param {Uint8Array} bytes */
    function sum(bytes) {
        let all = ~0;
        for (const byte of bytes) {
            all ^= byte;
            for (let i = 0; i < 8; i++) all = (all >>> 1) ^ (all & 1 ? 0xedb88320 : 0);
        }
        return (~all >>> 0).toString(16).padStart(8, "0");
    }

    // What ties a side file to its trace.
    /** @param {Uint8Array} trace @param {number} events */
    const tied = (trace, events) => `events=${events} bytes=${trace.length} sum=${sum(trace)}`;
    /** @param {Uint8Array} trace @param {number} events */
    const firstLine = (trace, events) => `times of a trace: ${tied(trace, events)}`;

    // The side file of a trace; none if nothing is known.
    /** @param {Uint8Array} trace @param {Known[]} known */
    function write(trace, known) {
        const lines = known.flatMap((one, i) => (words(one) ? [`${i + 1}${words(one)}\n`] : []));
        return lines.length ? `${firstLine(trace, known.length)}\n${lines.join("")}end\n` : null;
    }

    // The lines of a side file behind the first, each by its first word, up to the end.
    /** @param {string} text @param {(line: string) => void} first @param {(word: string, words: Line) => void} each */
    function sideLines(text, first, each) {
        let ended = false, last = 1;
        for (const [i, line] of linesOf(text).entries()) {
            last = i + 1;
            inLine(last, () => {
                if (i === 0) return first(line);
                const words = new Line(line), word = words.word();
                if (word === undefined) return;
                if (ended) throw new Fault(`"${short(word)}" stands behind the end`);
                ended = word === "end";
                if (ended) words.end();
                else each(word, words);
            });
        }
        if (!ended) throw new Fault(`line ${last}: end is missing as the last line: it may have been cut off`);
        return last;
    }

    // What a side file says of the events of its trace.
    /** @param {string} text @param {Uint8Array} trace @param {number} events */
    function read(text, trace, events) {
        const known = Array.from({ length: events }, nothing);
        let before = 0;
        sideLines(text, line => {
            if (trimEnd(line) !== firstLine(trace, events)) throw new Fault("it is not of this trace");
        }, (first, words) => {
            const n = whole(first);
            if (n === null) throw new Fault(`no number of an event: "${short(first)}"`);
            if (n <= before || n > events) throw new Fault(`event ${n} is not one of ${before + 1} to ${events}`);
            before = Number(n);
            for (let pair = words.pair(); pair; pair = words.pair())
                if (!take(known[before - 1], ...pair)) throw new Fault(`${short(pair[0])} is neither time nor from`);
        });
        return known;
    }

    return { nothing, words, told, take, tied, write, sideLines, read };
})();
