// What the page says of files: five calls. Their sentences are those of `build/trace`, word by word (docs/TRACE.md); what a person
// can set right is a Fault, or the field `refused`. A frame, an event or a mark is judged by the module alone. No text has a key in it.
//
//   whatIs(proved, name, bytes)                    what a file is, in words; a sheet's text or digits as its bytes
//   makeTrace(proved, recording, sheet, options)   the traces of a recording, with what `trace make` says
//   readTrace(proved, file, sides)                 a trace of a file, with its times and evidence if there are any
//   explain(proved, asked)                         what `trace explain` says, as lines and as facts
//   placeAt(told, at)                              the history of the place that has this byte of the sheet, changed or not, for a list or a plot

/**
 * @typedef {{ name: string, bytes: Uint8Array }} Named a file
 *
 * @typedef {"sheet" | "old sheet" | "bad sheet" | "cut sheet" | "store" | "trace" | "times" | "evidence" | "trace text" | "hex" | "ets"
 *     | "knxtool" | "list" | "json" | "archive" | "program" | "text" | "unknown"} FileKind
 *     "hex", "ets", "knxtool" and "trace text" are recordings; of a sheet as text or in digits the kind is that of its bytes
 *
 * @typedef {object} WhatIs
 * @property {string} name
 * @property {FileKind} kind
 * @property {string} words    such as "a sheet as text, 69 bytes", "no whole dump: 60 of 69 bytes", "a recording of ETS, 11 frames"
 * @property {string | null} fault  what is wrong with it, if it is of this kind and can't be taken
 * @property {Uint8Array} bytes     those of the file, or those that its text says
 *
 * @typedef {object} Trace     a trace with what is known of its events, as `explain` takes it
 * @property {string} name
 * @property {Uint8Array} bytes
 * @property {Happening[]} events
 * @property {Known[]} known
 * @property {Evidence | null} evidence
 *
 * @typedef {object} MadeTrace
 * @property {string | null} refused  why nothing was made, with line and column; then all others are empty
 * @property {boolean} reversible     refused because it has the newest first (or was asked for in reverse and has not)
 * @property {string[]} said          the lines of `trace make`
 * @property {Trace[]} traces         one, or several that go on one after the other
 * @property {{ name: string, bytes: Uint8Array }[]} files  all files that `trace make` writes: each trace, its times, its evidence
 * @property {number} frames          how many were recorded
 *
 * @typedef {object} ToldEvent  an event of the traces, for people
 * @property {number} number    in all traces, from 1; of its own trace: index + 1
 * @property {string} trace     its trace's name
 * @property {number} index
 * @property {string} name      "event 3 of laptop.trace"
 * @property {string} words     "property_write object=1 id=51 n=1 s=1 data=03fc", "connect connection=0"
 * @property {string | null} time
 * @property {string | null} from      the sender, as the frame says
 * @property {number | null} connection  whose rights count
 * @property {number | null} level     at which it acted; null of what is no request
 * @property {ToldEvent | null} offer  the event that offered the key, of a level below 3
 * @property {number} outcome
 * @property {string} outcomeWords
 * @property {boolean} done            carried out
 *
 * @typedef {object} ToldStep   a change of a place by an event
 * @property {ToldEvent} event
 * @property {string | null} old  in words; null of a key
 * @property {string | null} new
 * @property {Uint8Array} oldBytes
 * @property {Uint8Array} newBytes
 * @property {string[]} doubts  each begins with "not sure: "
 *
 * @typedef {object} Refusal    a request that named a place to write it and was not carried out
 * @property {ToldEvent} event
 * @property {string} why       "needs level 1, the connection has level 2"; else the outcome in words
 * @property {string} words     the tool's sentence: "asked for and not done, refused (11), by event 8 of .."
 * @property {Uint8Array | null} asked  the bytes that it would have written there, where it says them
 * @property {string | null} askedWords
 * @property {number | null} askedNumber
 * @property {boolean} otherwise  the recorded answer says that it was done
 * @property {string[]} doubts
 *
 * @typedef {object} ToldPlace  a place of the sheet, with all that the traces say of it
 * @property {number} at        its first byte
 * @property {number} length
 * @property {string} name      "property 1/51 element 1"
 * @property {string[]} words   "property 1/51 element 1: 1000 → 1020"; none if no event changed it
 * @property {boolean} location a level is asked for it
 * @property {string | null} first  its value at first, in words
 * @property {string | null} last   as the events leave it
 * @property {number | null} firstNumber  the same as numbers, where it is a number or up to four bytes
 * @property {number | null} lastNumber
 * @property {ToldStep[]} steps every event that changed it, in order
 * @property {{ event: ToldEvent, bytes: number[] }[]} by  the events that left its bytes as they are, the last first
 * @property {ToldEvent | null} again  the last that wrote it and left it as it was
 * @property {Refusal[]} refused  every request that named it in vain
 * @property {string[]} doubts
 * @property {string[]} left    requests that are no events, and named it
 * @property {ToldPoint[]} plot its value over the events, from the start on, with refused attempts
 *
 * @typedef {object} ToldPoint
 * @property {number} event     0 at the start
 * @property {string | null} time
 * @property {number | null} value  as a number; null where it is none
 * @property {boolean} refused  an attempt at this value, which the place did not get
 *
 * @typedef {object} ToldOther  a place that the later dump has otherwise than the events leave it
 * @property {number} at
 * @property {number} length
 * @property {string} name
 * @property {string[]} words   "property 1/51 element 1: 1020 → 640"
 * @property {boolean} never    no event of the traces gave it
 * @property {string[]} lines   all that is said of it, as the tool does
 * @property {Refusal[]} refused
 * @property {string[]} doubts
 * @property {string | null} dump  the dump's value in words
 * @property {number | null} dumpNumber
 *
 * @typedef {object} ToldFinal  a later dump beside what the events give
 * @property {"same" | "older" | "mixed" | "past" | "layout" | "broken"} kind
 * @property {string} head      the first line: "after.sheet: 2 bytes other than the events leave them, .."
 * @property {string} follows   what follows from it: "somebody wrote past the device, or the traces lack events"
 * @property {ToldOther[]} places
 * @property {string[]} lines   of another layout or a broken sheet, what differs
 *
 * @typedef {object} Explanation
 * @property {string[]} lines   as `trace explain` prints them
 * @property {string} summary   the first of them
 * @property {string[]} shows   what the recordings show, and lack
 * @property {ToldEvent[]} events
 * @property {ToldPlace[]} changes  the places that events changed, in the order of the bytes
 * @property {ToldFinal | null} final
 * @property {boolean} explained    there is no later dump, or it is what the events give
 * @property {Story} story      for placeAt
 * @property {Account[]} accounts
 */

/**
 * What a file is, by its bytes.
 * @param {Proved} proved @param {string} name @param {Uint8Array} bytes @returns {WhatIs}
 */
function whatIs(proved, name, bytes) {
    archive = proved;
    return What.is(name, bytes);
}

/**
 * The traces of a recording: of a hex recording, an ETS export, knxtool's text or a trace's text. The sheet is the device's at
 * their start, which a trace's text does not need.
 * @param {Proved} proved @param {Named} recording @param {Uint8Array | null} sheet
 * @param {{ form?: RecordingForm | "text", reverse?: boolean, trace?: string }} [options] the form is found out if it is not
 *     given; the trace's name is the recording's with the ending .trace
 * @returns {MadeTrace}
 */
function makeTrace(proved, recording, sheet, options = {}) {
    archive = proved;
    const { name, bytes } = recording, named = options.trace ?? `${name.replace(/\.[^./]*$/, "")}.trace`;
    try {
        const form = options.form ?? What.form(name, bytes), text = Asked.text(name, bytes, form);
        if (form !== "text" && !sheet) throw new Fault(`${name}: whose frames these are is told by the device's sheet at their start, and there is none`);
        if (form !== "text" && sheet) Asked.sheet({ name: "the sheet at their start", bytes: sheet });
        const made = Asked.fault(name, text, form, () => (form === "text" ? { events: Texts.events(text), frames: 0, left: new Map(), evidence: null }
            : Make.fromFrames(Recordings.read(form, text, options.reverse ?? false), /** @type {Uint8Array} */ (sheet))));
        const parts = Make.parts(made), names = Make.names(named, parts.length), encode = (/** @type {string} */ text) => new TextEncoder().encode(text);
        return { refused: null, reversible: false, said: Make.text(made, parts, names), frames: made.frames,
            traces: parts.map((part, i) => ({ name: plain(names[i]), bytes: part.bytes, events: part.events, known: part.known, evidence: part.evidence })),
            files: parts.flatMap((part, i) => [{ name: names[i], bytes: part.bytes }, ...(part.times ? [{ name: `${names[i]}.times`, bytes: encode(part.times) }] : []),
                ...(part.side ? [{ name: `${names[i]}.evidence`, bytes: encode(part.side) }] : [])]) };
    } catch (error) {
        if (!(error instanceof Fault)) throw error;
        return { refused: error.message, reversible: error.message.includes(": the times fall throughout: "), said: [], traces: [], files: [], frames: 0 };
    }
}

/**
 * A trace of a file, if the module accepts it; a Fault says why not, and where.
 * @param {Proved} proved @param {Named} file @param {{ times?: Named | null, evidence?: Named | null }} [sides] @returns {Trace}
 */
function readTrace(proved, file, sides = {}) {
    archive = proved;
    const { name, bytes } = file, events = Asked.named(name, () => Events.read(bytes), () => Kinds.other(bytes, "trace"));
    /** @template T @param {Named | null | undefined} side @param {(text: string) => T} read */
    const side = (side, read) => (side ? Asked.named(side.name, () => read(textOf(side.bytes))) : null);
    const known = side(sides.times, text => Times.read(text, bytes, events.length)), evidence = side(sides.evidence, text => Evidence.read(text, bytes, events.length));
    return { name: plain(name), bytes, events, known: known ?? events.map(Times.nothing), evidence };
}

/**
 * What traces explain of a sheet, and of a later dump if there is one.
 * @param {Proved} proved @param {{ before: Named, traces: Trace[], after?: Named | null, all?: boolean }} asked
 *     `before` must be an accepted sheet, else a Fault says why not; `all` lists every change of a place in the lines, which the facts do anyhow
 * @returns {Explanation}
 */
function explain(proved, asked) {
    archive = proved;
    const { before, traces, after = null, all = false } = asked;
    Asked.sheet(before);
    const other = after && Kinds.other(after.bytes, "sheet");
    if (after && other) throw new Fault(`${after.name}: ${other}`);
    return Facts.tell(new Story(before.bytes, traces, after && after.bytes), plain(before.name), after && { name: plain(after.name), bytes: after.bytes }, all);
}

/**
 * The place that has this byte, with its history.
 * @param {Explanation} told @param {number} at @returns {ToldPlace}
 */
function placeAt(told, at) {
    return Facts.placeAt(told, at);
}
