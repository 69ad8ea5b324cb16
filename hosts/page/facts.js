// The facts of an explanation as the page shows them (api.js has their types): events, the places that they changed, refused requests
// with what they lacked, and the value of a place over the events.

const Facts = (() => {
    const DENIED = 11, DENIED_SILENT = 12;

    // An event for people.
    /** @param {Story} story @param {number} number @param {boolean} [offers] @returns {ToldEvent} */
    function event(story, number, offers = true) {
        const { trace, index, event: e, outcome, level, offer } = story.fact(number), { time, from } = trace.known[index], connection = Events.rights(e);
        return { number, trace: trace.name, index, name: Accounts.name(story, number), words: Texts.meaning(e), time, from: from === null ? null : individualText(from), connection,
            level: e.kind === REQUEST ? level : null, offer: offers && connection !== null && level < 3 && offer > 0 ? event(story, offer, false) : null,
            outcome, outcomeWords: Words.outcome(outcome), done: carriedOut(outcome) };
    }

    // Bytes as a number, where a person reads them so.
    /** @param {Place} place @param {Uint8Array | null} bytes */
    const numeric = (place, bytes) => (bytes && (place.form === "number" ? bytes.length <= 6 : (place.form === "memory" || place.form === "bytes") && bytes.length <= 4) ? number(bytes, 0, bytes.length) : null);

    // The bytes that a request would write to a place, where it says them all.
    /** @param {FlatPdu} pdu @param {{ target: Target, length: number }} place */
    function askedBytes({ kind, fields, data }, { target, length }) {
        const { address, n, s } = /** @type {Record<string, number>} */ (fields);
        const from = "address" in target && kind !== MEMORY_BIT_WRITE ? target.address - address : target.is === "element" && data.length === n * length ? (target.i - s) * length
            : target.is === "count" && s === 0 ? 0 : -1;
        return from >= 0 && from + length <= data.length ? data.slice(from, from + length) : null;
    }

    // Why a request was denied, as far as the place that it named tells: its level, or what it is.
    /** @param {Story} story @param {number} number @param {Change<unknown>["place"]} place */
    function why(story, number, { target, entry }) {
        const { outcome, level, event: e } = story.fact(number), kind = story.writes.get(number)?.pdu.kind;
        const levels = entry && entry.kind !== "group" ? entry.levels : null;
        const needs = target.is === "key" ? target.level : levels ? (kind === MEMORY_BIT_WRITE ? Math.min(levels.read, levels.write) : levels.write) : 3;
        if (outcome !== DENIED && outcome !== DENIED_SILENT) return `${Words.outcome(outcome)} (${outcome})`;
        if (entry && entry.kind === "property" && !entry.writable) return "it is not writable";
        if (level > needs) return `needs level ${needs}, ${Events.rights(e) === null ? "and on no connection there is level" : "the connection has level"} ${level}`;
        return target.is === "memory" || target.is === "user" ? "the range is not within one region" : "no such elements, or data of another length";
    }

    /** @param {Story} story @param {{ target: Target, length: number, place: Place }} change @returns {Refusal[]} */
    const refusals = (story, change) => story.named(change, false).map(number => {
        const [words, ...doubts] = Accounts.refusedTold(story, number), write = story.writes.get(number), asked = write ? askedBytes(write.pdu, change) : null;
        return { event: event(story, number), why: why(story, number, change.place), words, doubts, asked, otherwise: story.refusal(number).otherwise,
            askedWords: asked && Places.value(change.place, asked), askedNumber: numeric(change.place, asked) };
    });

    // A place, with its account if events changed it.
    /** @param {Story} story @param {Place} place @param {Account | null} account @returns {ToldPlace} */
    function told(story, place, account) {
        const { at, length, target } = place, refused = refusals(story, { target, length, place }), steps = account ? account.steps : [], first = Places.of(place, story.first), last = Places.of(place, story.last);
        const value = (/** @type {Uint8Array} */ bytes) => Places.value(place, bytes);
        const plot = [{ event: 0, time: /** @type {string | null} */ (null), value: numeric(place, first), refused: false },
            ...steps.map(step => ({ event: step.event, time: event(story, step.event).time, value: numeric(place, step.now), refused: false })),
            ...refused.map(of => ({ event: of.event.number, time: of.event.time, value: of.askedNumber, refused: true }))].sort((a, b) => a.event - b.event);
        return { at, length, name: place.form === "flags" ? "programming mode" : place.name, words: account ? Accounts.head(account) : [], location: target.is !== "nothing", first: value(first), last: value(last),
            firstNumber: numeric(place, first), lastNumber: numeric(place, last), refused, plot,
            steps: steps.map(step => ({ event: event(story, step.event), old: value(step.old), new: value(step.now), oldBytes: step.old, newBytes: step.now,
                doubts: account ? Accounts.doubtful(story, story.stepDoubts(steps, step.event, account.doubts), step.event) : [] })),
            by: account ? account.by.map(([number, bytes]) => ({ event: event(story, number), bytes })) : [],
            again: account && account.again !== null ? event(story, account.again) : null,
            doubts: account ? Accounts.doubtful(story, account.doubts, account.by[0][0]) : [],
            left: (account ? account.left : story.left(place, 0)).map(Sentences.left) };
    }

    // What traces explain, in lines and as facts.
    /** @param {Story} story @param {string} sheet @param {Named | null} after @param {boolean} all @returns {Explanation} */
    function tell(story, sheet, after, all) {
        const accounts = story.accounts(), summary = Accounts.summary(story, sheet, accounts), shows = Accounts.shows(story);
        const final = after && Accounts.final(story, after.name, story.beside(after.bytes)), indented = (/** @type {string[]} */ lines) => lines.map(line => `  ${line}`);
        const lines = () => [summary, ...shows, ...accounts.flatMap(account => ["", ...Accounts.account(story, account, all)]),
            ...(final ? ["", final.head, ...(final.follows ? [final.follows] : []), ...final.places.flatMap(of => ["", ...of.change.lines, ...indented(of.lines)])] : []),
            ...(final && final.lines.length ? ["", ...final.lines] : [])];
        // of a thousand places few are looked at: what is long is made when it is asked for
        return { get lines() { return lines(); }, summary, shows, story, explained: !final || final.kind === "same", accounts,
            events: story.facts.map((_, i) => event(story, i + 1)),
            get changes() { return accounts.map(account => told(story, account.change.place, account)); },
            final: final && after && { ...final, places: final.places.map(({ change, lines }) => {
                const bytes = Places.of(change.place, after.bytes);
                return { at: change.at, length: change.length, name: change.place.name, words: change.lines, never: change.bytes.some(of => of[1].origin === "never"), lines,
                    refused: refusals(story, change), doubts: story.otherDoubts(change).flatMap(([number, doubt]) => Accounts.doubtful(story, [doubt], number)),
                    dump: Places.value(change.place, bytes), dumpNumber: numeric(change.place, bytes) };
            }) } };
    }

    // The place that has this byte: that which events changed, or the smallest.
    /** @param {Explanation} all @param {number} at */
    function placeAt({ story, accounts }, at) {
        const has = (/** @type {{ at: number, length: number }} */ p) => at >= p.at && at < p.at + p.length, account = accounts.find(of => has(of.change)) ?? null;
        const place = account ? account.change.place : Places.all(story.first).find(has);
        if (!place) throw new Fault(`the sheet has no byte ${at}`);
        return told(story, place, account);
    }

    return { event, tell, placeAt };
})();
