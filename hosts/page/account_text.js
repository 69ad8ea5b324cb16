// An explanation for people (tools/trace/src/account_text.rs), of the facts of explain.js in the sentences of sentences.js: line by line
// what `trace explain` prints.

const Accounts = (() => {
    /** So many refused requests are told of a place, and so many changes are listed where not all are asked for. */
    const REFUSED = 4, SHORT = 4;

    /** @param {number[]} bytes */
    const offsets = bytes => `byte${bytes.length === 1 ? "" : "s"} ${bytes.join(", ")}`;

    // The name of an event.
    /** @param {Story} story @param {number} number */
    const name = (story, number) => `event ${story.fact(number).index + 1} of ${story.fact(number).trace.name}`;

    // An event: of which trace, what it asks, when and from whom.
    /** @param {Story} story @param {number} number */
    function told(story, number) {
        const { trace, index, event } = story.fact(number);
        return `${name(story, number)}: ${Texts.meaning(event)}${Times.told(trace.known[index])}`;
    }

    /** @param {Story} story @param {Doubt[]} doubts @param {number} event */
    const doubtful = (story, doubts, event) => doubts.map(doubt => Sentences.doubt(doubt, event, n => name(story, n)));

    // The event that gave bytes, with its rights.
    /** @param {Story} story @param {number} number @param {Target} target */
    function by(story, number, target) {
        const { event, level, offer } = story.fact(number), c = Events.rights(event);
        const place = c !== null ? `on connection ${c} at level ${level}` : event.kind === REQUEST ? "on no connection, so at level 3" : "at the device itself";
        return [`by ${told(story, number)}`, target.is === "nothing" ? `${place}; no level is asked for it` : place,
            ...(c !== null && level < 3 && offer > 0 ? [`level ${level} by ${told(story, offer)}`] : [])];
    }

    // What the recordings show, and lack.
    /** @param {Story} story */
    function shows(story) {
        const { doubts } = story, all = doubts.all.flatMap((e, i) => Sentences.shows(e, doubts.from[i], n => name(story, n)));
        return doubts.all.length && doubts.clean() ? [...all, Sentences.WHOLE] : all;
    }

    // The place of an account, in words.
    /** @param {Account} account */
    function head({ change, steps }) {
        if (change.lines.length || !steps.length) return change.lines;
        return [Sentences.asAtFirst(Places.named(change.place, steps[0].old), steps.slice(0, -1).map(step => Places.value(change.place, step.now)))];
    }

    /** @param {Story} story @param {Account} account @param {boolean} all */
    function history(story, { steps, change, doubts }, all) {
        if (steps.length < 2) return [];
        if (steps.length > SHORT && !all) return [Sentences.changedOften(steps.length)];
        const value = (/** @type {Uint8Array} */ bytes) => Places.value(change.place, bytes);
        return steps.flatMap(({ event, old, now }) => [Sentences.step(value(old), value(now), told(story, event)),
            ...doubtful(story, story.stepDoubts(steps, event, doubts), event).map(doubt => `  ${doubt}`)]);
    }

    /** @param {Story} story @param {Account} account @param {boolean} all */
    function account(story, account, all) {
        const { change } = account, last = account.by.length ? account.by[0][0] : 0, inside = [
            ...account.by.flatMap(([mark, bytes], i) => [...(i ? [offsets(bytes)] : []), ...by(story, mark, change.target)]),
            ...(account.again === null ? [] : [Sentences.writtenAgain(told(story, account.again))]),
            ...doubtful(story, account.doubts, last),
            ...account.left.slice(0, REFUSED).map(Sentences.left),
        ];
        return [...head(account), ...inside.map(line => `  ${line}`), ...history(story, account, all).map(line => `    ${line}`)];
    }

    // What is said first.
    /** @param {Story} story @param {string} sheet @param {Account[]} accounts */
    function summary(story, sheet, accounts) {
        const bytes = accounts.reduce((sum, a) => sum + a.change.bytes.length, 0);
        return `${many(story.facts.length, "event")} of ${story.traces.map(trace => trace.name).join(", ")} on ${sheet}: ${many(bytes, "byte")} changed, at ${many(accounts.length, "place")}`;
    }

    // What a dump is beside what the events give: its first lines, what follows from it, and the lines of each place or of all.
    /** @param {Story} story @param {string} name @param {Final} beside @returns {{ kind: ToldFinal["kind"], head: string, follows: string, lines: string[], places: { change: Change<Other>, lines: string[] }[] }} */
    function final(story, name, beside) {
        const none = { follows: "", lines: /** @type {string[]} */ ([]), places: [] };
        if ("layout" in beside) return { ...none, kind: "layout", head: `${name} has another layout, which no event gives: ${Sentences.NO_DUMP}`, lines: beside.layout };
        if ("broken" in beside) {
            const bytes = beside.bytes.map(([at, old, now]) => `byte ${at}: ${hex([old])} → ${hex([now])}`);
            return { ...none, kind: "broken", head: `${name} is not accepted, and no event gives such a sheet: ${Sentences.NO_DUMP}`, lines: [beside.broken, ...bytes] };
        }
        const { places } = beside, bytes = places.flatMap(change => change.bytes), never = bytes.filter(([, other]) => other.origin === "never").length;
        if (!places.length) return { ...none, kind: "same", head: `${name} is what the events give, byte by byte` };
        const kind = never ? "past" : story.was ? "older" : "mixed";
        return { ...none, kind, follows: { past: Sentences.PAST, older: Sentences.OLDER, mixed: `${Sentences.MIXED}: ${Sentences.PAST}` }[kind],
            head: `${name}: ${many(bytes.length, "byte")} other than the events leave them, at ${many(places.length, "place")}; ${never} of these no event of the traces gave`,
            places: places.map(change => ({ change, lines: unexplained(story, change) })) };
    }

    // What the traces say of a place that a dump has otherwise.
    /** @param {Story} story @param {Change<Other>} change */
    function unexplained(story, change) {
        const of = byKnown(change), refused = story.named(change, false), origins = of.map(([other]) => other.origin);
        const before = (/** @type {Other["origin"]} */ origin) => (origin === "never" ? "" : origin === "first" ? "; at first it was what the dump has" : `; the dump has what it was by ${told(story, origin)}`);
        return [
            ...(origins.includes("never") ? [change.target.is === "nothing" ? Sentences.NO_EVENT : Sentences.NO_WRITE] : []),
            ...of.map(([{ mark, origin }, bytes]) => `${offsets(bytes)}: ${mark ? `last changed by ${told(story, mark)}` : "left as at first"}${before(origin)}`),
            ...story.otherDoubts(change).flatMap(([event, doubt]) => doubtful(story, [doubt], event)),
            ...refused.slice(0, REFUSED).flatMap(number => refusedTold(story, number)),
            ...(refused.length > REFUSED ? [`and asked for in vain ${refused.length - REFUSED} times more`] : []),
            ...story.left(change, 0).slice(0, REFUSED).map(Sentences.left),
        ];
    }

    // A request that was not carried out, and what of that is not known.
    /** @param {Story} story @param {number} number */
    function refusedTold(story, number) {
        const { otherwise, doubts } = story.refusal(number);
        return [Sentences.refused(story.fact(number).outcome, otherwise, told(story, number)), ...doubtful(story, doubts, number)];
    }

    return { name, told, doubtful, shows, head, account, summary, final, refusedTold };
})();
