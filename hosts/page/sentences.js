// Every sentence of an explanation and of what a recording shows (tools/trace/src/sentences.rs), as a function from facts to text.

const Sentences = (() => {
    const ITSELF = "under the device's own address to itself: a forged sender or an echo";
    const NOT_ITS_OWN = "a disconnect under the device's address, behind which it went on: forged, or the recording is not whole";

    // ---- what is missing, and how it shows ----

    /** @param {At} at */
    const line = at => `line ${at.line}`;

    // Behind which event, named by the caller.
    /** @param {At} at @param {(event: number) => string} name */
    const place = (at, name) => (at.behind === 0 ? "before the first event" : `behind ${name(at.behind)}`);

    /** @param {Gap} g */
    function gap({ at, why }) {
        const time = (/** @type {string | null} */ time) => (time === null ? "" : ` at ${time}`);
        if (why.why === "stopped") return `the recorder stopped${time(why.from)} and went on${time(why.to)} (${line(at)})`;
        if (why.why === "counted") return `the bus monitor's counter misses ${many(why.frames, "frame")} at least (${line(at)})`;
        const words = { unconnected: "the recorder had no connection to the bus", lost: "the bus monitor says that it lost frames", unreadable: "a frame can't be read" };
        return `${words[why.why]} (${line(at)})`;
    }

    /** @type {Record<Sign, string>} */
    const SIGNS = {
        turn: "data is out of turn",
        "took-out-of-turn": "the device took data that is out of turn here",
        "stray-acknowledgement": "the device acknowledged data that is not recorded",
        "no-acknowledgement": "the device's acknowledgement of what it took is not recorded",
        "no-answer": "the device's answer to what it took is not recorded",
        "stray-receipt": "an answer is acknowledged that is not recorded",
        "stray-end": "the device ended a connection whose begin is not recorded",
        "stray-disconnect": "a connection was ended whose begin is not recorded",
        "late-acknowledgement": "the device acknowledged data from before a disconnect",
    };
    /** @param {Loss} l */
    const loss = l => `${SIGNS[l.sign]} (${line(l.at)})`;
    /** @param {Cause} of */
    const cause = of => ("why" in of ? gap(of) : loss(of));

    // ---- doubts ----

    /** @param {string} whose @param {Taken} taken */
    function untaken(whose, taken) {
        if (taken === "refused") return `the device answered ${whose} by T_NAK`;
        if (taken === "ended") return `the device ended the connection and did not acknowledge ${whose}`;
        return taken === "unwired" ? `nobody acknowledged ${whose} on the wire` : `the device did not acknowledge ${whose}`;
    }

    // A doubt about what an event gave; another event is named by the caller.
    /** @param {Doubt} d @param {number} event @param {(event: number) => string} name */
    function doubt(d, event, name) {
        const whose = (/** @type {number} */ of) => (of === event ? "it" : name(of));
        const what = () => {
            switch (d.doubt) {
                case "not acknowledged": return untaken(whose(d.of), d.taken);
                case "not answered": return `the device's answer to ${whose(d.of)} is not recorded`;
                case "device not recorded": return "no frame of the device is recorded, so what it took is not known";
                case "silence": return `${d.seconds} s of silence were before ${whose(d.of)}: the device may have ended the connection`;
                case "two of a number": return `another request had the number of ${whose(d.of)}: which of the two the device took is not known`;
                case "missing before": return `events are missing before this one: ${cause(d.cause)}`;
                case "missing after": return `events are missing after this one: ${cause(d.cause)}`;
                case "parted": return `recording and device have parted ${d.parted.asked ? `at ${name(d.parted.at.behind)}` : place(d.parted.at, name)} (${line(d.parted.at)})`;
                case "times go back": return `times go back (${line(d.at)}): the order of the events is not known`;
                case "ended": return `${NOT_ITS_OWN} (${line(d.at)})`;
                case "own address": return `a frame under the device's own address went there since (${line(d.own.at)}): its own, or forged and taken`;
            }
        };
        return `not sure: ${what()}`;
    }

    // ---- what a recording shows ----

    /** So many are named; of more, how many. */
    const NAMED = 4;
    /** @param {string[]} names */
    const some = names => names.slice(0, NAMED).join(", ") + (names.length > NAMED ? ` and ${names.length - NAMED} more` : "");

    const WHOLE = "nothing shows that frames are missing; that none is missing a recording can't show";

    // Lists of events: their title, and what is told of one that is in it.
    /** @type {[string, (seen: Seen, e: Evidence) => string | false][]} */
    const LISTS = [
        ["not acknowledged by the device", seen => ({ unacknowledged: "", refused: ", T_NAK", ended: ", it ended the connection" })[/** @type {string} */ (seen.taken)] ?? false],
        ["not acknowledged on the wire", seen => seen.taken === "unwired" && ""],
        ["not answered by the device", (seen, e) => !seen.data && e.device && seen.answer === "absent" && ""],
        ["after a silence in which the device may have ended the connection", seen => seen.silence > 0 && seen.taken !== "acknowledged" && `, ${seen.silence} s`],
        ["with a number that another request had", seen => seen.twofold && seen.answer !== "same" && ""],
    ];

    // The lines on what a recording shows, the events before it being so many, each named by the caller.
    /** @param {Evidence} e @param {number} [before] @param {(event: number) => string} [name] */
    function shows(e, before = 0, name = event => `event ${event}`) {
        /** @type {string[]} */
        const out = [];
        for (const [title, tell] of LISTS) {
            const of = e.events.flatMap((seen, i) => {
                const what = tell(seen, e);
                return what === false ? [] : [`${name(before + i + 1)} (line ${seen.line}${what})`];
            });
            if (of.length) out.push(`${title}: ${some(of)}`);
        }
        if (!e.device && e.events.some(seen => seen.data)) out.push("no frame of the device is recorded: what it took is not known");
        /** @template T @param {T[]} all @param {(one: T) => string} tell @param {(more: number) => string[]} [more] */
        const first = (all, tell, more = () => []) => out.push(...all.slice(0, NAMED).map(tell), ...(all.length > NAMED ? more(all.length - NAMED) : []));
        const places = (/** @type {number} */ more) => [`and ${more} places more`];
        first(e.gaps, g => `events may be missing ${place(g.at, name)}: ${gap(g)}`, places);
        first(e.losses, l => `frames are missing ${place(l.at, name)}: ${loss(l)}`, places);
        if (e.parted) {
            const { at, asked } = e.parted;
            out.push(asked ? `recording and device part at ${name(at.behind)}: its recorded answer is another than playing gives (${line(at)})`
                : `recording and device part ${place(at, name)}: no event asked for a recorded answer (${line(at)})`);
        }
        first(e.left, left, more => [`and ${more} more requests that are no events`]);
        if (e.back) out.push(`times go back ${many(e.back.times, "time")}, first at line ${e.back.at.line}`);
        first(e.own, own => `under the device's own address to ${own.group === 0 ? "all" : groupText(own.group)} (${line(own.at)}): it may be its own`);
        first(e.forged, f => `${f.what === "itself" ? ITSELF : NOT_ITS_OWN} (${line(f.at)})`);
        return out;
    }

    // ---- accounts ----

    // A place that is as at first again, and what it was meanwhile.
    /** @param {string} named @param {(string | null)[]} meanwhile */
    const asAtFirst = (named, meanwhile) => `${named}, as at first again, meanwhile ${some([...new Set(meanwhile.map(value => value ?? "another"))])}`;

    // A step in the history of a place.
    /** @param {string | null} old @param {string | null} now @param {string} by */
    const step = (old, now, by) => (old !== null && now !== null ? `${old} → ${now} by ${by}` : `changed by ${by}`);
    /** @param {number} times */
    const changedOften = times => `changed ${times} times: --all lists them`;
    /** @param {string} by */
    const writtenAgain = by => `written once more, and left as it was, by ${by}`;

    const LEFT = { "out-of-turn": "out of turn", untaken: "not acknowledged, nor taken, as what follows shows", stranger: "from nobody's partner", itself: "under the device's own address" };
    // A request that is no event.
    /** @param {Left} l */
    const left = l => `no event, ${LEFT[l.why]} (${line(l.at)}): ${Words.pdu(l.apdu)}${Times.told(l.known)}`;

    // A request that playing does not carry out.
    /** @param {number} outcome @param {boolean} otherwise @param {string} by */
    function refused(outcome, otherwise, by) {
        const words = `${Words.outcome(outcome)} (${outcome})`;
        return otherwise ? `asked for, by playing not done, ${words}, but the device answered otherwise, by ${by}` : `asked for and not done, ${words}, by ${by}`;
    }

    // ---- a dump ----

    const PAST = "somebody wrote past the device, or the traces lack events";
    const OLDER = "all of it was so before: the dump may be older than the end of the traces, or the device did not take the last events, or somebody wrote past it what was there before";
    const MIXED = "each byte was so before, but never all of them at once";
    const NO_DUMP = "somebody wrote past the device, or this is no whole dump of it";
    const NO_WRITE = "no permitted write of the traces gave it";
    const NO_EVENT = "no event of the traces gave it";

    return { ITSELF, NOT_ITS_OWN, doubt, WHOLE, shows, asAtFirst, step, changedOften, writtenAgain, left, refused, PAST, OLDER, MIXED, NO_DUMP, NO_WRITE, NO_EVENT };
})();
