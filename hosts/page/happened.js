// What happened, by meaning: the places that events changed, those that a dump has otherwise, each with its events; and the history of one place.

/**
 * How events are named: `go` leads to one, if anything can be pressed; of several traces each is named with its own.
 * @typedef {{ go: ((n: number) => void) | null, several: boolean, beside: (n: number) => string }} Ways
 */

/** So many places are shown before one asks for more. */
const MOST_PLACES = 20;

/** @param {ToldEvent} event @param {Ways} ways */
function eventName(event, ways) {
    const name = ways.several ? event.name : `event ${event.number}`, { go } = ways;
    return go ? button(name, () => go(event.number), { class: "link" }) : el("b", {}, name);
}

// An event: its name, what it asked, when, and from whom.
/** @param {ToldEvent} event @param {Ways} ways @returns {Child[]} */
const eventTold = (event, ways) => [eventName(event, ways), `: ${event.words}${ways.beside(event.number)}${event.time ? `, at ${event.time}` : ""}${event.from ? `, from ${event.from}` : ""}`];

// With what right it acted.
/** @param {ToldEvent} event @param {boolean} location @param {Ways} ways */
function rightTold(event, location, ways) {
    const asked = location ? "" : "; no level is asked for it";
    if (event.level === null) return el("p", {}, `at the device itself${asked}`);
    if (event.connection === null) return el("p", {}, `on no connection, so at level 3${asked}`);
    return el("p", {}, `on connection ${event.connection} at level ${event.level}${asked}`, ...(event.offer ? [`; level ${event.level} by `, ...eventTold(event.offer, ways)] : []));
}

/** @param {string[]} doubts */
const doubtsTold = doubts => doubts.map(line => el("p", { class: "doubt" }, line));

// A request that named the place in vain, and why.
/** @param {Refusal} refusal @param {Ways} ways */
function refusalTold(refusal, ways) {
    const { event, why, otherwise, doubts } = refusal, number = `${event.outcomeWords} (${event.outcome})`;
    return el("div", { class: "vain" },
        el("p", {}, `asked for and not done, ${number}`, why !== number && el("strong", {}, `: ${why}`), otherwise && ", but the device answered otherwise", ", by ", ...eventTold(event, ways)),
        ...doubtsTold(doubts));
}

// Each change of a place, in order.
/** @param {ToldStep[]} steps @param {Ways} ways */
const stepsTold = (steps, ways) => el("ul", { class: "lines" }, ...shortened(steps, ways, step => el("li", {}, step.old !== null && step.new !== null ? `${step.old} → ${step.new} by ` : "changed by ", ...eventTold(step.event, ways), ...doubtsTold(step.doubts))));

// The first of a list, and a button for more of them; where nothing can be pressed, how many there are.
/** @template T @param {T[]} all @param {Ways} ways @param {(one: T) => HTMLElement} made @returns {HTMLElement[]} */
function shortened(all, ways, made) {
    const first = all.slice(0, MOST_PLACES).map(made), rest = all.slice(MOST_PLACES);
    if (rest.length === 0) return first;
    const more = el("li", { class: "more" }, ways.go ? button(`Show more: ${rest.length} are left`, () => {
        const next = shortened(rest, ways, made);
        more.replaceWith(...next);
        next[0].tabIndex = -1;
        next[0].focus();
    }) : `and ${rest.length} more`);
    return [...first, more];
}

// A place that events changed. What the dump has there, and what was refused, is told with the dump.
/** @param {ToldPlace} place @param {ToldOther | undefined} other @param {Explanation} told @param {Ways} ways */
function placeTold(place, other, told, ways) {
    const history = other ? null : historyOf(place, undefined, told.events.length);
    return el("li", { class: "place" },
        el("h4", {}, place.words.join("; ") || place.name),
        ...place.by.flatMap(({ event, bytes }, i) => [
            el("p", {}, i > 0 && `${bytes.length === 1 ? "byte" : "bytes"} ${bytes.join(", ")} `, "by ", ...eventTold(event, ways)),
            rightTold(event, place.location, ways)]),
        place.again && el("p", {}, "written once more, and left as it was, by ", ...eventTold(place.again, ways)),
        ...doubtsTold(place.doubts), ...place.left.map(line => el("p", {}, line)),
        ...(other ? [] : place.refused.map(refusal => refusalTold(refusal, ways))),
        place.steps.length > 1 && el("details", { open: place.steps.length <= 4 }, el("summary", {}, `Changed ${place.steps.length} times`), stepsTold(place.steps, ways)),
        history && historyView(history, !ways.go));
}

// A place that the dump has otherwise than the events leave it.
/** @param {ToldOther} other @param {ToldPlace} place @param {Explanation} told @param {Ways} ways */
function otherTold(other, place, told, ways) {
    const history = historyOf(place, other, told.events.length), last = place.by[0];
    return el("li", { class: "place" },
        el("h4", {}, other.words.join("; ")),
        other.never && el("p", {}, el("strong", {}, place.location ? "no permitted write of the traces gave it" : "no event of the traces gave it")),
        el("p", {}, ...(last ? ["last changed by ", ...eventTold(last.event, ways)] : ["left as at first"])),
        last && rightTold(last.event, place.location, ways),
        ...doubtsTold(other.doubts),
        ...other.refused.map(refusal => refusalTold(refusal, ways)),
        history && historyView(history, !ways.go));
}

/** What a dump's verdict looks like. */
const FINAL_LOOK = { same: "good", older: "", mixed: "bad", past: "bad", layout: "bad", broken: "bad" };

/** @param {Explanation} told @param {ToldFinal} final @param {Ways} ways */
const finalTold = (told, final, ways) => el("section", { class: "final" },
    el("h3", {}, "The dump beside the events"),
    el("p", { class: `verdict ${FINAL_LOOK[final.kind]}` }, final.head),
    final.follows && el("p", { class: "follows" }, final.follows),
    el("ul", { class: "places" }, ...shortened(final.places, ways, other => otherTold(other, placeAt(told, other.at), told, ways))),
    final.lines.length > 0 && el("ul", { class: "lines" }, ...listed(final.lines, 8)));

// All of it. What the dump has otherwise comes first: that is what one wants to know.
/** @param {Explanation} told @param {Ways} ways */
function happenedView(told, ways) {
    const others = new Map((told.final?.places ?? []).map(other => [other.at, other]));
    return el("div", { class: "happened" },
        told.final && finalTold(told, told.final, ways),
        el("section", {}, el("h3", {}, "What the events changed"),
            el("p", {}, told.summary), ...told.shows.map(line => el("p", { class: /^(nothing shows)/.test(line) ? "soft" : "doubt" }, line)),
            told.accounts.length > 0 && el("ul", { class: "places" }, ...shortened(told.accounts, ways, ({ change }) => placeTold(placeAt(told, change.at), others.get(change.at), told, ways)))));
}

// The history of one place, for who touches it in the sheet.
/** @param {ToldPlace} place @param {ToldOther | undefined} other @param {Explanation} told @param {Ways} ways */
function placeHistory(place, other, told, ways) {
    const history = historyOf(place, other, told.events.length);
    return el("div", { class: "place" }, el("h4", {}, place.name),
        place.steps.length > 0 ? stepsTold(place.steps, ways) : el("p", {}, `no event has changed it${place.first === null ? "" : `: ${place.first}`}`),
        ...doubtsTold(place.doubts), ...place.refused.map(refusal => refusalTold(refusal, ways)),
        other && el("p", {}, `in the dump: ${other.dump ?? "another"}`),
        history && historyView(history));
}
