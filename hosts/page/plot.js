// The history of a number as a small picture: its value over the events, refused attempts and the dump's value marked, and the same in words.

/** @typedef {{ name: string, points: ToldPoint[], events: number, dump: number | null }} Course */

// An element of a picture, made of text alone as all others are.
/** @param {string} tag @param {Record<string, string | number>} attributes @param {...(Node | string)} children */
function svg(tag, attributes, ...children) {
    const element = document.createElementNS("http://www.w3.org/2000/svg", tag);
    for (const [name, value] of Object.entries(attributes)) element.setAttribute(name, String(value));
    element.append(...children);
    return element;
}

// An element's history, with what a dump has there, as far as it is numbers; none of other places, or if nothing happened to it.
/** @param {ToldPlace} place @param {ToldOther | undefined} other @param {number} events @returns {Course | null} */
function historyOf(place, other, events) {
    const points = place.plot.filter(point => point.value !== null), dump = other ? other.dumpNumber : null;
    if (!/^property .* element/.test(place.name)) return null;
    return points.length > 1 || (points.length === 1 && dump !== null) ? { name: place.name, points, events, dump } : null;
}

// Each point in words.
/** @param {Course} history */
function historyWords({ points, dump }) {
    const words = points.map(({ event, time, value, refused }) => {
        const when = event === 0 ? "at first" : `event ${event}${time ? `, at ${time}` : ""}`;
        return refused ? `${when}: ${value} asked for, and refused` : `${when}: ${value}`;
    });
    return dump === null ? words : [...words, `in the dump: ${dump}`];
}

/** The time of day in a time as it was recorded, to the minute. */
const clock = (/** @type {string | null} */ time) => /(?:^|[T ])(\d\d:\d\d)/.exec(time ?? "")?.[1] ?? "";

// The picture. It is as wide as there is room, so that its letters have the size of others.
/** @param {Course} history @param {number} width */
function picture(history, width) {
    const { points, events, dump, name } = history, height = 200, left = 16 + 8 * Math.max(...points.map(p => String(p.value).length), String(dump ?? "").length), right = dump === null ? 16 : 56, top = 16, bottom = 48;
    const values = [...points.map(p => /** @type {number} */ (p.value)), ...(dump === null ? [] : [dump])], low = Math.min(...values), high = Math.max(...values), span = high - low || 1;
    const x = (/** @type {number} */ event) => left + (width - left - right) * event / Math.max(events, 1);
    const y = (/** @type {number} */ value) => high === low ? (height - bottom + top) / 2 : top + (height - top - bottom) * (high - value) / span;
    const round = (/** @type {number} */ n) => Math.round(10 * n) / 10, end = width - right, steps = points.filter(p => !p.refused), last = steps[steps.length - 1];
    /** @type {Node[]} */
    const drawn = [];
    // what stands at the side: the last values first, as far as there is room
    /** @type {number[]} */
    const levels = [];
    for (const value of [...values].reverse()) if (levels.every(other => Math.abs(y(other) - y(value)) >= 15)) levels.push(value);
    for (const value of levels) {
        drawn.push(svg("line", { class: "rule", x1: left, x2: width - right / 2, y1: round(y(value)), y2: round(y(value)) }),
            svg("text", { x: left - 8, y: round(y(value)) + 4, "text-anchor": "end" }, String(value)));
    }
    // events below, and the time of day
    let free = 0;
    for (const { event, time } of [...points].filter(p => p.event > 0)) {
        const at = x(event), hour = clock(time), room = hour ? 22 : 12;
        if (at - room < free) continue;
        free = at + room;
        drawn.push(svg("text", { x: round(at), y: height - bottom + 24, "text-anchor": "middle" }, String(event)));
        if (hour) drawn.push(svg("text", { class: "soft", x: round(at), y: height - bottom + 40, "text-anchor": "middle" }, hour));
    }
    drawn.push(svg("text", { class: "soft", x: 0, y: height - bottom + 24 }, "event"));
    // the value from event to event, and to what the dump has
    const path = steps.map((p, i) => `${i ? `H${round(x(p.event))}V` : `M${round(x(p.event))} `}${round(y(/** @type {number} */ (p.value)))}`).join("") + `H${round(end)}`;
    drawn.push(svg("path", { class: "value", d: path }));
    // a value for which there was no room at the side stands at its point, below the line or above it
    steps.forEach((p, i) => {
        const value = /** @type {number} */ (p.value), next = steps[i + 1]?.value ?? value;
        if (levels.includes(value) || steps.length > 8) return;
        drawn.push(svg("text", { x: round(x(p.event)) + 4, y: round(y(value)) + (next > value ? 17 : -8) }, String(value)));
    });
    for (const p of steps.slice(1)) drawn.push(svg("circle", { class: "step", cx: round(x(p.event)), cy: round(y(/** @type {number} */ (p.value))), r: 4 }));
    for (const p of points.filter(point => point.refused)) {
        const [cx, cy] = [round(x(p.event)), round(y(/** @type {number} */ (p.value)))];
        drawn.push(svg("path", { class: "refused", d: `M${cx - 5} ${cy - 5}l10 10m0 -10l-10 10` }));
    }
    if (dump !== null && last) {
        const [cx, cy] = [width - right / 2, round(y(dump))];
        drawn.push(svg("path", { class: "jump", d: `M${round(end)} ${round(y(/** @type {number} */ (last.value)))}L${cx} ${cy}` }),
            svg("path", { class: "dump", d: `M${cx} ${cy - 6}l6 6l-6 6l-6 -6z` }),
            svg("text", { x: cx, y: height - bottom + 24, "text-anchor": "middle" }, "dump"));
    }
    const words = `${name} over ${counted(events, "event")}: ${historyWords(history).join("; ")}.`;
    return svg("svg", { class: "plot", viewBox: `0 0 ${width} ${height}`, width, height, role: "img", "aria-label": words }, ...drawn);
}

// The picture with what its marks mean, and in words for those who would rather read.
/** @param {Course} history @param {boolean} [still] for a file, in which nothing can be opened */
function historyView(history, still = false) {
    const refused = history.points.some(p => p.refused), words = historyWords(history);
    const marks = [["●", "step", "an event changed it"], refused && ["×", "refused", "asked for, and refused"], history.dump !== null && ["◆", "dump", "as the dump has it"]];
    return el("figure", { class: "history" },
        picture(history, wide.matches || still ? 600 : Math.max(230, Math.min(600, document.documentElement.clientWidth - 54))),
        el("figcaption", {}, ...marks.map(mark => mark && el("span", { class: "key" }, el("b", { class: mark[1], "aria-hidden": "true" }, mark[0]), ` ${mark[2]}`))),
        !still && el("details", {}, el("summary", {}, "The picture in words"), el("ul", { class: "lines" }, ...listed(words, 40))));
}
