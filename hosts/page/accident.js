// The page's own example: a tank that overran (docs/TRACE.md). Two dumps, and a recording of the morning between them.

/** @param {Proved} proved @returns {{ before: WhatIs, after: WhatIs, recording: WhatIs }} */
function accidentFiles(proved) {
    /** @param {[string, string]} file */
    const file = ([name, text]) => whatIs(proved, name, new TextEncoder().encode(text));
    return { before: file(MADE.accident.before), after: file(MADE.accident.after), recording: file(MADE.accident.recording) };
}

// The accident as a story: what is said of events, values and levels is what the explanation says of these files.
/** @param {Proved} proved @param {() => void} compare @param {() => void} look */
function accidentStory(proved, compare, look) {
    const { before, after, recording } = accidentFiles(proved), made = makeTrace(proved, recording, before.bytes), told = explain(proved, { before, traces: made.traces, after });
    const other = told.final?.places[0];
    if (!other) throw new Error("the accident explains itself");
    const place = placeAt(told, other.at), [{ event: write }] = place.by, [refusal] = other.refused, history = historyOf(place, other, told.events.length);
    /** @param {ToldEvent} event */
    const who = event => `At ${clock(event.time)} the device ${event.from}`;
    return el("section", { class: "card story", "aria-label": "The accident" },
        el("h3", {}, "The accident"),
        el("p", {}, `A tank overran. Its controller had been handed over with the probe's height at ${place.first}; read out afterwards it had ${other.dump}. Nobody but the service technician had the key.`),
        el("p", {}, "What differs between the two dumps:"),
        el("ul", { class: "lines" }, ...differences(before.bytes, after.bytes).map(line => el("li", {}, line))),
        el("p", {}, `The hall's USB interface had recorded that morning: ${counted(made.frames, "frame")}, of which ${counted(told.events.length, "is an event", "are events")} for this controller. The height over these events:`),
        history && historyView(history),
        el("ol", { class: "lines" },
            el("li", {}, `${who(write)}, the technician's, set the height to ${place.last}: event ${write.number}, at level ${write.level}, whose key it had offered by event ${write.offer?.number}. That was its right.`),
            el("li", {}, `${who(refusal.event)}, a laptop, asked for ${refusal.askedWords}: event ${refusal.event.number}. It had offered no more than the public key, and was refused: `, el("strong", {}, refusal.why), "."),
            el("li", {}, `No permitted write gave ${other.dump}, and yet the dump has it: the controller in the hall said no, and stored the value all the same.`)),
        el("p", {}, "That is the accident. Of the device in this page the contrary is proved: what it refuses leaves its sheet as it was."),
        el("div", { class: "actions" }, button("See what happened, event by event", look, { class: "main" }), button("See both dumps side by side", compare)));
}
