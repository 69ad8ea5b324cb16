// The demonstration, as `make run` plays it: scripts/demo.txt, in the words of scripts/demo.sh.

/** @typedef {{ kind: "text" | "sent" | "answer" | "change", text: string, hidden?: string, outcome?: number }} Shown hidden: its text without keys, where it has one */

// All of it, step by step.
/** @param {Proved} proved @param {string} script @param {Uint8Array} sheet */
function demonstration(proved, script, sheet) {
    /** @type {Shown[][]} */
    const steps = [];
    const stage = { device: new Device(proved, sheet), told: sheet.slice() };
    for (const line of script.split("\n")) {
        if (line === "") continue;
        if (line.startsWith("#")) {
            const text = line.slice(2);
            if (/^\d+\./.test(text) || steps.length === 0) steps.push([]);
            if (text) steps[steps.length - 1].push({ kind: "text", text });
        } else {
            steps[steps.length - 1].push(...playLine(proved, stage, line.split(" ")));
        }
    }
    return steps;
}

/** @param {Proved} proved @param {{ device: Device, told: Uint8Array }} stage @param {string[]} words @returns {Shown[]} */
function playLine(proved, stage, words) {
    const { device } = stage, [command, ...rest] = words;
    // what has changed since this was told last
    /** @param {string[]} sessions @returns {Shown[]} */
    const changes = sessions => {
        const lines = [...sessions.map(text => text.replace("→", "->")), ...differences(stage.told, device.sheet)];
        stage.told = device.sheet.slice();
        return lines.map(text => ({ kind: "change", text }));
    };
    /** @param {string} sent @param {string} answer @param {Event_} event @param {string} [hidden] @returns {Shown[]} */
    const told = (sent, answer, event, hidden = sent) => [{ kind: "sent", text: sent, hidden }, { kind: "answer", text: answer, outcome: event.outcome }, ...changes(event.sessions)];
    switch (command) {
        case "request": {
            const [mode, group, apdu, , connection] = rest, bytes = unhex(apdu);
            const event = device.request(bytes, Number(mode), Number(connection), Number(group));
            const way = mode === "3" ? `, on connection ${connection}` : "";
            return told(apduText(proved, bytes) + way, event.answer || "no answer", event, apduText(proved, bytes, false) + way);
        }
        case "connect": return told(words.join(" "), "no answer", device.connect(Number(rest[0])));
        case "disconnect": return told(words.join(" "), "no answer", device.disconnect(Number(rest[0])));
        case "button": return told(words.join(" "), "no answer", device.button(rest[0] === "on"));
        case "point": {
            const point = proved.readPoint(Number(rest[1]), unhex(rest[2]));
            const text = point.outcome ? "" : rest[1] === "9" ? (point.hundredths / 100).toFixed(2) : rest[1] === "14" ? point.bits.toString(16).padStart(8, "0") : String(point.value);
            return [{ kind: "sent", text: words.join(" ") }, { kind: "answer", text, outcome: point.outcome }];
        }
        case "sheet": {
            // a sheet is set under the sessions as they are
            device.sheet = unhex(rest[0]);
            const rule = proved.check(device.sheet), said = rule === 0 ? "accepted" : rule === OLD ? "old: convert it" : `not accepted: S${rule}`;
            return [{ kind: "sent", text: `a sheet of ${device.sheet.length} bytes` }, { kind: "answer", text: said }, ...changes([])];
        }
        case "convert": {
            const event = device.convert();
            return told("convert", event.outcome === 1 ? "done" : "nothing", event);
        }
        case "store":
            device.store = unhex(rest[0]);
            return [{ kind: "sent", text: `a store of ${device.store.length} bytes` }, { kind: "answer", text: proved.storeCheck(device.store) ? "not good" : "good" }];
        case "save": {
            const event = device.save();
            return told("save", event.answer || "nothing", event);
        }
        case "restore": {
            const event = device.restore(Number(rest[0]), Number(rest[1]));
            return told(`restore version ${rest[1]}, on connection ${rest[0]}`, event.outcome === 1 ? "done" : "nothing", event);
        }
        case "remove": {
            const event = device.remove(Number(rest[0]));
            return told(`remove version ${rest[0]}`, event.outcome === 1 ? "done" : "nothing", event);
        }
        default: throw new Error(`the demonstration has the command ${command}, which the page does not know`);
    }
}
