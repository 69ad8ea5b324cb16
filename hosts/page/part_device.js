// Part 3: the device at work: two tools, requests in words or hex, the button, versions; what changed, marked where it stands.

// Ways in which a request comes, with an example each.
/** @type {[string, string, string][]} */
const WAYS = [
    ["2", "on no connection", "property_read object=1 id=51 n=1 s=1"],
    ["3 0", "on connection 0", "authorize_request key=22222222"],
    ["3 1", "on connection 1", "memory_read n=4 address=0100h"],
    ["0", "to a group", "group_read"],
    ["1", "to all devices", "address_read"],
    ["f", "as a frame of the USB interface", "2900b06011ff11050503d501331001"],
];
// Requests to begin with: what each asks, and how it is written.
/** @type {[string, string][]} */
const REQUESTS = [
    ["read a property", "property_read object=1 id=51 n=1 s=1"],
    ["write a property", "property_write object=1 id=51 n=1 s=1 value=1250"],
    ["describe a property", "description_read object=1 id=51 index=0"],
    ["offer the key of level 0", "authorize_request key=11111111"],
    ["offer the key of level 1", "authorize_request key=22222222"],
    ["set the key of level 2", "key_write level=2 key=12345678"],
    ["read memory", "memory_read n=4 address=0100h"],
    ["write memory", "memory_write n=2 address=0100h data=5566"],
    ["write bits of memory", "memory_bit_write n=1 address=0100h and=0f xor=01"],
    ["read user memory", "user_memory_read n=4 address=0100h"],
    ["read the mask version", "descriptor_read t=0"],
    ["read a group value", "group_read"],
    ["write a group value", "group_write value=42"],
    ["ask for addresses", "address_read"],
    ["set the address", "address_write address=4358"],
    ["restart", "restart"],
];

/** So many events of the log are shown. */
const SHOWN = 100;

class DevicePart {
    /** @param {App} app @param {HTMLElement} root */
    constructor(app, root) {
        this.app = app;
        this.sessions = el("div", { class: "sessions" });
        this.way = choice(WAYS.map(([value, text]) => [value, text]), () => this.wayChosen());
        this.group = el("input", { value: "1/0/1", spellcheck: "false", autocomplete: "off" });
        this.groupField = labelled("Group", this.group);
        this.line = el("textarea", { rows: 2, spellcheck: "false", autocomplete: "off", autocapitalize: "off" });
        this.line.value = WAYS[0][2];
        this.line.addEventListener("keydown", event => {
            if (event.key !== "Enter" || event.shiftKey) return;
            event.preventDefault();
            this.send();
        });
        const examples = choice([["", "choose…"], ...REQUESTS.map(([text, line]) => /** @type {[string, string]} */ ([line, text]))], value => { this.line.value = value || this.line.value; });
        this.hint = el("p", { class: "said fault", role: "alert" });
        this.keeps = el("p", { role: "status" });
        this.on = choice([["0", "connection 0"], ["1", "connection 1"]]);
        this.kept = el("ul", { class: "entries" });
        this.store = source(app, "device", ["The store", "the store"], "store", bytes => { app.device.store = bytes.slice(); this.show(); }, [["an empty store", () => new Uint8Array(STORE)]]);
        const versions = el("section", { class: "card versions" }, el("h3", {}, "Versions of the settings"), means("versions"), this.keeps,
            el("div", { class: "actions" }, button("Save a version", () => this.did(app.device.save())), labelled("Restore on", this.on)), this.kept,
            el("details", {}, el("summary", {}, "The store as a file"), this.store.box, button("Save the store", () => saveFile(app.device.store, "store.bin"))));
        this.source = source(app, "device", ["The device's sheet", "the device's sheet"], "sheet", (bytes, name) => app.putOnDevice(bytes, name), [...app.samples(), ["the sheet of the first part", () => app.sheet.slice()]]);
        this.source.tell(MADE.sheets[0][0], app.sheet);
        this.log = el("ol", { class: "log", reversed: true, tabindex: 0, "aria-label": "What happened to the device" });
        this.older = el("p", { class: "said" });
        this.sheet = el("div");
        this.state = el("p", { class: "verdict", role: "status" });
        root.append(el("h2", {}, "The device at work"), means("level"),
            el("div", { class: "columns" },
                el("div", {},
                    el("section", { class: "card" }, el("h3", {}, "Two tools"), this.sessions,
                        el("form", { onsubmit: (/** @type {Event} */ event) => { event.preventDefault(); this.send(); } },
                            el("div", { class: "ways" }, labelled("How it comes", this.way), this.groupField, labelled("Examples", examples)),
                            labelled("The request, in words or hex", this.line),
                            el("p", { class: "said" }, "A value in decimal, as the sheet shows it: value=1250. Bytes in hex: data=04e2."),
                            el("div", { class: "actions" }, el("button", { type: "submit", class: "main" }, "Send"),
                                button("Button on", () => this.did(app.device.button(true))), button("Button off", () => this.did(app.device.button(false))))),
                        this.hint, this.state),
                    el("section", { class: "card" }, el("h3", {}, "What happened"), this.log, this.older,
                        el("div", { class: "actions" }, button("Show it as a trace", () => app.recorded()), button("Begin anew", () => app.putOnDevice(app.device.first, "as it began")))),
                    versions),
                el("div", {},
                    this.source.box,
                    el("div", { class: "actions" }, button("Save as a file", () => saveFile(app.device.sheet, "sheet.bin")),
                        button("Compare with how it began", () => { app.compare(0, app.device.first, "the device's sheet as it began"); app.compare(1, app.device.sheet, "the device's sheet"); })),
                    this.sheet)));
        this.wayChosen();
    }

    wayChosen() {
        this.groupField.hidden = this.way.value !== "0";
        if (this.line.value === "" || WAYS.some(([, , example]) => example === this.line.value)) this.line.value = (WAYS.find(([value]) => value === this.way.value) ?? WAYS[0])[2];
    }

    send() {
        this.hint.textContent = "";
        try {
            const [mode, connection = "0"] = this.way.value.split(" ");
            if (mode === "f") this.did(this.app.device.frame(frameOf(this.app.proved, this.line.value)));
            else {
                const group = mode === "0" ? groupOf(this.group.value) : 0, apdu = apduOf(this.app.proved, inHex(this.app.proved, this.line.value, this.app.device.sheet, group));
                this.did(this.app.device.request(apdu, Number(mode), Number(connection), group));
            }
            this.forget();
        } catch (error) {
            if (!(error instanceof Fault)) throw error;
            this.hint.textContent = error.message;
            this.state.textContent = ""; // of the event before
        }
    }

    /** What was sent and has a key in it does not stay in the field, unless keys are shown. */
    forget() {
        const { event } = this.app.device.log[this.app.device.log.length - 1];
        if (!this.app.keys && event && hasKey(event.apdu)) this.line.value = "";
    }

    /** @param {Event_} _event it stands last in the device's log */
    did(_event) {
        this.hint.textContent = "";
        this.show();
    }

    show() {
        const { device, proved, keys } = this.app, last = device.log[device.log.length - 1];
        const focused = document.activeElement, label = this.sessions.contains(focused) || this.kept.contains(focused) ? focused?.getAttribute("aria-label") ?? "" : null;
        this.state.textContent = last ? `${outcomeText(last.outcome)}${last.answer ? `: ${last.answer}${last.beside}` : ""}` : "";
        this.state.className = `verdict ${last && last.outcome > 1 ? "bad" : "good"}`;
        this.sessions.replaceChildren(...[0, 1].map(c => {
            const open = device.sessions[2 * c] !== 0;
            return el("div", {}, el("span", {}, `Connection ${c}: `, el("strong", {}, sessionText(device.sessions, c))),
                button(open ? "Disconnect" : "Connect", () => this.did(open ? device.disconnect(c) : device.connect(c)), { "aria-label": `${open ? "Disconnect" : "Connect"} connection ${c}` }));
        }));
        this.log.replaceChildren(...device.log.slice(-SHOWN).reverse().map((event, i) => eventView(device.log.length - i, event, keys)));
        this.older.textContent = device.log.length > SHOWN ? `Before these: ${counted(device.log.length - SHOWN, "event")}.` : "";
        const verdict = verdictOf(proved, device.sheet);
        const look = { keys, marked: (/** @type {number} */ p) => last !== undefined && last.before.length === device.sheet.length && last.before[p] !== device.sheet[p] };
        this.sheet.replaceChildren(...(verdict.rule ? [el("p", { class: "verdict bad" }, `Not accepted: ${verdict.text}. The device does nothing with it.`)] : [sheetView(proved, device.sheet, look)]));
        this.showVersions();
        if (label !== null) this.refocus(label);
    }

    // The button that was pressed has been made anew, or is gone: the focus goes to the one in its place.
    /** @param {string} label */
    refocus(label) {
        const others = /** @type {HTMLElement[]} */ ([...this.sessions.querySelectorAll("button"), ...this.kept.querySelectorAll("button")]);
        const named = others.find(other => other.getAttribute("aria-label")?.toLowerCase().replace(/^dis/, "") === label.toLowerCase().replace(/^dis/, ""));
        (named ?? this.on).focus();
    }

    showVersions() {
        const { device, proved } = this.app, good = proved.storeCheck(device.store) === 0, accepted = proved.check(device.sheet) === 0;
        const kept = versionsOf(proved, device.store);
        this.keeps.textContent = good ? `${counted(kept.length, "version")} kept, in ${counted(device.store.length, "byte")}. A restore needs level 0.` : `${outcomeText(30)}.`;
        this.kept.replaceChildren(...kept.map(version => {
            const since = accepted ? sinceVersion(device.sheet, version) : null;
            return el("li", { class: "entry" }, el("div", { class: "name" }, `Version ${version.number}`),
                el("div", { class: "meta" }, since === null ? "of another sheet" : since.length ? `since then: ${since.slice(0, 8).join("; ")}${since.length > 8 ? `; and ${since.length - 8} more` : ""}` : "as the sheet is now"),
                el("div", { class: "actions" },
                    button("Restore", () => this.did(device.restore(Number(this.on.value), version.number)), { "aria-label": `Restore version ${version.number}` }),
                    button("Remove", () => this.did(device.remove(version.number)), { "aria-label": `Remove version ${version.number}` })));
        }));
    }
}

// An event with what it gave and what it changed.
/** @param {number} n @param {Event_} event @param {boolean} keys */
const eventView = (n, event, keys) => el("li", { value: n },
    el("div", { class: "sent" }, event.sent(keys)),
    event.frame !== undefined && el("div", { class: "said" }, `frame ${event.frame(keys)}`),
    el("div", { class: `outcome ${event.outcome <= 1 ? "good" : "bad"}` }, outcomeText(event.outcome), event.answer && `: ${event.answer}${event.beside}`),
    ...event.changes.slice(0, 20).map(line => el("div", { class: "change" }, line)),
    event.changes.length > 20 && el("div", { class: "change" }, `and ${event.changes.length - 20} more`));
