// A device at work: its sheet, the sessions of two connections with their partners, a store. Each event is a call of the module; what it changed is seen by comparing.

const MULTICAST = 0, BROADCAST = 1, CONNECTIONLESS = 2, CONNECTED = 3;
const REQUEST = 0, CONNECT = 1, DISCONNECT = 2, BUTTON_ON = 3, BUTTON_OFF = 4;
const FRAME_CONNECT = 4, FRAME_DISCONNECT = 5;
const STORE = 4096;

/** @typedef {{ kind: number, mode: number, connection: number, group: number, apdu: Uint8Array }} Happening */
/** @typedef {(keys: boolean) => string} Words of what may have a key in it, which is shown or hidden */
/** @typedef {{ sent: Words, outcome: number, answer: string, beside: string, sessions: string[], changes: string[], event?: Happening, frame?: Words, before: Uint8Array }} Event_ */

/** @param {Uint8Array} sessions @param {number} c */
const sessionText = (sessions, c) => (sessions[2 * c] ? `level ${sessions[2 * c + 1]}` : "closed");

// How a request came, in words.
/** @param {number} mode @param {number} connection @param {number} group */
function wayText(mode, connection, group) {
    if (mode === MULTICAST) return `to group ${groupText(group)}`;
    if (mode === BROADCAST) return "to all";
    if (mode === CONNECTIONLESS) return "on no connection";
    return mode === CONNECTED ? `on connection ${connection}` : `in mode ${mode}`;
}

class Device {
    /** @param {Proved} proved @param {Uint8Array} sheet */
    constructor(proved, sheet) {
        this.proved = proved;
        this.first = sheet.slice();
        this.sheet = sheet.slice();
        // the sessions and, behind them, the address of each partner; 0 of a tool that came by no frame
        this.link = new Uint8Array(proved.fields.get("link").size);
        this.sessions = this.link.subarray(0, proved.fields.get("sessions").size);
        this.sessions.set(proved.fresh());
        // the sequence number of the device's next frame on each connection
        this.next = [0, 0];
        this.store = new Uint8Array(STORE);
        /** @type {Event_[]} */
        this.log = [];
    }

    /**
     * One event: what it gave, and what it did to sheet and sessions. Beside the answer stands its data in decimal.
     * @param {string | Words} sent @param {() => { outcome: number, answer?: string, beside?: string }} call @param {Happening} [event] @param {Words} [frame]
     */
    happens(sent, call, event, frame) {
        const before = this.sheet.slice(), was = this.sessions.slice(), { outcome, answer = "", beside = "" } = call();
        const sessions = [0, 1].filter(c => sessionText(was, c) !== sessionText(this.sessions, c))
            .map(c => `connection ${c}: ${sessionText(was, c)} → ${sessionText(this.sessions, c)}`);
        const told = { sent: typeof sent === "string" ? () => sent : sent, outcome, answer, beside, sessions, changes: [...sessions, ...differences(before, this.sheet)], event, frame, before };
        this.log.push(told);
        return told;
    }

    /** @param {number} connection */
    connect(connection) {
        const at = this.proved.fields.get("link.address").at + 2 * connection;
        this.link.fill(0, at, at + 2);
        return this.happens(`connect ${connection}`, () => ({ outcome: this.proved.connect(this.sessions, connection) }), happening(CONNECT, connection));
    }

    /** @param {number} connection */
    disconnect(connection) {
        return this.happens(`disconnect ${connection}`, () => ({ outcome: this.proved.disconnect(this.sessions, connection) }), happening(DISCONNECT, connection));
    }

    /** @param {boolean} on */
    button(on) {
        return this.happens(`button ${switchText(on)}`, () => ({ outcome: this.proved.button(this.sheet, on) }), happening(on ? BUTTON_ON : BUTTON_OFF));
    }

    /** @param {Uint8Array} apdu @param {number} mode @param {number} [connection] @param {number} [group] */
    request(apdu, mode, connection = 0, group = 0) {
        const call = () => {
            const reply = this.proved.request(this.sessions, mode, connection, group, apdu, this.sheet);
            return { outcome: reply.outcome, answer: reply.answer.length ? apduText(this.proved, reply.answer) : "", beside: decimalsBeside(this.proved, reply.answer) };
        };
        return this.happens(keys => `${apduText(this.proved, apdu, keys)}, ${wayText(mode, connection, group)}${decimalsBeside(this.proved, apdu)}`, call, { kind: REQUEST, mode, connection, group, apdu });
    }

    // A frame as it comes: the module says whose it is and what it is to this device, and gives the frame that answers.
    /** @param {Uint8Array} bytes */
    frame(bytes) {
        const { proved } = this, { event, connection, group } = proved.heard(this.link, this.sheet, bytes), frame = proved.readFrame(bytes);
        if (event > FRAME_DISCONNECT) throw new Fault(`${frame.outcome ? "no frame" : "no event"}: ${outcomeText(event)}`);
        const on = connection < CONNECTIONS ? connection : 0, from = `from ${individualText(frame.source)}`, words = (/** @type {boolean} */ keys) => frameText(frame, keys);
        const call = () => {
            const { outcome, frame: answer } = proved.serve(this.link, this.next[on], bytes, this.sheet);
            if (event === FRAME_CONNECT) this.next[on] = 0;
            if (event === CONNECTED && answer.length) this.next[on]++;
            const tpdu = answer.length ? proved.readFrame(answer).tpdu : answer;
            return { outcome, answer: answer.length ? `${apduText(proved, tpdu)}, in the frame ${hex(answer)}` : "", beside: decimalsBeside(proved, tpdu) };
        };
        if (event === FRAME_CONNECT) return this.happens(`connect ${on}, ${from}`, call, happening(CONNECT, on), words);
        if (event === FRAME_DISCONNECT) return this.happens(`disconnect ${on}, ${from}`, call, happening(DISCONNECT, on), words);
        const to = event === MULTICAST ? group : 0;
        return this.happens(keys => `${apduText(proved, frame.tpdu, keys)}, ${wayText(event, on, to)}, ${from}${decimalsBeside(proved, frame.tpdu)}`, call, { kind: REQUEST, mode: event, connection: on, group: to, apdu: frame.tpdu }, words);
    }

    convert() {
        return this.happens("convert", () => ({ outcome: this.proved.convert(this.sheet) }));
    }

    save() {
        return this.happens("save a version", () => {
            const saved = this.proved.save(this.sheet, this.store);
            return { outcome: saved.outcome, answer: saved.outcome === 0 ? `version ${saved.number}` : "" };
        });
    }

    /** @param {number} connection @param {number} version */
    restore(connection, version) {
        return this.happens(`restore version ${version}, on connection ${connection}`,
            () => ({ outcome: this.proved.restore(this.sessions, connection, this.sheet, this.store, version) }));
    }

    /** @param {number} version */
    remove(version) {
        return this.happens(`remove version ${version}`, () => ({ outcome: this.proved.remove(this.store, version) }));
    }
}

// An event without an APDU.
/** @param {number} kind @param {number} [connection] @returns {Happening} */
const happening = (kind, connection = 0) => ({ kind, mode: 0, connection, group: 0, apdu: new Uint8Array(0) });
