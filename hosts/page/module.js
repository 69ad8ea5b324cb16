// The proved module: each call of the C headers, by its name, over buffers that are lent for that call. Nothing is decided here.

/** @typedef {Record<string, (...values: number[]) => number>} Exports */
/** @typedef {{ outcome: number, answer: Uint8Array }} Reply */
/** @typedef {{ outcome: number, kind: number, data: Uint8Array, fields: Record<string, number | bigint> }} FlatPdu */
/** @typedef {{ outcome: number, value: number, hundredths: number, bits: number }} Point */
/** @typedef {{ refusal: number, handled: number }} Played */

const CONNECTIONS = 2;
const LOG_LINE = 18;
const MOST_EVENTS = 512;
const MOST_VERSIONS = 8;
const ANSWER = 16;
const ANSWER_FRAME = 25;
const LONGEST_FRAME = 280;

class Proved {
    /** @param {WebAssembly.Exports} exports */
    constructor(exports) {
        this.calls = /** @type {Exports} */ (/** @type {unknown} */ (exports));
        this.memory = /** @type {WebAssembly.Memory} */ (exports.memory);
        this.base = (/** @type {WebAssembly.Global} */ (exports.__heap_base).value + 15) & ~15;
        this.top = this.base;
        /** @type {{ at: number, to: Uint8Array | Uint32Array }[]} */
        this.back = [];
        this.fields = this.readFields();
        this.pduFields = [...this.fields].filter(([name]) => name.startsWith("pdu.")).map(([name, place]) => ({ name: name.slice(4), ...place }));
    }

    /** @param {string} base64 */
    static async start(base64) {
        const bytes = Uint8Array.from(atob(base64), c => c.charCodeAt(0));
        return new Proved((await WebAssembly.instantiate(bytes, {})).instance.exports);
    }

    /** Where the fields of the headers' structures stand: the module's C part tells it. */
    readFields() {
        const view = new DataView(this.memory.buffer), all = new Map();
        for (let at = this.calls.page_fields(); view.getUint32(at, true) !== 0; at += 12) {
            let name = "";
            for (let c = view.getUint32(at, true); view.getUint8(c) !== 0; c++) name += String.fromCharCode(view.getUint8(c));
            all.set(name, { at: view.getUint32(at + 4, true), size: view.getUint32(at + 8, true) });
        }
        return all;
    }

    // Room for so many bytes, zeroed.
    /** @param {number} size */
    room(size) {
        const at = this.top;
        this.top = (at + size + 15) & ~15;
        const missing = this.top - this.memory.buffer.byteLength;
        if (missing > 0) this.memory.grow(Math.ceil(missing / 65536));
        new Uint8Array(this.memory.buffer, at, size).fill(0);
        return at;
    }

    // A run lent to be read: its address and its length.
    /** @param {Uint8Array} bytes @returns {[number, number]} */
    read(bytes) {
        const at = this.room(bytes.length);
        new Uint8Array(this.memory.buffer, at, bytes.length).set(bytes);
        return [at, bytes.length];
    }

    // A run lent to be written: after the call it holds what the module left there.
    /** @param {Uint8Array | Uint32Array} run @returns {[number, number]} */
    write(run) {
        const bytes = new Uint8Array(run.buffer, run.byteOffset, run.byteLength);
        const [at] = this.read(bytes);
        this.back.push({ at, to: bytes });
        return [at, run.length];
    }

    // A structure of the headers, zeroed.
    /** @param {string} type */
    structure(type) {
        return this.room(this.fields.get(type).size);
    }

    // A number of so many bytes, as the module has it.
    /** @param {DataView} view @param {number} p @param {number} size */
    at(view, p, size) {
        if (size === 8) return view.getBigUint64(p, true);
        return size === 4 ? view.getUint32(p, true) : size === 2 ? view.getUint16(p, true) : view.getUint8(p);
    }

    /** @param {number} at @param {string} field */
    get(at, field) {
        const place = this.fields.get(field);
        return this.at(new DataView(this.memory.buffer), at + place.at, place.size);
    }

    /** @param {number} at @param {string} field */
    small(at, field) {
        return Number(this.get(at, field));
    }

    // A number into a field; one that the field can't hold is refused.
    /** @param {number} at @param {string} field @param {bigint} value */
    put(at, field, value) {
        const place = this.fields.get(field), view = new DataView(this.memory.buffer), p = at + place.at;
        if (value < 0n || value >= 1n << BigInt(8 * place.size)) return false;
        for (let i = 0; i < place.size; i++) view.setUint8(p + i, Number((value >> BigInt(8 * i)) & 255n));
        return true;
    }

    // A call with what it is lent; the next begins with all room free.
    /** @template T @param {() => T} call @returns {T} */
    lending(call) {
        this.top = this.base;
        this.back = [];
        const result = call();
        for (const { at, to } of this.back) to.set(new Uint8Array(this.memory.buffer, at, to.length));
        return result;
    }

    version() {
        const v = this.calls.kelindap_version();
        return `${v >> 16}.${(v >> 8) & 255}.${v & 255}`;
    }

    // ---- kelindap.h ----

    fresh() {
        const sessions = new Uint8Array(4);
        this.lending(() => this.calls.kelindap_fresh(this.write(sessions)[0]));
        return sessions;
    }

    /** @param {Uint8Array} sheet */
    check(sheet) {
        return this.lending(() => this.calls.kelindap_check(...this.read(sheet)));
    }

    /** @param {Uint8Array} sheet */
    convert(sheet) {
        return this.lending(() => this.calls.kelindap_convert(...this.write(sheet)));
    }

    /** @param {Uint8Array} sessions @param {number} connection */
    connect(sessions, connection) {
        return this.lending(() => this.calls.kelindap_connect(this.write(sessions)[0], connection));
    }

    /** @param {Uint8Array} sessions @param {number} connection */
    disconnect(sessions, connection) {
        return this.lending(() => this.calls.kelindap_disconnect(this.write(sessions)[0], connection));
    }

    /** @param {Uint8Array} sheet @param {boolean} on */
    button(sheet, on) {
        return this.lending(() => this.calls.kelindap_button(...this.write(sheet), Number(on)));
    }

    /**
     * @param {Uint8Array} sessions @param {number} mode @param {number} connection @param {number} group
     * @param {Uint8Array} apdu @param {Uint8Array} sheet @param {Uint8Array} buffer @returns {Reply}
     */
    request(sessions, mode, connection, group, apdu, sheet, buffer = new Uint8Array(ANSWER)) {
        const [outcome, count] = this.lending(() => {
            const reply = this.structure("reply");
            this.calls.kelindap_request(reply, this.write(sessions)[0], ...this.write(sheet), mode, connection, group,
                ...this.read(apdu), ...this.write(buffer));
            return [this.small(reply, "reply.outcome"), this.small(reply, "reply.count")];
        });
        return { outcome, answer: buffer.slice(0, count) };
    }

    // Where a body stands.
    /** @param {"property" | "region" | "group" | "user_region"} kind @param {Uint8Array} sheet @param {number[]} named */
    place(kind, sheet, ...named) {
        return this.lending(() => {
            const part = this.structure("part");
            this.calls["kelindap_" + kind](part, ...this.read(sheet), ...named);
            return { offset: this.small(part, "part.offset"), length: this.small(part, "part.length") };
        });
    }

    // ---- kelindap_store.h ----

    /** @param {Uint8Array} store */
    storeCheck(store) {
        return this.lending(() => this.calls.kelindap_store_check(...this.read(store)));
    }

    /** @param {Uint8Array} sheet @param {Uint8Array} store */
    save(sheet, store) {
        return this.lending(() => {
            const saved = this.structure("saved");
            this.calls.kelindap_save(saved, ...this.read(sheet), ...this.write(store));
            return { outcome: this.small(saved, "saved.outcome"), number: this.small(saved, "saved.number") };
        });
    }

    /** @param {Uint8Array} sessions @param {number} connection @param {Uint8Array} sheet @param {Uint8Array} store @param {number} version */
    restore(sessions, connection, sheet, store, version) {
        return this.lending(() => this.calls.kelindap_restore(this.read(sessions)[0], connection,
            ...this.write(sheet), ...this.read(store), version));
    }

    /** @param {Uint8Array} store @param {number} version */
    remove(store, version) {
        return this.lending(() => this.calls.kelindap_remove(...this.write(store), version));
    }

    // The versions that a store keeps, by number and length.
    /** @param {Uint8Array} store */
    kept(store) {
        const all = [];
        for (let k = 0; k < MOST_VERSIONS; k++) {
            const version = this.lending(() => {
                const kept = this.structure("listed");
                this.calls.kelindap_kept(kept, ...this.read(store), k);
                return { number: this.small(kept, "listed.number"), length: this.small(kept, "listed.length") };
            });
            if (version.number !== 0) all.push(version);
        }
        return all;
    }

    // ---- kelindap_trace.h ----

    /** @param {Uint8Array} trace */
    traceCheck(trace) {
        return this.lending(() => this.calls.kelindap_trace_check(...this.read(trace)));
    }

    /**
     * @param {Uint8Array} sessions @param {Uint8Array} sheet @param {Uint8Array} trace @param {number} from @param {number} limit
     * @param {Uint8Array} log @returns {Played}
     */
    play(sessions, sheet, trace, from, limit, log) {
        return this.lending(() => {
            const played = this.structure("played");
            this.calls.kelindap_play(played, this.write(sessions)[0], ...this.write(sheet), ...this.read(trace), from, limit, ...this.write(log));
            return { refusal: this.small(played, "played.refusal"), handled: this.small(played, "played.handled") };
        });
    }

    /**
     * Marks have a number for each byte of the sheet, and one for the level of each connection.
     * @param {Uint8Array} sessions @param {Uint8Array} sheet @param {Uint8Array} trace @param {number} from @param {number} limit
     * @param {Uint8Array} log @param {Uint32Array} marks @param {number} [before] so many events were played with these marks @returns {Played}
     */
    playMarked(sessions, sheet, trace, from, limit, log, marks, before = from) {
        return this.lending(() => {
            const played = this.structure("played");
            this.calls.kelindap_play_marked(played, this.write(sessions)[0], ...this.write(sheet), ...this.read(trace), from, limit,
                ...this.write(log), this.room(sheet.length), sheet.length, ...this.write(marks), before);
            return { refusal: this.small(played, "played.refusal"), handled: this.small(played, "played.handled") };
        });
    }

    // ---- kelindap_pdu.h ----

    /** @param {Uint8Array} apdu @returns {FlatPdu} */
    readPdu(apdu) {
        return this.lending(() => {
            const pdu = this.structure("pdu");
            this.calls.kelindap_read(pdu, ...this.read(apdu));
            /** @type {Record<string, number | bigint>} */
            const fields = {}, view = new DataView(this.memory.buffer);
            for (const { name, at, size } of this.pduFields) fields[name] = this.at(view, pdu + at, size);
            const from = Number(fields.data_offset);
            return { outcome: Number(fields.outcome), kind: Number(fields.kind), fields, data: apdu.slice(from, from + Number(fields.data_length)) };
        });
    }

    /**
     * A PDU by its fields; 13 if a value does not fit its field.
     * @param {number} kind @param {Record<string, bigint>} fields @param {Uint8Array} data @param {Uint8Array} out
     */
    writePdu(kind, fields, data, out) {
        return this.lending(() => {
            const pdu = this.structure("pdu"), written = this.structure("written");
            let fits = this.put(pdu, "pdu.kind", BigInt(kind));
            for (const [name, value] of Object.entries(fields)) fits = this.put(pdu, "pdu." + name, value) && fits;
            if (!fits) this.put(pdu, "pdu.kind", 255n);
            this.calls.kelindap_write(written, pdu, ...this.read(data), ...this.write(out));
            return { outcome: this.small(written, "written.outcome"), count: this.small(written, "written.count") };
        });
    }

    /** @param {number} type @param {Uint8Array} bytes @returns {Point} */
    readPoint(type, bytes) {
        return this.lending(() => {
            const point = this.structure("point");
            this.calls.kelindap_point_read(point, type, ...this.read(bytes));
            return { outcome: this.small(point, "point.outcome"), value: this.small(point, "point.value"),
                hundredths: this.small(point, "point.hundredths") | 0, bits: this.small(point, "point.bits") };
        });
    }

    /**
     * A value into its bytes, by its type: 5 a byte, 9 to the nearest of its hundredths, 14 a float.
     * @param {number} type @param {number} value @param {Uint8Array} out
     */
    writePoint(type, value, out) {
        return this.lending(() => {
            const point = this.structure("point"), float = new DataView(new ArrayBuffer(4));
            float.setFloat32(0, value);
            this.put(point, "point.type", BigInt(type));
            if (type === 5) this.put(point, "point.value", BigInt(value));
            if (type === 9) this.put(point, "point.hundredths", BigInt.asUintN(32, BigInt(Math.round(100 * Math.max(-1e6, Math.min(1e6, value))))));
            if (type === 14) this.put(point, "point.bits", BigInt(float.getUint32(0)));
            return this.calls.kelindap_point_write(point, ...this.write(out));
        });
    }

    // ---- kelindap_frame.h ----

    // A frame's fields by name, with its additional information and its TPDU.
    /** @param {Uint8Array} frame */
    readFrame(frame) {
        return this.lending(() => {
            const at = this.structure("frame");
            this.calls.kelindap_frame_read(at, ...this.read(frame));
            /** @param {string} name */
            const field = name => this.small(at, "frame." + name);
            /** @param {string} name */
            const part = name => frame.slice(field(name + "_offset"), field(name + "_offset") + field(name + "_length"));
            return { outcome: field("outcome"), event: field("event"), code: field("code"), control1: field("control1"),
                control2: field("control2"), source: field("source"), destination: field("destination"),
                transport: field("transport"), info: part("info"), tpdu: part("tpdu") };
        });
    }

    /**
     * A frame by its fields; 47 if a value does not fit its field.
     * @param {Record<string, bigint>} fields @param {Uint8Array} info @param {Uint8Array} apdu @param {Uint8Array} out
     */
    writeFrame(fields, info, apdu, out) {
        return this.lending(() => {
            const frame = this.structure("frame"), framed = this.structure("framed");
            let fits = true;
            for (const [name, value] of Object.entries(fields)) fits = this.put(frame, "frame." + name, value) && fits;
            if (!fits) this.put(frame, "frame.code", 0n);
            this.calls.kelindap_frame_write(framed, frame, ...this.read(info), ...this.read(apdu), ...this.write(out));
            return { outcome: this.small(framed, "framed.outcome"), count: this.small(framed, "framed.count") };
        });
    }

    // ---- kelindap_link.h ----

    // What a frame is to the device. A link is the sessions and, behind them, the address of each partner.
    /** @param {Uint8Array} link @param {Uint8Array} sheet @param {Uint8Array} frame */
    heard(link, sheet, frame) {
        return this.lending(() => {
            const arrival = this.structure("arrival");
            this.calls.kelindap_heard(arrival, this.read(link)[0], ...this.read(sheet), ...this.read(frame));
            const told = (/** @type {string} */ name) => this.small(arrival, "arrival." + name);
            return {
                event: told("event"), connection: told("connection"), group: told("group"), source: told("source"),
                sequence: told("sequence"), negative: told("negative") === 1,
            };
        });
    }

    // A frame in, at most one frame out.
    /** @param {Uint8Array} link @param {number} sequence @param {Uint8Array} frame @param {Uint8Array} sheet */
    serve(link, sequence, frame, sheet) {
        const out = new Uint8Array(ANSWER_FRAME), [number, outcome, count] = this.lending(() => {
            const served = this.structure("served");
            this.calls.kelindap_serve(served, this.write(link)[0], ...this.write(sheet), ...this.read(frame), ...this.write(out), sequence);
            return [this.small(served, "served.number"), this.small(served, "served.outcome"), this.small(served, "served.count")];
        });
        return { number, outcome, frame: out.slice(0, count) };
    }
}
