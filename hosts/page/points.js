// A group value as a person reads it. The sheet has no datapoint types: a value is read as the type of its length.

/** The type for a length code: six bits, 1, 2 and 4 bytes. */
const TYPES = /** @type {Record<number, number>} */ ({ 0: 1, 1: 5, 2: 9, 4: 14 });

/** @param {Point} point @param {number} type */
function pointValue(point, type) {
    if (type === 1) return point.value ? "on" : "off";
    if (type === 5) return String(point.value);
    if (type === 9) return (point.hundredths / 100).toFixed(2);
    const view = new DataView(new ArrayBuffer(4));
    view.setUint32(0, point.bits);
    return String(Number(view.getFloat32(0).toPrecision(7)));
}

// The value with its type; why it is none; or nothing if no type has this length.
/** @param {Proved} proved @param {number} code @param {Uint8Array} bytes */
function pointText(proved, code, bytes) {
    const type = TYPES[code];
    if (!type) return "";
    const point = proved.readPoint(type, bytes);
    return point.outcome ? `as type ${type}: ${outcomeText(point.outcome)}` : `as type ${type}: ${pointValue(point, type)}`;
}
