// Values in decimal, as the sheet by meaning shows them: typed in a request as value=1250, and beside data that is shown in hex.

/** Services that carry the elements of a property, and those that carry a group value. */
const PROPERTY_DATA = ["property_write", "property_response"], GROUP_DATA = ["group_write", "group_response"];

// The words of a request with data= in place of value=; the sheet says how many bytes a value has.
/** @param {Proved} proved @param {string} text @param {Uint8Array} sheet @param {number} group */
function inHex(proved, text, sheet, group) {
    const words = text.trim().split(/\s+/), at = words.findIndex(word => /^values?=/.test(word));
    if (at < 0) return text;
    const values = words[at].replace(/^values?=/, "").split(","), others = words.filter((_, i) => i !== at);
    if (others.some(word => word.startsWith("data="))) throw new Fault("value= and data= stand both: one of them is enough");
    if (words[0] === PROPERTY_DATA[0]) return propertyInHex(others, values, entriesOf(sheet).properties);
    if (words[0] === GROUP_DATA[0]) return groupInHex(proved, others, values, entriesOf(sheet).groups.find(g => g.address === group));
    throw new Fault(`${words[0]} has no value in decimal: give its fields as they are, data= in hex`);
}

/** @param {string[]} words @param {string[]} values @param {Property[]} properties */
function propertyInHex(words, values, properties) {
    const field = (/** @type {string} */ name) => words.find(word => word.startsWith(name + "="))?.slice(name.length + 1);
    const [object, id] = [field("object"), field("id")].map(Number), property = properties.find(p => p.object === object && p.id === id);
    if (!property) throw new Fault(`the sheet has no property ${object}/${id}, so the length of a value is not known: give data= in hex`);
    if (property.size > 4) throw new Fault(`an element of ${entryName(property)} has ${counted(property.size, "byte")} and is no number: give data= in hex`);
    const n = field("n"), most = 256 ** property.size - 1;
    if (n !== undefined && Number(n) !== values.length) throw new Fault(`n=${n}, and ${counted(values.length, "value")}`);
    const data = values.map(value => {
        if (!/^\d+$/.test(value)) throw new Fault(`“${value}” is no number in decimal`);
        if (Number(value) > most) throw new Fault(`${value} is more than an element of ${entryName(property)} can hold, ${most}`);
        return Number(value).toString(16).padStart(2 * property.size, "0");
    });
    return [...words, ...(n === undefined ? [`n=${values.length}`] : []), `data=${data.join("")}`].join(" ");
}

/** @param {Proved} proved @param {string[]} words @param {string[]} values @param {Group | undefined} object */
function groupInHex(proved, words, values, object) {
    if (!object) throw new Fault("the sheet has no such group object, so the length of a value is not known: give v= and data=");
    const [value] = values, type = TYPES[object.code], name = entryName(object);
    if (!type || values.length !== 1) throw new Fault(`${name} has ${counted(object.length, "byte")}, and no value in decimal: give v= and data=`);
    const fields = words.filter(word => !word.startsWith("v="));
    if (object.code === 0) {
        const bits = value === "on" ? 1 : value === "off" ? 0 : /^\d+$/.test(value) ? Number(value) : 64;
        if (bits > 63) throw new Fault(`${name} has six bits: on, off, or a number up to 63`);
        return [...fields, `v=${bits}`, "data=-"].join(" ");
    }
    if (!/^-?\d+(\.\d+)?$/.test(value)) throw new Fault(`“${value}” is no number in decimal`);
    if (type === 5 && !(/^\d+$/.test(value) && Number(value) < 256)) throw new Fault(`${name} has one byte: a whole number up to 255`);
    const bytes = new Uint8Array(object.length), outcome = proved.writePoint(type, Number(value), bytes);
    if (outcome) throw new Fault(`${value} is no value of type ${type}: ${outcomeText(outcome)}`);
    return [...fields, "v=0", `data=${hex(bytes)}`].join(" ");
}

// What the data of an APDU says as numbers, if it is of a property or a group: "1250"; else nothing.
/** @param {Proved} proved @param {Uint8Array} apdu */
function decimals(proved, apdu) {
    const pdu = proved.readPdu(apdu);
    if (pdu.outcome) return "";
    const kind = MADE.kinds[pdu.kind], { data } = pdu, n = Number(pdu.fields.n);
    if (PROPERTY_DATA.includes(kind) && n > 0 && data.length > 0 && data.length % n === 0 && data.length <= 4 * n)
        return places(0, n).map(i => String(number(data, i * data.length / n, data.length / n))).join(", ");
    const type = GROUP_DATA.includes(kind) ? TYPES[data.length] : 0;
    if (!type || data.length === 0) return "";
    const point = proved.readPoint(type, data);
    return point.outcome ? "" : pointValue(point, type);
}

// The same behind words in which it stands in hex.
/** @param {Proved} proved @param {Uint8Array} apdu */
function decimalsBeside(proved, apdu) {
    const text = decimals(proved, apdu);
    return text && ` (in decimal: ${text})`;
}
