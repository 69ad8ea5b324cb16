// Bytes, numbers and addresses as people write them.

/** The two digits of each byte. */
const DIGITS_OF = Array.from({ length: 256 }, (_, byte) => byte.toString(16).padStart(2, "0"));

/** @param {ArrayLike<number>} bytes */
const hex = bytes => Array.from(bytes, byte => DIGITS_OF[byte]).join("");

// The same, and "-" for no bytes.
/** @param {ArrayLike<number>} bytes */
const run = bytes => hex(bytes) || "-";

/** What a person can set right: its text is shown where it was typed. */
class Fault extends Error {}

/**
 * The bytes of hex digits, with blanks, commas or line ends between them or not; "-" is none.
 * @param {string} text
 */
function unhex(text) {
    const digits = text.replace(/[\s,;:]+|0x/gi, "");
    if (digits === "-") return new Uint8Array(0);
    const wrong = /[^0-9a-f]/i.exec(digits);
    if (wrong) throw new Fault(`“${wrong[0]}” is no hex digit`);
    if (digits.length % 2) throw new Fault(`${digits.length} hex digits: a byte has two`);
    const bytes = new Uint8Array(digits.length / 2);
    for (let i = 0; i < bytes.length; i++) bytes[i] = parseInt(digits.slice(2 * i, 2 * i + 2), 16);
    return bytes;
}

// The number in so many bytes, the high one first.
/** @param {ArrayLike<number>} bytes @param {number} at @param {number} size */
function number(bytes, at, size) {
    let value = 0;
    for (let i = 0; i < size; i++) value = value * 256 + bytes[at + i];
    return value;
}

/** @param {number} address */
const memoryText = address => address.toString(16).padStart(4, "0") + "h";
// Main, middle and sub group: five bits, three and eight.
/** @param {number} address */
const groupText = address => `${address >> 11}/${(address >> 8) & 7}/${address & 255}`;
// Area, line, device: four bits, four and eight.
/** @param {number} address */
const individualText = address => `${address >> 12}.${(address >> 8) & 15}.${address & 255}`;

// A group address as a person types it, 1/0/1 or a number.
/** @param {string} text */
function groupOf(text) {
    const parts = /^\s*(\d+)\/(\d+)\/(\d+)\s*$/.exec(text);
    const [main, middle, sub] = parts ? parts.slice(1).map(Number) : [0, 0, 0];
    if (parts && main < 32 && middle < 8 && sub < 256) return (main << 11) | (middle << 8) | sub;
    if (/^\s*\d+\s*$/.test(text) && Number(text) < 65536) return Number(text);
    throw new Fault(`“${text}” is no group address, as 1/0/1 is`);
}

// The numbers from one on, so many.
/** @param {number} from @param {number} length */
const places = (from, length) => Array.from({ length }, (_, i) => from + i);

const grouped = new Intl.NumberFormat("en-US");
/** @param {number} count @param {string} one @param {string} [many] */
const counted = (count, one, many = one + "s") => `${grouped.format(count)} ${count === 1 ? one : many}`;

// A run of bytes by fours, as far as it has them, if it lies so that it can be read so.
/** @param {Uint8Array} bytes */
const inFours = bytes => (bytes.byteOffset % 4 ? null : new Uint32Array(bytes.buffer, bytes.byteOffset, bytes.length >> 2));

/** @param {ArrayLike<number>} a @param {ArrayLike<number>} b */
function same(a, b) {
    if (a.length !== b.length) return false;
    for (let i = 0; i < a.length; i++) if (a[i] !== b[i]) return false;
    return true;
}
