// PDUs in words, with keys hidden as the tool hides them (tools/trace/src/words.rs).

const Words = (() => {
    const HIDDEN = "hidden", AUTHORIZE = 0x3d1, KEY_WRITE = 0x3d3;

    // Ten bits that tell the service; 0 of what is too short to have them.
    /** @param {Uint8Array} apdu */
    const service = apdu => (apdu.length < 2 ? 0 : ((apdu[0] & 3) << 8) | apdu[1]);

    // Whether a request carries a key that is a secret: FFFFFFFFh, which all tools try, is none.
    /** @param {Uint8Array} apdu */
    const secret = apdu => apdu.length >= 2 && [AUTHORIZE, KEY_WRITE].includes(service(apdu)) && hex(apdu.subarray(3)) !== "ffffffff";

    // A PDU in the desk unit's words; or why it is none.
    /** @param {Uint8Array} apdu */
    function pdu(apdu) {
        const read = archive.readPdu(apdu);
        return read.outcome === 0 ? pduText(read, false, HIDDEN) : outcomeText(read.outcome);
    }

    /** @param {number} number */
    const outcome = number => MADE.outcomes[number] ?? "no outcome";

    return { HIDDEN, service, secret, pdu, outcome };
})();
