/* The calls of kelindap_pdu.h and kelindap_frame.h over those of the proved module, a line each; passing.h says what a line becomes. */
#include "kelindap_frame.h"
#include "kelindap_pdu.h"
#include "passing.h"

/* ---- the two long structures ---- */

#define PDU(F) \
    F(uint64_t, serial) F(uint32_t, key) F(uint16_t, address) F(uint16_t, domain) F(uint16_t, s) F(uint16_t, maximum) \
    F(uint8_t, outcome) F(uint8_t, kind) F(uint8_t, v) F(uint8_t, t) F(uint8_t, object) F(uint8_t, id) F(uint8_t, n) \
    F(uint8_t, index) F(uint8_t, type) F(uint8_t, access) F(uint8_t, level) F(uint64_t, data_offset) F(uint64_t, data_length)

#define FRAME(F) \
    F(uint16_t, source) F(uint16_t, destination) F(uint8_t, outcome) F(uint8_t, event) F(uint8_t, code) F(uint8_t, control1) \
    F(uint8_t, control2) F(uint8_t, transport) F(uint64_t, info_offset) F(uint64_t, info_length) F(uint64_t, tpdu_offset) \
    F(uint64_t, tpdu_length)

FLAT(PDU, kelindap_pdu, 48)
FLAT(FRAME, kelindap_frame, 48)

/* ---- the short ones: three words of a group value, what writing gave ---- */

#define HEADER_POINT(name) kelindap_point name
#define MODULE_POINT(name) uint64_t, word
#define GIVEN_POINT(name) \
    (uint64_t)name.bits << 32 | (uint32_t)name.hundredths, (word)name.outcome << 16 | (word)name.value << 8 | name.type

typedef quad raw_kelindap_point;
static kelindap_point made_kelindap_point(quad q)
{
    uint32_t last = QUAD(q, 2);
    return (kelindap_point){ (int32_t)QUAD(q, 0), QUAD(q, 1), low(last), high(last), low(last >> 16) };
}

typedef word raw_kelindap_written, raw_kelindap_framed;
static kelindap_written made_kelindap_written(word r) { return (kelindap_written){ low(r), high(r) }; }
static kelindap_framed made_kelindap_framed(word r) { return (kelindap_framed){ (uint16_t)r, low(r >> 16) }; }

CALL(number, pdu_version, NONE)
CALL_LONG(kelindap_pdu, read, READ(apdu))
CALL(kelindap_written, write, LONG(kelindap_pdu, pdu), READ(data), WRITE(out))
CALL(kelindap_point, point_read, NUMBER(uint8_t, type), READ(bytes))
CALL(byte, point_write, POINT(point), WRITE(out))
CALL_LONG(kelindap_frame, frame_read, READ(frame))
CALL(kelindap_framed, frame_write, LONG(kelindap_frame, frame), READ(info), READ(apdu), WRITE(out))
