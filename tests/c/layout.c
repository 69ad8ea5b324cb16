/*
 * The layouts that the archives rest on, held to the headers as a C compiler lays them out; and the numbers of the
 * outcomes, rules, connections, modes and kinds. Every line is checked by the compiler; the program only says how many there
 * are. A size has 8 bytes, or 4 on a processor of 32 bits: W, and a structure that ends in sizes is the shorter there.
 */
#include "kelindap.h"
#include "kelindap_frame.h"
#include "kelindap_link.h"
#include "kelindap_pdu.h"
#include "kelindap_plain.h"
#include "kelindap_slots.h"
#include "kelindap_store.h"
#include "kelindap_trace.h"
#include "kelindap_unit.h"

#ifndef BOARD /* where there is no C library, compiling is all of the test */
#include <stdio.h>
#endif

#define W (sizeof(void *))
#define F (W == 8 ? 16 : 12) /* where the sizes of a frame begin */
#define HOLDS(fact) _Static_assert(fact, #fact);
#define SIZE(type, size) HOLDS(sizeof(type) == (size))
#define FIELD(type, field, size, offset) \
    HOLDS(sizeof(((type *)0)->field) == (size) && offsetof(type, field) == (offset))
#define NUMBER(name, number) HOLDS((name) == (number))

#define FACTS \
    SIZE(bool, 1) \
    SIZE(size_t, W) \
    HOLDS(W == 8 || W == 4) \
    SIZE(kelindap_session, 2) \
    FIELD(kelindap_session, open, 1, 0) \
    FIELD(kelindap_session, level, 1, 1) \
    NUMBER(KELINDAP_CONNECTIONS, 2) \
    SIZE(kelindap_sessions, 4) \
    FIELD(kelindap_sessions, of, 4, 0) \
    FIELD(kelindap_sessions, of[1], 2, 2) \
    NUMBER(KELINDAP_CHANGED, 2) \
    SIZE(kelindap_reply, 5 * W) \
    FIELD(kelindap_reply, outcome, 1, 0) \
    FIELD(kelindap_reply, count, 1, 1) \
    FIELD(kelindap_reply, changed, 4 * W, W) \
    FIELD(kelindap_reply, changed[1], 2 * W, 3 * W) \
    SIZE(kelindap_plain_reply, 6) \
    FIELD(kelindap_plain_reply, outcome, 1, 0) \
    FIELD(kelindap_plain_reply, count, 1, 1) \
    FIELD(kelindap_plain_reply, sessions, 4, 2) \
    SIZE(kelindap_part, 2 * W) \
    FIELD(kelindap_part, offset, W, 0) \
    FIELD(kelindap_part, length, W, W) \
    SIZE(kelindap_saved, 4) \
    FIELD(kelindap_saved, outcome, 1, 0) \
    FIELD(kelindap_saved, number, 2, 2) \
    NUMBER(KELINDAP_STORE_LEAST, 8) \
    NUMBER(KELINDAP_STORE_MOST, 32768) \
    NUMBER(KELINDAP_STORE_VERSIONS, 8) \
    NUMBER(KELINDAP_STORE_LAST, 65535) \
    NUMBER(KELINDAP_STORE_BAD, 30) \
    NUMBER(KELINDAP_STORE_NO_NUMBER, 31) \
    NUMBER(KELINDAP_STORE_NO_PLACE, 32) \
    NUMBER(KELINDAP_STORE_NO_ROOM, 33) \
    NUMBER(KELINDAP_STORE_NOT_KEPT, 34) \
    NUMBER(KELINDAP_STORE_NOT_AT_ZERO, 35) \
    NUMBER(KELINDAP_STORE_OTHER, 36) \
    NUMBER(KELINDAP_STORE_HIGH_COUNT, 37) \
    SIZE(kelindap_played, 4) \
    FIELD(kelindap_played, refusal, 1, 0) \
    FIELD(kelindap_played, handled, 2, 2) \
    SIZE(kelindap_link, 8) \
    FIELD(kelindap_link, sessions, 4, 0) \
    FIELD(kelindap_link, address, 4, 4) \
    FIELD(kelindap_link, address[1], 2, 6) \
    SIZE(kelindap_listed, 4) \
    FIELD(kelindap_listed, number, 2, 0) \
    FIELD(kelindap_listed, length, 2, 2) \
    SIZE(kelindap_arrival, 8) \
    FIELD(kelindap_arrival, event, 1, 0) \
    FIELD(kelindap_arrival, connection, 1, 1) \
    FIELD(kelindap_arrival, group, 2, 2) \
    FIELD(kelindap_arrival, source, 2, 4) \
    FIELD(kelindap_arrival, sequence, 1, 6) \
    FIELD(kelindap_arrival, negative, 1, 7) \
    SIZE(kelindap_served, 5 * W) \
    FIELD(kelindap_served, number, 1, 0) \
    FIELD(kelindap_served, outcome, 1, 1) \
    FIELD(kelindap_served, connection, 1, 2) \
    FIELD(kelindap_served, count, 1, 3) \
    FIELD(kelindap_served, changed, 4 * W, W) \
    FIELD(kelindap_served, changed[1], 2 * W, 3 * W) \
    NUMBER(KELINDAP_LINK_ROOM, 25) \
    NUMBER(KELINDAP_LINK_NOBODY, 255) \
    NUMBER(KELINDAP_LINK_FOR_ANOTHER, 60) \
    NUMBER(KELINDAP_LINK_STRANGER, 61) \
    NUMBER(KELINDAP_LINK_NO_PLACE, 62) \
    NUMBER(KELINDAP_LINK_NO_PARTNER, 63) \
    NUMBER(KELINDAP_LINK_NO_ROOM, 64) \
    NUMBER(KELINDAP_LINK_ITSELF, 65) \
    SIZE(kelindap_slot_state, 8 + 2 * W) \
    FIELD(kelindap_slot_state, refusal, 1, 0) \
    FIELD(kelindap_slot_state, number, 4, 4) \
    FIELD(kelindap_slot_state, offset, W, 8) \
    FIELD(kelindap_slot_state, length, W, 8 + W) \
    SIZE(kelindap_slot_judging, 24) \
    FIELD(kelindap_slot_judging, refusal, 1, 0) \
    FIELD(kelindap_slot_judging, number, 4, 4) \
    FIELD(kelindap_slot_judging, length, 4, 8) \
    FIELD(kelindap_slot_judging, left, 4, 12) \
    FIELD(kelindap_slot_judging, stated, 4, 16) \
    FIELD(kelindap_slot_judging, sum, 4, 20) \
    SIZE(kelindap_slot_goal, 8) \
    FIELD(kelindap_slot_goal, slot, 1, 0) \
    FIELD(kelindap_slot_goal, number, 4, 4) \
    SIZE(kelindap_slot_piece, 3 * W) \
    FIELD(kelindap_slot_piece, refusal, 1, 0) \
    FIELD(kelindap_slot_piece, work, 1, 1) \
    FIELD(kelindap_slot_piece, at, W, W) \
    FIELD(kelindap_slot_piece, count, W, 2 * W) \
    NUMBER(KELINDAP_SLOT_FRONT, 64) \
    NUMBER(KELINDAP_SLOT_UNIT, 32) \
    NUMBER(KELINDAP_SLOT_PIECES, 5) \
    NUMBER(KELINDAP_SLOT_MOST, 32768) \
    NUMBER(KELINDAP_SLOT_NEITHER, 2) \
    NUMBER(KELINDAP_SLOT_SHORT, 80) \
    NUMBER(KELINDAP_SLOT_UNMARKED, 81) \
    NUMBER(KELINDAP_SLOT_LENGTH, 82) \
    NUMBER(KELINDAP_SLOT_UNREAD, 83) \
    NUMBER(KELINDAP_SLOT_SUM, 84) \
    NUMBER(KELINDAP_SLOT_BUFFER, 85) \
    NUMBER(KELINDAP_SLOT_NO_ROOM, 86) \
    NUMBER(KELINDAP_WORK_NONE, 0) \
    NUMBER(KELINDAP_WORK_WRITE, 1) \
    NUMBER(KELINDAP_WORK_ERASE, 2) \
    NUMBER(KELINDAP_WORK_SHEET, 3) \
    SIZE(kelindap_written, 2) \
    FIELD(kelindap_written, outcome, 1, 0) \
    FIELD(kelindap_written, count, 1, 1) \
    SIZE(kelindap_pdu, 32 + 2 * W) \
    FIELD(kelindap_pdu, serial, 8, 0) \
    FIELD(kelindap_pdu, key, 4, 8) \
    FIELD(kelindap_pdu, address, 2, 12) \
    FIELD(kelindap_pdu, domain, 2, 14) \
    FIELD(kelindap_pdu, s, 2, 16) \
    FIELD(kelindap_pdu, maximum, 2, 18) \
    FIELD(kelindap_pdu, outcome, 1, 20) \
    FIELD(kelindap_pdu, kind, 1, 21) \
    FIELD(kelindap_pdu, v, 1, 22) \
    FIELD(kelindap_pdu, t, 1, 23) \
    FIELD(kelindap_pdu, object, 1, 24) \
    FIELD(kelindap_pdu, id, 1, 25) \
    FIELD(kelindap_pdu, n, 1, 26) \
    FIELD(kelindap_pdu, index, 1, 27) \
    FIELD(kelindap_pdu, type, 1, 28) \
    FIELD(kelindap_pdu, access, 1, 29) \
    FIELD(kelindap_pdu, level, 1, 30) \
    FIELD(kelindap_pdu, data_offset, W, 32) \
    FIELD(kelindap_pdu, data_length, W, 32 + W) \
    SIZE(kelindap_frame, F + 4 * W) \
    FIELD(kelindap_frame, source, 2, 0) \
    FIELD(kelindap_frame, destination, 2, 2) \
    FIELD(kelindap_frame, outcome, 1, 4) \
    FIELD(kelindap_frame, event, 1, 5) \
    FIELD(kelindap_frame, code, 1, 6) \
    FIELD(kelindap_frame, control1, 1, 7) \
    FIELD(kelindap_frame, control2, 1, 8) \
    FIELD(kelindap_frame, transport, 1, 9) \
    FIELD(kelindap_frame, info_offset, W, F) \
    FIELD(kelindap_frame, info_length, W, F + W) \
    FIELD(kelindap_frame, tpdu_offset, W, F + 2 * W) \
    FIELD(kelindap_frame, tpdu_length, W, F + 3 * W) \
    SIZE(kelindap_framed, 4) \
    FIELD(kelindap_framed, count, 2, 0) \
    FIELD(kelindap_framed, outcome, 1, 2) \
    NUMBER(KELINDAP_TRACE_EVENTS, 512) \
    NUMBER(KELINDAP_TRACE_ENTRY, 8) \
    NUMBER(KELINDAP_TRACE_REQUEST, 0) \
    NUMBER(KELINDAP_TRACE_CONNECT, 1) \
    NUMBER(KELINDAP_TRACE_DISCONNECT, 2) \
    NUMBER(KELINDAP_TRACE_BUTTON_ON, 3) \
    NUMBER(KELINDAP_TRACE_BUTTON_OFF, 4) \
    NUMBER(KELINDAP_TRACE_SHORT, 50) \
    NUMBER(KELINDAP_TRACE_MANY, 51) \
    NUMBER(KELINDAP_TRACE_TABLE, 52) \
    NUMBER(KELINDAP_TRACE_KIND, 53) \
    NUMBER(KELINDAP_TRACE_STRAY, 54) \
    NUMBER(KELINDAP_TRACE_ZERO, 55) \
    NUMBER(KELINDAP_TRACE_OFFSET, 56) \
    NUMBER(KELINDAP_TRACE_PAST_END, 57) \
    NUMBER(KELINDAP_TRACE_LEFT_OVER, 58) \
    NUMBER(KELINDAP_TRACE_LOG, 59) \
    NUMBER(KELINDAP_LOG_OUTCOME, 0) \
    NUMBER(KELINDAP_LOG_COUNT, 1) \
    NUMBER(KELINDAP_LOG_ANSWER, 2) \
    NUMBER(KELINDAP_LOG_LINE, 18) \
    NUMBER(KELINDAP_L_DATA_REQ, 17) \
    NUMBER(KELINDAP_L_DATA_IND, 41) \
    NUMBER(KELINDAP_EVENT_MULTICAST, 0) \
    NUMBER(KELINDAP_EVENT_BROADCAST, 1) \
    NUMBER(KELINDAP_EVENT_CONNECTIONLESS, 2) \
    NUMBER(KELINDAP_EVENT_CONNECTED, 3) \
    NUMBER(KELINDAP_EVENT_CONNECT, 4) \
    NUMBER(KELINDAP_EVENT_DISCONNECT, 5) \
    NUMBER(KELINDAP_EVENT_OTHER, 44) \
    NUMBER(KELINDAP_EVENT_ACKNOWLEDGED, 45) \
    NUMBER(KELINDAP_NO_EVENT, 255) \
    SIZE(kelindap_point, 12) \
    FIELD(kelindap_point, hundredths, 4, 0) \
    FIELD(kelindap_point, bits, 4, 4) \
    FIELD(kelindap_point, type, 1, 8) \
    FIELD(kelindap_point, value, 1, 9) \
    FIELD(kelindap_point, outcome, 1, 10) \
    NUMBER(KELINDAP_ANSWERED, 0) \
    NUMBER(KELINDAP_DONE, 1) \
    NUMBER(KELINDAP_NOT_FOR_US, 2) \
    NUMBER(KELINDAP_NO_ROOM, 3) \
    NUMBER(KELINDAP_BAD_SHEET, 4) \
    NUMBER(KELINDAP_BAD_LENGTH, 5) \
    NUMBER(KELINDAP_BAD_MODE, 6) \
    NUMBER(KELINDAP_NOT_CONNECTED, 7) \
    NUMBER(KELINDAP_UNKNOWN, 8) \
    NUMBER(KELINDAP_WRONG_MODE, 9) \
    NUMBER(KELINDAP_UNFIT, 10) \
    NUMBER(KELINDAP_DENIED, 11) \
    NUMBER(KELINDAP_DENIED_SILENT, 12) \
    NUMBER(KELINDAP_UNWRITABLE, 13) \
    NUMBER(KELINDAP_OLD_SHEET, 14) \
    NUMBER(KELINDAP_POINT_LENGTH, 20) \
    NUMBER(KELINDAP_POINT_SWITCH, 21) \
    NUMBER(KELINDAP_POINT_INVALID, 22) \
    NUMBER(KELINDAP_POINT_RANGE, 23) \
    NUMBER(KELINDAP_POINT_NOT_FINITE, 24) \
    NUMBER(KELINDAP_POINT_NO_TYPE, 25) \
    NUMBER(KELINDAP_FRAME_SHORT, 40) \
    NUMBER(KELINDAP_FRAME_CODE, 41) \
    NUMBER(KELINDAP_FRAME_FORM, 42) \
    NUMBER(KELINDAP_FRAME_LENGTH, 43) \
    NUMBER(KELINDAP_FRAME_NO_ROOM, 46) \
    NUMBER(KELINDAP_FRAME_UNWRITABLE, 47) \
    NUMBER(KELINDAP_ACCEPTED, 0) \
    NUMBER(KELINDAP_S1, 1) \
    NUMBER(KELINDAP_S2, 2) \
    NUMBER(KELINDAP_S3, 3) \
    NUMBER(KELINDAP_S4, 4) \
    NUMBER(KELINDAP_S5, 5) \
    NUMBER(KELINDAP_S6, 6) \
    NUMBER(KELINDAP_S7, 7) \
    NUMBER(KELINDAP_S8, 8) \
    NUMBER(KELINDAP_S9, 9) \
    NUMBER(KELINDAP_OLD, 14) \
    NUMBER(KELINDAP_FIRST, 0) \
    NUMBER(KELINDAP_SECOND, 1) \
    NUMBER(KELINDAP_NO_CONNECTION, 255) \
    NUMBER(KELINDAP_SAVE_NOTHING, 0) \
    NUMBER(KELINDAP_SAVE_LATER, 1) \
    NUMBER(KELINDAP_SAVE_NOW, 2) \
    NUMBER(KELINDAP_MULTICAST, 0) \
    NUMBER(KELINDAP_BROADCAST, 1) \
    NUMBER(KELINDAP_CONNECTIONLESS, 2) \
    NUMBER(KELINDAP_CONNECTED, 3) \
    NUMBER(KELINDAP_GROUP_READ, 0) \
    NUMBER(KELINDAP_GROUP_RESPONSE, 1) \
    NUMBER(KELINDAP_GROUP_WRITE, 2) \
    NUMBER(KELINDAP_ADDRESS_WRITE, 3) \
    NUMBER(KELINDAP_ADDRESS_READ, 4) \
    NUMBER(KELINDAP_SERIAL_READ, 5) \
    NUMBER(KELINDAP_SERIAL_WRITE, 6) \
    NUMBER(KELINDAP_DESCRIPTOR_READ, 7) \
    NUMBER(KELINDAP_PROPERTY_READ, 8) \
    NUMBER(KELINDAP_PROPERTY_WRITE, 9) \
    NUMBER(KELINDAP_DESCRIPTION_READ, 10) \
    NUMBER(KELINDAP_MEMORY_READ, 11) \
    NUMBER(KELINDAP_MEMORY_WRITE, 12) \
    NUMBER(KELINDAP_MEMORY_BIT_WRITE, 13) \
    NUMBER(KELINDAP_AUTHORIZE_REQUEST, 14) \
    NUMBER(KELINDAP_KEY_WRITE, 15) \
    NUMBER(KELINDAP_RESTART, 16) \
    NUMBER(KELINDAP_ADDRESS_RESPONSE, 17) \
    NUMBER(KELINDAP_SERIAL_RESPONSE, 18) \
    NUMBER(KELINDAP_DESCRIPTOR_RESPONSE, 19) \
    NUMBER(KELINDAP_PROPERTY_RESPONSE, 20) \
    NUMBER(KELINDAP_DESCRIPTION_RESPONSE, 21) \
    NUMBER(KELINDAP_MEMORY_RESPONSE, 22) \
    NUMBER(KELINDAP_AUTHORIZE_RESPONSE, 23) \
    NUMBER(KELINDAP_KEY_RESPONSE, 24) \
    NUMBER(KELINDAP_USER_MEMORY_READ, 25) \
    NUMBER(KELINDAP_USER_MEMORY_RESPONSE, 26) \
    NUMBER(KELINDAP_USER_MEMORY_WRITE, 27)

FACTS

#ifndef BOARD
/* the same list again, to count it */
#undef HOLDS
#define HOLDS(fact) +((fact) ? 1 : 0)

int main(void)
{
    printf("layout: %d facts hold\n", 0 FACTS);
    return 0;
}
#endif
