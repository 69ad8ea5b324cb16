/*
 * Outcomes, rules of a sheet and kinds of PDUs as text, for logs and people. The only place that has these words: the desk
 * unit, the tests and the demonstration take them from here.
 */
#ifndef KELINDAP_NAMES_H
#define KELINDAP_NAMES_H

#include "kelindap_common.h"
#include "kelindap_frame.h"
#include "kelindap_link.h"
#include "kelindap_pdu.h"
#include "kelindap_slots.h"
#include "kelindap_store.h"
#include "kelindap_trace.h"

/* Each outcome by number, with its name in enum kelindap_outcome, 44 and 45 in enum kelindap_event, and its words. */
#define KELINDAP_OUTCOMES(X)                                      \
    X(0, ANSWERED, "carried out")                                 \
    X(1, DONE, "carried out")                                     \
    X(2, NOT_FOR_US, "not for this device")                       \
    X(3, NO_ROOM, "the answer buffer is too short")               \
    X(4, BAD_SHEET, "the sheet breaks a rule")                    \
    X(5, BAD_LENGTH, "the length is wrong")                       \
    X(6, BAD_MODE, "unknown mode")                                \
    X(7, NOT_CONNECTED, "not connected")                          \
    X(8, UNKNOWN, "unknown service")                              \
    X(9, WRONG_MODE, "wrong mode")                                \
    X(10, UNFIT, "unfit length or value")                         \
    X(11, DENIED, "refused")                                      \
    X(12, DENIED_SILENT, "refused")                               \
    X(13, UNWRITABLE, "no PDU that can be written")               \
    X(14, OLD_SHEET, "the sheet is old: convert it")              \
    X(20, POINT_LENGTH, "not as many bytes as the type has")      \
    X(21, POINT_SWITCH, "a switch above 1")                       \
    X(22, POINT_INVALID, "the code 7FFFh, which is no value")     \
    X(23, POINT_RANGE, "hundredths that no code has")             \
    X(24, POINT_NOT_FINITE, "an infinity, or no number")          \
    X(25, POINT_NO_TYPE, "no such datapoint type")                \
    X(40, FRAME_SHORT, "too short for a frame")                   \
    X(41, FRAME_CODE, "another message code")                     \
    X(42, FRAME_FORM, "no standard frame")                        \
    X(43, FRAME_LENGTH, "the length byte is wrong")               \
    X(44, EVENT_OTHER, "neither data nor connect nor disconnect") \
    X(45, EVENT_ACKNOWLEDGED, "an acknowledgement")               \
    X(46, FRAME_NO_ROOM, "the buffer is shorter than the frame")  \
    X(47, FRAME_UNWRITABLE, "no frame that can be written")

/* Each outcome that the calls on a store of versions alone have, with its name in enum kelindap_store_outcome. */
#define KELINDAP_STORE_OUTCOMES(X)                                \
    X(30, STORE_BAD, "the store is not a good one")               \
    X(31, STORE_NO_NUMBER, "the last number has been given")      \
    X(32, STORE_NO_PLACE, "as many versions are kept as can be")  \
    X(33, STORE_NO_ROOM, "no room in the store")                  \
    X(34, STORE_NOT_KEPT, "no such version is kept")              \
    X(35, STORE_NOT_AT_ZERO, "not open at level 0")               \
    X(36, STORE_OTHER, "the version is of another sheet")         \
    X(37, STORE_HIGH_COUNT, "the version has too high a count")

/* Each refusal of a trace, with its name in enum kelindap_trace_refusal. */
#define KELINDAP_TRACE_REFUSALS(X)                              \
    X(50, TRACE_SHORT, "too short for a trace")                 \
    X(51, TRACE_MANY, "too many events")                        \
    X(52, TRACE_TABLE, "the table does not fit")                \
    X(53, TRACE_KIND, "an unknown kind of event")               \
    X(54, TRACE_STRAY, "a length of an event that has none")    \
    X(55, TRACE_ZERO, "an entry's last byte is not zero")       \
    X(56, TRACE_OFFSET, "an offset other than the end before")  \
    X(57, TRACE_PAST_END, "an APDU past the end of the trace")  \
    X(58, TRACE_LEFT_OVER, "bytes behind the last APDU")        \
    X(59, TRACE_LOG, "the log is too short")                    \
    X(70, TRACE_MARKS, "marks of another length")               \
    X(71, TRACE_NUMBERS, "the numbers of events run out")

/* Each number of why a frame is no event for this device, with its name in enum kelindap_link_outcome. */
#define KELINDAP_LINK_OUTCOMES(X)                                 \
    X(60, LINK_FOR_ANOTHER, "for another device")                 \
    X(61, LINK_STRANGER, "connected data from nobody's partner")  \
    X(62, LINK_NO_PLACE, "no place for a third partner")          \
    X(63, LINK_NO_PARTNER, "a disconnect from nobody's partner")  \
    X(64, LINK_NO_ROOM, "no room for the longest answer")         \
    X(65, LINK_ITSELF, "from the device's own address to itself")

/* Each refusal of a slot, and of a save to one, with its name in enum kelindap_slot_refusal. */
#define KELINDAP_SLOT_REFUSALS(X)                                 \
    X(80, SLOT_SHORT, "too short for a slot")                     \
    X(81, SLOT_UNMARKED, "no mark: empty, or a save was cut")     \
    X(82, SLOT_LENGTH, "a length that does not fit the slot")     \
    X(83, SLOT_UNREAD, "not the whole sheet was handed over")     \
    X(84, SLOT_SUM, "another check sum")                          \
    X(85, SLOT_BUFFER, "the buffer has under 32 bytes")           \
    X(86, SLOT_NO_ROOM, "no room in the slot")

/* Each rule of a sheet by number, with its name in enum kelindap_rule and what breaks it; 0 and 14 have their words below. */
#define KELINDAP_RULES(X)                                                  \
    X(1, S1, "not 32 to 16,384 bytes")                                     \
    X(2, S2, "an edition other than 1 and 2")                              \
    X(3, S3, "too many entries of a kind")                                 \
    X(4, S4, "another length than it states, or no room for its entries")  \
    X(5, S5, "a head with a bit that must be 0, or with unknown rules")    \
    X(6, S6, "a region against its rules")                                 \
    X(7, S7, "a property against its rules")                               \
    X(8, S8, "a group object against its rules")                           \
    X(9, S9, "bodies with a gap, an overlap, or a six-bit value above 63")

/* Each kind by number, with its name in enum kelindap_kind and its name at the desk unit. */
#define KELINDAP_KINDS(X)                               \
    X(0, GROUP_READ, "group_read")                      \
    X(1, GROUP_RESPONSE, "group_response")              \
    X(2, GROUP_WRITE, "group_write")                    \
    X(3, ADDRESS_WRITE, "address_write")                \
    X(4, ADDRESS_READ, "address_read")                  \
    X(5, SERIAL_READ, "serial_read")                    \
    X(6, SERIAL_WRITE, "serial_write")                  \
    X(7, DESCRIPTOR_READ, "descriptor_read")            \
    X(8, PROPERTY_READ, "property_read")                \
    X(9, PROPERTY_WRITE, "property_write")              \
    X(10, DESCRIPTION_READ, "description_read")         \
    X(11, MEMORY_READ, "memory_read")                   \
    X(12, MEMORY_WRITE, "memory_write")                 \
    X(13, MEMORY_BIT_WRITE, "memory_bit_write")         \
    X(14, AUTHORIZE_REQUEST, "authorize_request")       \
    X(15, KEY_WRITE, "key_write")                       \
    X(16, RESTART, "restart")                           \
    X(17, ADDRESS_RESPONSE, "address_response")         \
    X(18, SERIAL_RESPONSE, "serial_response")           \
    X(19, DESCRIPTOR_RESPONSE, "descriptor_response")   \
    X(20, PROPERTY_RESPONSE, "property_response")       \
    X(21, DESCRIPTION_RESPONSE, "description_response") \
    X(22, MEMORY_RESPONSE, "memory_response")           \
    X(23, AUTHORIZE_RESPONSE, "authorize_response")     \
    X(24, KEY_RESPONSE, "key_response")                 \
    X(25, USER_MEMORY_READ, "user_memory_read")         \
    X(26, USER_MEMORY_RESPONSE, "user_memory_response") \
    X(27, USER_MEMORY_WRITE, "user_memory_write")

/* The words of a number that is none: "no outcome", "no rule", "no kind". */
static inline const char *kelindap_outcome_name(uint8_t outcome)
{
    switch (outcome) {
#define KELINDAP_CASE(number, name, text) \
    case KELINDAP_##name:                 \
        return text;
        KELINDAP_OUTCOMES(KELINDAP_CASE)
        KELINDAP_STORE_OUTCOMES(KELINDAP_CASE)
        KELINDAP_TRACE_REFUSALS(KELINDAP_CASE)
        KELINDAP_LINK_OUTCOMES(KELINDAP_CASE)
        KELINDAP_SLOT_REFUSALS(KELINDAP_CASE)
    default:
        return "no outcome";
    }
}

static inline const char *kelindap_rule_name(uint8_t rule)
{
    switch (rule) {
        KELINDAP_RULES(KELINDAP_CASE)
    case KELINDAP_ACCEPTED:
        return "accepted";
    case KELINDAP_OLD:
        return "old: convert it";
    default:
        return "no rule";
    }
}

static inline const char *kelindap_kind_name(uint8_t kind)
{
    switch (kind) {
        KELINDAP_KINDS(KELINDAP_CASE)
#undef KELINDAP_CASE
    default:
        return "no kind";
    }
}

#endif
