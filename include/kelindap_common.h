/*
 * What the headers share: the version, the outcomes and how to ask whether a call succeeded, the rules of a sheet, a record of
 * zeros; and the order of arguments.
 *
 * One order in every call: first the sessions or the link, then the sheet, then a store; then what came, how it came before its
 * bytes; last what is lent to be filled. A number about one of these stands behind it, as its length does: the connection behind
 * the sessions, the number of a version behind the store, a sequence number behind the frame that it is put into.
 */
#ifndef KELINDAP_COMMON_H
#define KELINDAP_COMMON_H

#include <stdbool.h>
#include <stddef.h>
#include <stdint.h>

/*
 * The version of these headers, as text and as 65536 times its first number, 256 times its second, and its third. Each of
 * the two libraries has a call that tells its own: a host that compares the two finds out that it was compiled with other
 * headers than it is linked with.
 */
#define KELINDAP_VERSION_MAJOR 1
#define KELINDAP_VERSION_MINOR 0
#define KELINDAP_VERSION_PATCH 0
#define KELINDAP_VERSION_TEXT "1.0.0"
#define KELINDAP_VERSION (65536 * KELINDAP_VERSION_MAJOR + 256 * KELINDAP_VERSION_MINOR + KELINDAP_VERSION_PATCH)

/* The outcomes, by number; kelindap_names.h has them as text. Not every call gives every one. */
enum kelindap_outcome {
    KELINDAP_OK = 0,             /* a PDU was read or written */
    KELINDAP_ANSWERED = 0,       /* a request was carried out, an answer is in the buffer */
    KELINDAP_DONE = 1,           /* carried out, no answer is due */
    KELINDAP_NOT_FOR_US = 2,     /* not for this device: see kelindap.h */
    KELINDAP_NO_ROOM = 3,        /* the buffer to be filled has under 16 bytes */
    KELINDAP_BAD_SHEET = 4,      /* the sheet breaks a rule; of a conversion, it is not old */
    KELINDAP_BAD_LENGTH = 5,     /* the APDU has not 2 to 16 bytes */
    KELINDAP_BAD_MODE = 6,       /* the mode is not 0 to 3 */
    KELINDAP_NOT_CONNECTED = 7,  /* the connection is closed, or there is none of that number */
    KELINDAP_UNKNOWN = 8,        /* unknown service */
    KELINDAP_WRONG_MODE = 9,     /* the service is not in this mode */
    KELINDAP_UNFIT = 10,         /* length or value against the service's row (kelindap_pdu.h), or a group value of
                                    another length than its entry's */
    KELINDAP_DENIED = 11,        /* denied, the negative answer is in the buffer */
    KELINDAP_DENIED_SILENT = 12, /* denied, no answer is due */
    KELINDAP_UNWRITABLE = 13,    /* PDU writing only: an unknown kind, or against its row */
    KELINDAP_OLD_SHEET = 14,     /* tested right after 4: the sheet breaks no rule, but is of edition 1 */

    /* group values only (kelindap_pdu.h) */
    KELINDAP_POINT_LENGTH = 20,     /* not as many bytes as the type has */
    KELINDAP_POINT_SWITCH = 21,     /* type 1: above 1 */
    KELINDAP_POINT_INVALID = 22,    /* type 9: the code 7FFFh */
    KELINDAP_POINT_RANGE = 23,      /* type 9: hundredths that no code has */
    KELINDAP_POINT_NOT_FINITE = 24, /* type 14: an infinity or NaN */
    KELINDAP_POINT_NO_TYPE = 25,    /* no such type */

    /* frames only (kelindap_frame.h); 44 and 45 are events of a frame that was read */
    KELINDAP_FRAME_SHORT = 40,     /* under 2 bytes, or under 10 and the additional information */
    KELINDAP_FRAME_CODE = 41,      /* another message code */
    KELINDAP_FRAME_FORM = 42,      /* no standard frame */
    KELINDAP_FRAME_LENGTH = 43,    /* the length byte */
    KELINDAP_FRAME_NO_ROOM = 46,   /* writing: the buffer is shorter than the frame */
    KELINDAP_FRAME_UNWRITABLE = 47 /* writing: a field that no frame that reads can have */
};

/*
 * WHETHER A CALL SUCCEEDED, the one way to ask: of the byte that a call gives back, or of the outcome or refusal in the record
 * that it gives back; of a served frame, of its number and of its outcome. What is not 0 or 1 is a refusal, and has changed
 * neither sessions, link, sheet nor store. Three numbers are no outcomes: what kelindap_check gives is a rule, and 1 is the
 * first, so it is held to KELINDAP_ACCEPTED; what kelindap_slot_newer gives is a slot; the number of a version is just that.
 */
static inline bool kelindap_carried_out(uint8_t outcome)
{
    return outcome <= KELINDAP_DONE;
}

/*
 * What the check of a sheet gives: accepted, the first rule broken, S1 to S9, or old. kelindap.h tells what breaks each rule,
 * kelindap_names.h has them as text.
 */
enum kelindap_rule {
    KELINDAP_ACCEPTED = 0,
    KELINDAP_S1 = 1,
    KELINDAP_S2 = 2,
    KELINDAP_S3 = 3,
    KELINDAP_S4 = 4,
    KELINDAP_S5 = 5,
    KELINDAP_S6 = 6,
    KELINDAP_S7 = 7,
    KELINDAP_S8 = 8,
    KELINDAP_S9 = 9,
    KELINDAP_OLD = 14 /* breaks no rule, but is of edition 1: kelindap_convert makes an accepted sheet of it */
};

/* A record of which every field is 0: `kelindap_pdu p = KELINDAP_ZERO;` is without a warning in C and in C++. */
#ifdef __cplusplus
#define KELINDAP_ZERO {}
#else
#define KELINDAP_ZERO { 0 }
#endif

#endif
