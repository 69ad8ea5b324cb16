/*
 * Playing back a recorded trace of events on the device. Link with libkelindap_device.a; what kelindap.h says of it, of the
 * sheet and of the host's duties holds here too. docs/TRACE.md has a worked trace, byte by byte.
 *
 *  bytes       what
 *
 *  2           N, the number of events, at most KELINDAP_TRACE_EVENTS
 *  8 times N   an event: kind, mode, group address (2), offset of its APDU from the trace's start (2), its length, zero
 *  the rest    the APDUs, end to end
 *
 * The low four bits of the mode byte are the mode of a request, the high four the connection of a request, a connect or a
 * disconnect. Only requests have an APDU, and an offset is where the APDU before ended, also for an event that has none; the
 * first is the end of the table. Each request is answered into a buffer of 16 bytes.
 */
#ifndef KELINDAP_TRACE_H
#define KELINDAP_TRACE_H

#include "kelindap.h"

#ifdef __cplusplus
extern "C" {
#endif

enum { KELINDAP_TRACE_EVENTS = 512, KELINDAP_TRACE_ENTRY = 8 };

/* The kinds of events. */
enum kelindap_trace_kind {
    KELINDAP_TRACE_REQUEST = 0,
    KELINDAP_TRACE_CONNECT = 1,
    KELINDAP_TRACE_DISCONNECT = 2,
    KELINDAP_TRACE_BUTTON_ON = 3,
    KELINDAP_TRACE_BUTTON_OFF = 4
};

/*
 * Why a trace is refused: the first in this order, of which 53 to 57 are asked of one event after the other, all five of each.
 * A request of any length is let in; one that has not 2 to 16 bytes gets outcome 5 when it is played.
 */
enum kelindap_trace_refusal {
    KELINDAP_TRACE_SHORT = 50,     /* fewer than two bytes */
    KELINDAP_TRACE_MANY = 51,      /* more events than KELINDAP_TRACE_EVENTS */
    KELINDAP_TRACE_TABLE = 52,     /* the table does not fit */
    KELINDAP_TRACE_KIND = 53,      /* a kind above 4 */
    KELINDAP_TRACE_STRAY = 54,     /* a length above 0 of an event that is no request */
    KELINDAP_TRACE_ZERO = 55,      /* an entry's last byte is not zero */
    KELINDAP_TRACE_OFFSET = 56,    /* an offset is not where the APDU before ended */
    KELINDAP_TRACE_PAST_END = 57,  /* an APDU runs past the trace's end */
    KELINDAP_TRACE_LEFT_OVER = 58, /* bytes behind the last APDU */
    KELINDAP_TRACE_LOG = 59,       /* playing only, and after all others: the log is too short for what would be handled */
    KELINDAP_TRACE_MARKS = 70,     /* playing with marks only, after that: marks, or the room for the sheet, of another length */
    KELINDAP_TRACE_NUMBERS = 71    /* and after that: the numbers of the events would run out */
};

/* 0 if the trace can be played, else the number of why not, 50 to 58. */
uint8_t kelindap_trace_check(const uint8_t *trace, size_t trace_length);

/* A line of the log, for one event: outcome, count, 16 bytes of which the first `count` are the answer and the rest zero. */
enum { KELINDAP_LOG_OUTCOME = 0, KELINDAP_LOG_COUNT = 1, KELINDAP_LOG_ANSWER = 2, KELINDAP_LOG_LINE = 18 };

/* What playing gave: 0 or why not, and how many events were handled. */
typedef struct kelindap_played {
    uint8_t refusal;
    uint16_t handled;
} kelindap_played;

/*
 * Plays events of a trace of which `from` have been played: as many as there are left, at most `limit`. Sessions and sheet
 * become what these make of them, one after the other, and the log gets a line for each; its other bytes stay as found. A
 * request that is refused is an event like any other, and is counted. With more played than there are, none is left.
 * A trace that is refused, and a log that is too short, leave sessions, sheet and log as found, before any event is played. So
 * if a trace is played in pieces, the first may be played and the second refused for its log.
 */
kelindap_played kelindap_play(kelindap_sessions *sessions, uint8_t *sheet, size_t sheet_length,
                              const uint8_t *trace, size_t trace_length, size_t from, size_t limit,
                              uint8_t *log, size_t log_length);

/*
 * Playing with marks: sessions, sheet and log become what kelindap_play makes of them, and beside it `marks` tells which event
 * changed what. It has a number for each byte of the sheet, and behind them one for the level of each connection: marks_length counts
 * these numbers, and is sheet_length + KELINDAP_CONNECTIONS. All are 0 at first. After the call
 *  - marks[p] is the number of the last event after which byte p of the sheet was another than before it; it is as it was if
 *    no event of the call was such, and so 0 if none ever was;
 *  - marks[sheet_length + c] is the same of the level of connection c.
 * The events of a call are numbered played + 1, played + 2 and so on: `played` says how many were played with these marks
 * before, in earlier calls and of earlier traces, so that the marks go on. There are at most 4,294,967,295 in all.
 * `before` is room for a copy of the sheet, and as long; what it holds counts for nothing, and afterwards it is the sheet.
 * What is refused leaves marks and before as found too.
 *
 * What a mark proves, from an accepted sheet and marks of 0, if nothing else changes sheet, sessions and marks between the calls
 * and `played` goes on: where a byte of a region, of a property's body or count, or of a key stands, the event was a permitted
 * write that named it, at a level that suffices, and gave it what it holds. The flags (byte 14), the address (bytes 16 and 17)
 * and the group values have an event and no right: the button, a restart, programming mode, the serial number or the group
 * address was enough. A level below 3 is marked with the event that offered the key of that level, and with 0 only if the
 * sessions had it at first. To know level and offer of each event, play one at a time (limit 1): before a request in mode 3 they
 * stand in the session and in the mark of its connection; in other modes the level is 3.
 *
 * A mark also tells whether a write gave a byte another value or the one that stood there, of bytes that nobody may read too:
 * it is guarded as the sheet is.
 */
kelindap_played kelindap_play_marked(kelindap_sessions *sessions, uint8_t *sheet, size_t sheet_length,
                                     const uint8_t *trace, size_t trace_length, size_t from, size_t limit,
                                     uint8_t *log, size_t log_length, uint8_t *before, size_t before_length,
                                     uint32_t *marks, size_t marks_length, uint32_t played);

#ifdef __cplusplus
}
#endif
#endif
