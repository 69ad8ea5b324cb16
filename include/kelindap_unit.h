/*
 * A device in one record, sheet and link together, with the calls of kelindap.h, kelindap_link.h, kelindap_store.h and
 * kelindap_trace.h in a form in which no two arguments can be exchanged. The duties in those headers stand; every call here is
 * at most one call there and decides nothing: plain C, tested and not proved. A host takes requests or frames: one that takes
 * frames never calls kelindap_unit_connect, and kelindap_unit_disconnect for time-outs alone.
 *
 * In C an enum takes any number: what C++ refuses by itself, gcc and clang refuse in C with -Wextra -Werror.
 */
#ifndef KELINDAP_UNIT_H
#define KELINDAP_UNIT_H

#include "kelindap.h"
#include "kelindap_link.h"
#include "kelindap_store.h"
#include "kelindap_trace.h"
#include "kelindap_wear.h"

/* ---- records ---- */

/* The connections. A partner that has none has the last, and its requests get 7: it is never an index. */
enum kelindap_connection {
    KELINDAP_FIRST = 0,
    KELINDAP_SECOND = 1,
    KELINDAP_NO_CONNECTION = 255
};

/* The sheet, which is the host's, its length, and its sessions with, where frames are served, their partners. */
typedef struct kelindap_unit {
    uint8_t *sheet;
    size_t length;
    kelindap_link link;
} kelindap_unit;

/* What is lent to be read: an APDU or a frame. `kelindap_bytes frame = { bytes, length };` */
typedef struct kelindap_bytes {
    const uint8_t *bytes;
    size_t length;
} kelindap_bytes;

/* What is lent to be written: the log of a trace that is played. */
typedef struct kelindap_room {
    uint8_t *bytes;
    size_t length;
} kelindap_room;

/* A store of versions. */
typedef struct kelindap_store {
    uint8_t *bytes;
    size_t length;
} kelindap_store;

/* The number of a version, as a record: `kelindap_version_of(3)`. */
typedef struct kelindap_version_number {
    size_t number;
} kelindap_version_number;

/* A trace, of which `from` events have been played and at most `limit` are to be. kelindap_whole_trace makes one. */
typedef struct kelindap_piece {
    const uint8_t *trace;
    size_t length;
    size_t from;
    size_t limit;
} kelindap_piece;

/*
 * Marks, as kelindap_play_marked has them: `count` numbers, the sheet's length and KELINDAP_CONNECTIONS; room for a copy of the
 * sheet; and how many events were marked before, which a call counts on.
 */
typedef struct kelindap_marks {
    uint32_t *marks;
    size_t count;
    uint8_t *before;
    size_t length;
    uint32_t played;
} kelindap_marks;

/* How a request came; the four calls below make one. */
typedef struct kelindap_way {
    enum kelindap_mode mode;
    enum kelindap_connection connection;
    uint16_t group;
} kelindap_way;

/* What a request gave: its outcome, the first `count` bytes as the answer, which sessions a Restart has closed, and the parts of
   the sheet that were stored, as in kelindap_reply. */
typedef struct kelindap_answer {
    enum kelindap_outcome outcome;
    uint8_t count;
    uint8_t bytes[16];
    bool closed[KELINDAP_CONNECTIONS];
    kelindap_part changed[KELINDAP_CHANGED];
} kelindap_answer;

/* What a frame that was served gave: number, outcome and parts as in kelindap_served; the first `count` bytes as the frame that
   answers; and to the partner of which connection a disconnect is due, since a Restart has closed it. */
typedef struct kelindap_frame_answer {
    uint8_t number;
    enum kelindap_outcome outcome;
    uint8_t count;
    uint8_t bytes[KELINDAP_LINK_ROOM];
    bool closed[KELINDAP_CONNECTIONS];
    kelindap_part changed[KELINDAP_CHANGED];
} kelindap_frame_answer;

/* ---- start, check, saving ---- */

/* A device at its start, both sessions closed. */
static inline kelindap_unit kelindap_unit_start(uint8_t *sheet, size_t length)
{
    kelindap_unit unit = KELINDAP_ZERO;
    unit.sheet = sheet;
    unit.length = length;
    unit.link.sessions = kelindap_fresh();
    return unit;
}

static inline enum kelindap_rule kelindap_unit_check(const kelindap_unit *unit)
{
    return (enum kelindap_rule)kelindap_check(unit->sheet, unit->length);
}

static inline enum kelindap_outcome kelindap_unit_convert(kelindap_unit *unit)
{
    return (enum kelindap_outcome)kelindap_convert(unit->sheet, unit->length);
}

/* What is due of the parts that were stored: kelindap_wear.h. */
static inline enum kelindap_due kelindap_unit_saving(const kelindap_unit *unit, const kelindap_part changed[KELINDAP_CHANGED])
{
    return kelindap_saving(unit->sheet, unit->length, changed);
}

static inline enum kelindap_outcome kelindap_unit_button(kelindap_unit *unit, bool on)
{
    return (enum kelindap_outcome)kelindap_button(unit->sheet, unit->length, on);
}

/* ---- requests ---- */

static inline kelindap_way kelindap_multicast(uint16_t group)
{
    kelindap_way way = { KELINDAP_MULTICAST, KELINDAP_NO_CONNECTION, group };
    return way;
}

static inline kelindap_way kelindap_broadcast(void)
{
    kelindap_way way = { KELINDAP_BROADCAST, KELINDAP_NO_CONNECTION, 0 };
    return way;
}

static inline kelindap_way kelindap_connectionless(void)
{
    kelindap_way way = { KELINDAP_CONNECTIONLESS, KELINDAP_NO_CONNECTION, 0 };
    return way;
}

static inline kelindap_way kelindap_connected(enum kelindap_connection connection)
{
    kelindap_way way = { KELINDAP_CONNECTED, connection, 0 };
    return way;
}

static inline enum kelindap_outcome kelindap_unit_connect(kelindap_unit *unit, enum kelindap_connection connection)
{
    return (enum kelindap_outcome)kelindap_connect(&unit->link.sessions, (uint8_t)connection);
}

static inline enum kelindap_outcome kelindap_unit_disconnect(kelindap_unit *unit, enum kelindap_connection connection)
{
    return (enum kelindap_outcome)kelindap_disconnect(&unit->link.sessions, (uint8_t)connection);
}

static inline kelindap_answer kelindap_unit_request(kelindap_unit *unit, kelindap_way way, kelindap_bytes apdu)
{
    kelindap_answer answer = KELINDAP_ZERO;
    kelindap_sessions before = unit->link.sessions;
    kelindap_reply reply = kelindap_request(&unit->link.sessions, unit->sheet, unit->length, (uint8_t)way.mode,
                                            (uint8_t)way.connection, way.group, apdu.bytes, apdu.length, answer.bytes,
                                            sizeof answer.bytes);
    answer.outcome = (enum kelindap_outcome)reply.outcome;
    answer.count = reply.count;
    for (size_t c = 0; c < KELINDAP_CONNECTIONS; c++)
        answer.closed[c] = before.of[c].open && !unit->link.sessions.of[c].open;
    for (size_t k = 0; k < KELINDAP_CHANGED; k++)
        answer.changed[k] = reply.changed[k];
    return answer;
}

/* ---- frames ---- */

static inline kelindap_arrival kelindap_unit_heard(const kelindap_unit *unit, kelindap_bytes frame)
{
    return kelindap_heard(unit->link, unit->sheet, unit->length, frame.bytes, frame.length);
}

/* A frame in, at most one frame out. The arrival is what kelindap_unit_heard has just said of this frame; the sequence number is
   that of the host's own next frame on its connection. */
static inline kelindap_frame_answer kelindap_unit_serve(kelindap_unit *unit, kelindap_arrival arrival, kelindap_bytes frame,
                                                        uint8_t sequence)
{
    kelindap_frame_answer answer = KELINDAP_ZERO;
    kelindap_sessions before = unit->link.sessions;
    kelindap_served served = kelindap_serve(&unit->link, unit->sheet, unit->length, frame.bytes, frame.length, answer.bytes,
                                            sizeof answer.bytes, sequence);
    answer.number = served.number;
    answer.outcome = (enum kelindap_outcome)served.outcome;
    answer.count = served.count;
    for (size_t c = 0; c < KELINDAP_CONNECTIONS; c++)
        answer.closed[c] =
            before.of[c].open && !unit->link.sessions.of[c].open && arrival.event != KELINDAP_EVENT_DISCONNECT;
    for (size_t k = 0; k < KELINDAP_CHANGED; k++)
        answer.changed[k] = served.changed[k];
    return answer;
}

/* ---- versions ---- */

static inline kelindap_version_number kelindap_version_of(size_t number)
{
    kelindap_version_number version = { number };
    return version;
}

static inline uint8_t kelindap_unit_store_check(const kelindap_store *store)
{
    return kelindap_store_check(store->bytes, store->length);
}

static inline kelindap_saved kelindap_unit_save(const kelindap_unit *unit, kelindap_store *store)
{
    return kelindap_save(unit->sheet, unit->length, store->bytes, store->length);
}

/* On behalf of a connection. */
static inline uint8_t kelindap_unit_restore(kelindap_unit *unit, enum kelindap_connection connection, const kelindap_store *store,
                                            kelindap_version_number version)
{
    return kelindap_restore(unit->link.sessions, (uint8_t)connection, unit->sheet, unit->length, store->bytes, store->length,
                            version.number);
}

static inline uint8_t kelindap_unit_remove(kelindap_store *store, kelindap_version_number version)
{
    return kelindap_remove(store->bytes, store->length, version.number);
}

/* The k-th version, the first being 0; its number is 0 if there is none. */
static inline kelindap_listed kelindap_unit_kept(const kelindap_store *store, size_t k)
{
    return kelindap_kept(store->bytes, store->length, k);
}

/* ---- traces ---- */

/* All of a trace. */
static inline kelindap_piece kelindap_whole_trace(const uint8_t *trace, size_t length)
{
    kelindap_piece piece = { trace, length, 0, KELINDAP_TRACE_EVENTS };
    return piece;
}

static inline uint8_t kelindap_unit_trace_check(kelindap_piece piece)
{
    return kelindap_trace_check(piece.trace, piece.length);
}

static inline kelindap_played kelindap_unit_play(kelindap_unit *unit, kelindap_piece piece, kelindap_room log)
{
    return kelindap_play(&unit->link.sessions, unit->sheet, unit->length, piece.trace, piece.length, piece.from, piece.limit,
                         log.bytes, log.length);
}

/* The same with marks, which are counted on. */
static inline kelindap_played kelindap_unit_play_marked(kelindap_unit *unit, kelindap_piece piece, kelindap_room log,
                                                        kelindap_marks *marks)
{
    kelindap_played played = kelindap_play_marked(&unit->link.sessions, unit->sheet, unit->length, piece.trace, piece.length,
                                                  piece.from, piece.limit, log.bytes, log.length, marks->before, marks->length,
                                                  marks->marks, marks->count, marks->played);
    marks->played += played.handled;
    return played;
}

#endif
