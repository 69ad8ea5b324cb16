/* The calls of the device's headers over those of the proved module, a line each; passing.h says what a line becomes. */
#include "kelindap.h"
#include "kelindap_link.h"
#include "kelindap_slots.h"
#include "kelindap_store.h"
#include "kelindap_trace.h"
#include "passing.h"

_Static_assert(sizeof(kelindap_session) == 2 && offsetof(kelindap_session, level) == 1 && sizeof(kelindap_sessions) == 4,
               "as the module has it");
_Static_assert(sizeof(kelindap_saved) == 4 && offsetof(kelindap_saved, number) == 2, "as the module has it");
_Static_assert(sizeof(kelindap_link) == 8 && offsetof(kelindap_link, address) == 4, "as the module has it");
_Static_assert(sizeof(kelindap_listed) == 4 && offsetof(kelindap_listed, length) == 2, "as the module has it");
_Static_assert(sizeof(kelindap_arrival) == 8 && offsetof(kelindap_arrival, source) == 4 && offsetof(kelindap_arrival, negative) == 7,
               "as the module has it");
_Static_assert(sizeof(kelindap_played) == 4 && offsetof(kelindap_played, handled) == 2, "as the module has it");

/* the sessions by value: their four bytes as one number, the first the lowest */
#define HEADER_SESSIONS(name) kelindap_sessions name
#define MODULE_SESSIONS(name) word
#define GIVEN_SESSIONS(name) \
    (word)name.of[0].open | (word)name.of[0].level << 8 | (word)name.of[1].open << 16 | (word)name.of[1].level << 24

/* a link by value: its eight bytes as one number, the first the lowest */
#define HEADER_LINK(name) kelindap_link name
#define MODULE_LINK(name) uint64_t
#define GIVEN_LINK(name) \
    (uint64_t)(GIVEN_SESSIONS(name.sessions)) | (uint64_t)name.address[0] << 32 | (uint64_t)name.address[1] << 48

typedef word raw_kelindap_sessions, raw_kelindap_saved, raw_kelindap_played, raw_kelindap_listed;
static kelindap_sessions made_kelindap_sessions(word r)
{
    return (kelindap_sessions){ { { low(r), high(r) }, { low(r >> 16), high(r >> 16) } } };
}
static kelindap_saved made_kelindap_saved(word r) { return (kelindap_saved){ low(r), (uint16_t)(r >> 16) }; }
static kelindap_listed made_kelindap_listed(word r) { return (kelindap_listed){ (uint16_t)r, (uint16_t)(r >> 16) }; }
static kelindap_played made_kelindap_played(word r) { return (kelindap_played){ low(r), (uint16_t)(r >> 16) }; }

/* eight bytes, as one number of 64 bits */
typedef uint64_t raw_kelindap_arrival;
static kelindap_arrival made_kelindap_arrival(uint64_t r)
{
    return (kelindap_arrival){ (uint8_t)r, (uint8_t)(r >> 8), (uint16_t)(r >> 16), (uint16_t)(r >> 32), (uint8_t)(r >> 48),
                               (uint8_t)(r >> 56) };
}

/* Two numbers of 64 bits. Each is at most 16,384, the longest sheet, so its lower half is all of it. */
typedef quad raw_kelindap_part;
static kelindap_part made_kelindap_part(quad q) { return (kelindap_part){ QUAD(q, 0), QUAD(q, 2) }; }

/* offset and length of the one part that was stored and of the other */
#define PARTS(p) { { (size_t)p[0], (size_t)p[1] }, { (size_t)p[2], (size_t)p[3] } }

/* a reply, and what serving a frame gave, flat */
typedef struct flat_kelindap_reply {
    uint8_t outcome, count;
    uint64_t part[4];
} flat_kelindap_reply;
_Static_assert(sizeof(flat_kelindap_reply) == 40 && offsetof(flat_kelindap_reply, part) == 8, "as the module has it");
static kelindap_reply of_flat_kelindap_reply(flat_kelindap_reply from)
{
    return (kelindap_reply){ from.outcome, from.count, PARTS(from.part) };
}

typedef struct flat_kelindap_served {
    uint8_t number, outcome, connection, count;
    uint64_t part[4];
} flat_kelindap_served;
_Static_assert(sizeof(flat_kelindap_served) == 40 && offsetof(flat_kelindap_served, part) == 8, "as the module has it");
static kelindap_served of_flat_kelindap_served(flat_kelindap_served from)
{
    return (kelindap_served){ from.number, from.outcome, from.connection, from.count, PARTS(from.part) };
}

/* what stands in a slot, a slot that is being judged, a piece of work; and the goal of a save, eight bytes as one number */
#define STATE(F) F(uint8_t, refusal) F(uint32_t, number) F(uint64_t, offset) F(uint64_t, length)
#define JUDGING(F) \
    F(uint8_t, refusal) F(uint32_t, number) F(uint32_t, length) F(uint32_t, left) F(uint32_t, stated) F(uint32_t, sum)
#define PIECE(F) F(uint8_t, refusal) F(uint8_t, work) F(uint64_t, at) F(uint64_t, count)
FLAT(STATE, kelindap_slot_state, 24)
FLAT(JUDGING, kelindap_slot_judging, 24)
FLAT_RESULT(PIECE, kelindap_slot_piece, 24)
_Static_assert(sizeof(kelindap_slot_goal) == 8 && offsetof(kelindap_slot_goal, number) == 4, "as the module has it");
typedef uint64_t raw_kelindap_slot_goal;
static kelindap_slot_goal made_kelindap_slot_goal(uint64_t r) { return (kelindap_slot_goal){ (uint8_t)r, (uint32_t)(r >> 32) }; }

CALL(number, version, NONE)
CALL(kelindap_sessions, fresh, NONE)
CALL(byte, connect, AT(kelindap_sessions, sessions), NUMBER(uint8_t, connection))
CALL(byte, disconnect, AT(kelindap_sessions, sessions), NUMBER(uint8_t, connection))
CALL(byte, button, WRITE(sheet), NUMBER(bool, on))
CALL_LONG(kelindap_reply, request, AT(kelindap_sessions, sessions), WRITE(sheet), NUMBER(uint8_t, mode),
          NUMBER(uint8_t, connection), NUMBER(uint16_t, group), READ(apdu), WRITE(answer))
CALL(byte, check, READ(sheet))
CALL(byte, convert, WRITE(sheet))
CALL(kelindap_part, property, READ(sheet), NUMBER(uint8_t, object), NUMBER(uint8_t, id))
CALL(kelindap_part, region, READ(sheet), SIZE(k))
CALL(kelindap_part, group, READ(sheet), NUMBER(uint16_t, address))
CALL(kelindap_part, user_region, READ(sheet), SIZE(k))
CALL(byte, store_check, READ(store))
CALL(kelindap_saved, save, READ(sheet), WRITE(store))
CALL(byte, restore, SESSIONS(sessions), NUMBER(uint8_t, connection), WRITE(sheet), READ(store), SIZE(number))
CALL(byte, remove, WRITE(store), SIZE(number))
CALL(kelindap_listed, kept, READ(store), SIZE(k))
CALL(byte, trace_check, READ(trace))
CALL(kelindap_played, play, AT(kelindap_sessions, sessions), WRITE(sheet), READ(trace), SIZE(from), SIZE(limit), WRITE(log))
CALL(kelindap_played, play_marked, AT(kelindap_sessions, sessions), WRITE(sheet), READ(trace), SIZE(from), SIZE(limit), WRITE(log),
     WRITE(before), NUMBERS(marks), NUMBER(uint32_t, played))
CALL(kelindap_arrival, heard, LINK(link), READ(sheet), READ(frame))
CALL_LONG(kelindap_served, serve, AT(kelindap_link, link), WRITE(sheet), READ(frame), WRITE(out), NUMBER(uint8_t, sequence))
CALL_LONG(kelindap_slot_state, slot, READ(slot))
CALL_LONG(kelindap_slot_judging, slot_begin, READ(front), SIZE(room))
CALL_LONG(kelindap_slot_judging, slot_more, LONG(kelindap_slot_judging, judging), READ(bytes))
CALL_LONG(kelindap_slot_state, slot_end, LONG(kelindap_slot_judging, judging))
CALL(byte, slot_newer, LONG(kelindap_slot_state, first), LONG(kelindap_slot_state, second))
CALL(kelindap_slot_goal, slot_target, LONG(kelindap_slot_state, first), LONG(kelindap_slot_state, second))
CALL_LONG(kelindap_slot_piece, slot_work, READ(sheet), NUMBER(uint32_t, number), SIZE(room), NUMBER(uint8_t, piece), WRITE(buffer))
