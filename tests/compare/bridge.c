/*
 * The two libraries behind a pipe, for a driver that can't link them. Commands come on standard input, each is one letter
 * and its operands, and each gets one reply on standard output. Numbers are little endian, of one byte or as many as the
 * digit says; a run (APDU, BUFFER, DATA, FRAME) is sent as a length of two bytes and its bytes, and a buffer comes back bare.
 *
 *   s LENGTH4 BYTES                          sets the sheet                   RULE HASH8
 *   x AT4 BYTE                               changes a byte of the sheet      RULE HASH8
 *   k                                        checks the sheet                 RULE HASH8
 *   f                                        fresh sessions                   SESSIONS
 *   v C OPEN LEVEL                           sets a session as found          SESSIONS
 *   c C, d C, b ON                           connect, disconnect, button      OUTCOME SESSIONS HASH8
 *   q MODE C GROUP2 APDU BUFFER              a request                        OUTCOME COUNT SESSIONS PARTS BUFFER HASH8
 *   p OBJECT ID, r K8, u K8, g ADDRESS2      lookups                          OFFSET8 LENGTH8 HASH8
 *   R APDU                                   reads a PDU                      the flat PDU
 *   W flat PDU, DATA BUFFER                  writes a PDU                     OUTCOME COUNT BUFFER
 *   S LENGTH4 BYTES                          sets the store of versions       OUTCOME STOREHASH8
 *   a                                        saves a version                  OUTCOME NUMBER2 HASH8 STOREHASH8
 *   o C NUMBER8                              restores one                     OUTCOME SESSIONS HASH8 STOREHASH8
 *   e NUMBER8                                removes one                      OUTCOME STOREHASH8
 *   Y LENGTH4 BYTES                          sets the trace                   REFUSAL
 *   y FROM8 LIMIT8 LENGTH4 LOG               plays events of it               REFUSAL HANDLED2 SESSIONS LOG HASH8
 *   m FROM8 LIMIT8 PLAYED4 LENGTH4 LOG       plays with marks                 REFUSAL HANDLED2 SESSIONS LOG HASH8 MARKHASH8
 *   l ADDRESS2 ADDRESS2                      sets the partners' addresses     ADDRESS2 ADDRESS2
 *   h FRAME                                  what a frame is                  EVENT C GROUP2
 *   z SEQUENCE FRAME BUFFER                  serves one                       NUMBER OUTCOME C COUNT SESSIONS ADDRESS2 ADDRESS2 PARTS BUFFER HASH8
 *   D, E                                     shows the sheet, the store       BYTES
 *   t TIMES4 MODE C GROUP2 APDU BUFFER       so many requests, on a board     INSTRUCTIONS8
 *   T TIMES4                                 so many checks, on a board       INSTRUCTIONS8
 *   !                                        goes deeper than the stack, on a board
 *
 * C is the number of a connection. SESSIONS is open and level of connection 0, then of 1. PARTS is OFFSET4 LENGTH4 of each of
 * the two parts stored. HASH8 is of the whole sheet after the call. Marks are 0 when a sheet is set. A request is served by both
 * engines, on two copies of all that it is lent, and must give and leave the same in both; on a board by the first alone.
 * Replies are kept until the input runs dry, so a driver may send many
 * commands and then read as many replies. Sheet, sessions and buffers stand between guard bytes; an empty run is lent as NULL.
 */
#define _POSIX_C_SOURCE 200809L
#include "kelindap.h"
#include "kelindap_link.h"
#include "kelindap_store.h"
#include "kelindap_trace.h"

#ifdef BOARD /* a controller's processor alone: no C library but the little of it that is used here, no PDU layer */
#include "board.h"
#else
#include "kelindap_pdu.h"
#include "kelindap_plain.h"
#include <errno.h>
#include <stdlib.h>
#include <string.h>
#include <unistd.h>
#endif

/* ---- the pipes ---- */

#ifdef SMALL /* a board with 16 KB of memory */
enum { PIPE = 1 << 11, SHEET = 1 << 11, STORE = 1 << 9, TRACE = 1 << 10, LOG = 1 << 10, RUN = 63 };
#else
enum { PIPE = 1 << 16, SHEET = 1 << 17, STORE = 1 << 16, TRACE = 1 << 18, LOG = 1 << 14, RUN = 1023 };
#endif
static uint8_t in[PIPE];
static size_t in_at, in_end;
static uint8_t out[PIPE];
static size_t out_end;

static void flush(void)
{
    size_t at = 0;
    while (at < out_end) {
        ssize_t n = write(STDOUT_FILENO, out + at, out_end - at);
        if (n < 0 && errno == EINTR)
            continue;
        if (n <= 0)
            exit(EXIT_FAILURE);
        at += (size_t)n;
    }
    out_end = 0;
}

/* The replies so far are given, so that the driver sees which command was the last. */
static _Noreturn void give_up(const char *why)
{
    flush();
    if (write(STDERR_FILENO, "bridge: ", 8) < 0 || write(STDERR_FILENO, why, strlen(why)) < 0 ||
        write(STDERR_FILENO, "\n", 1) < 0)
        exit(2);
    exit(EXIT_FAILURE);
}

/* More input, after the replies have gone out; false at its end. */
static bool fill(void)
{
    ssize_t n;
    flush();
    do
        n = read(STDIN_FILENO, in, sizeof in);
    while (n < 0 && errno == EINTR);
    in_at = 0;
    in_end = n > 0 ? (size_t)n : 0;
    return n > 0;
}

static void take(uint8_t *to, size_t length)
{
    while (length > 0) {
        if (in_at == in_end && !fill())
            give_up("the input ends within a command");
        size_t n = in_end - in_at < length ? in_end - in_at : length;
        memcpy(to, in + in_at, n);
        in_at += n;
        to += n;
        length -= n;
    }
}

static uint64_t number(size_t bytes)
{
    uint8_t b[8];
    uint64_t value = 0;
    take(b, bytes);
    for (size_t i = bytes; i-- > 0;)
        value = value << 8 | b[i];
    return value;
}

static uint8_t byte(void)
{
    return (uint8_t)number(1);
}

static void give(const uint8_t *from, size_t length)
{
    while (length > 0) {
        if (out_end == sizeof out)
            flush();
        size_t n = sizeof out - out_end < length ? sizeof out - out_end : length;
        memcpy(out + out_end, from, n);
        out_end += n;
        from += n;
        length -= n;
    }
}

static void give_number(uint64_t value, size_t bytes)
{
    uint8_t b[8];
    for (size_t i = 0; i < bytes; i++)
        b[i] = (uint8_t)(value >> 8 * i);
    give(b, bytes);
}

/* ---- what is lent to the libraries ---- */

enum { GUARD = 16, MARK = 0xC7 };

typedef struct lent {
    uint8_t *bytes;
    size_t length;
} lent;

/* A run in the middle of room, with marked bytes on both sides. */
static lent lend(uint8_t *room, size_t length)
{
    memset(room, MARK, GUARD);
    memset(room + GUARD + length, MARK, GUARD);
    return (lent){ room + GUARD, length };
}

/* What a call is given: an empty run is NULL. */
static uint8_t *given(lent l)
{
    return l.length == 0 ? NULL : l.bytes;
}

static void guarded(lent l)
{
    static const uint8_t marks[GUARD] = { MARK, MARK, MARK, MARK, MARK, MARK, MARK, MARK,
                                          MARK, MARK, MARK, MARK, MARK, MARK, MARK, MARK };
    if (memcmp(l.bytes - GUARD, marks, GUARD) != 0 || memcmp(l.bytes + l.length, marks, GUARD) != 0)
        give_up("a byte beside a buffer was written");
}

/* A run from the input, its length in so many bytes. */
static lent take_run(uint8_t *room, size_t most, size_t bytes)
{
    size_t length = (size_t)number(bytes);
    if (length > most)
        give_up("a run is too long");
    lent l = lend(room, length);
    take(l.bytes, length);
    return l;
}

static uint8_t sheet_room[GUARD + SHEET + GUARD], apdu_room[GUARD + RUN + GUARD], answer_room[GUARD + RUN + GUARD];
static uint8_t store_room[GUARD + STORE + GUARD], trace_room[GUARD + TRACE + GUARD], log_room[GUARD + LOG + GUARD];
static lent sheet, store, trace;
static struct {
    uint8_t below[GUARD];
    kelindap_link link;
    uint8_t above[GUARD];
} link_room;
#define partners (link_room.link)
#ifndef BOARD
static kelindap_sessions left_by(kelindap_plain_reply reply) { return reply.sessions; }
#endif
#define sessions (partners.sessions)

/* FNV-1a by words of eight bytes, and each word's upper half brought down, so that no two changes hide each other. */
static void give_hash_of(lent l)
{
    const uint64_t prime = 0x100000001B3;
    uint64_t h = 0xCBF29CE484222325 ^ l.length;
    size_t i = 0;
    for (; i + 8 <= l.length; i += 8) {
        uint64_t word;
        memcpy(&word, l.bytes + i, 8);
        h = (h ^ word) * prime;
        h ^= h >> 32;
    }
    for (; i < l.length; i++)
        h = (h ^ l.bytes[i]) * prime;
    guarded(l);
    give_number(h, 8);
}

static void give_hash(void)
{
    give_hash_of(sheet);
}

static void give_sessions(void)
{
    /* as they stand in memory: a bool that is neither 0 nor 1 would be seen */
    uint8_t raw[sizeof sessions];
    guarded((lent){ (uint8_t *)&link_room + GUARD, sizeof partners });
    memcpy(raw, &sessions, sizeof raw);
    give(raw, sizeof raw);
}

static void give_rule(void)
{
    give_number(kelindap_check(given(sheet), sheet.length), 1);
    give_hash();
}

static void give_outcome(uint8_t outcome)
{
    give_number(outcome, 1);
    give_sessions();
    give_hash();
}

static void give_part(kelindap_part part)
{
    give_number(part.offset, 8);
    give_number(part.length, 8);
    give_hash();
}

/* ---- the commands ---- */

static void set_byte(void)
{
    size_t at = (size_t)number(4);
    uint8_t value = byte();
    if (at >= sheet.length)
        give_up("no such byte in the sheet");
    sheet.bytes[at] = value;
    give_rule();
}

static void set_session(void)
{
    uint8_t connection = byte();
    if (connection > 1)
        give_up("no such connection");
    sessions.of[connection].open = byte() != 0;
    sessions.of[connection].level = byte();
    give_sessions();
}

static void give_parts(const kelindap_part changed[KELINDAP_CHANGED])
{
    for (int k = 0; k < KELINDAP_CHANGED; k++) {
        give_number(changed[k].offset, 4);
        give_number(changed[k].length, 4);
    }
}

#ifndef BOARD
/* ---- the plain engine beside the first: what it is lent is a copy of what the first was lent ---- */

static uint8_t plain_sheet_room[GUARD + SHEET + GUARD], plain_answer_room[GUARD + RUN + GUARD];
static lent plain_sheet, plain_answer;
static kelindap_sessions plain_sessions;

static lent copy(uint8_t *room, lent from)
{
    lent l = lend(room, from.length);
    memcpy(l.bytes, from.bytes, from.length);
    return l;
}

static void set_beside(lent answer)
{
    plain_sheet = copy(plain_sheet_room, sheet);
    plain_answer = copy(plain_answer_room, answer);
    plain_sessions = sessions;
}

static bool same(lent a, lent b)
{
    guarded(a);
    return memcmp(a.bytes, b.bytes, b.length) == 0;
}

static void serve_beside(uint8_t mode, uint8_t connection, uint16_t group, lent apdu, lent answer, kelindap_reply reply)
{
    kelindap_plain_reply plain =
        kelindap_plain_request(plain_sessions, given(plain_sheet), plain_sheet.length, mode, connection, group, given(apdu),
                               apdu.length, given(plain_answer), plain_answer.length);
    plain_sessions = left_by(plain);
    if (plain.outcome != reply.outcome || plain.count != reply.count || !same(plain_sheet, sheet) || !same(plain_answer, answer) ||
        memcmp(&plain_sessions, &sessions, sizeof sessions) != 0)
        give_up("the engines differ");
}
#endif

static void request(void)
{
    uint8_t as_sent[RUN];
    uint8_t mode = byte();
    uint8_t connection = byte();
    uint16_t group = (uint16_t)number(2);
    lent apdu = take_run(apdu_room, RUN, 2);
    lent answer = take_run(answer_room, RUN, 2);
    memcpy(as_sent, apdu.bytes, apdu.length);
#ifndef BOARD
    set_beside(answer);
#endif
    kelindap_reply reply = kelindap_request(&sessions, given(sheet), sheet.length, mode, connection, group, given(apdu),
                                            apdu.length, given(answer), answer.length);
#ifndef BOARD
    serve_beside(mode, connection, group, apdu, answer, reply);
#endif
    guarded(apdu);
    guarded(answer);
    if (memcmp(as_sent, apdu.bytes, apdu.length) != 0)
        give_up("the APDU was written");
    give_number(reply.outcome, 1);
    give_number(reply.count, 1);
    give_sessions();
    give_parts(reply.changed);
    give(answer.bytes, answer.length);
    give_hash();
}

/* ---- frames ---- */

static void give_addresses(void)
{
    give_number(partners.address[0], 2);
    give_number(partners.address[1], 2);
}

static void set_addresses(void)
{
    partners.address[0] = (uint16_t)number(2);
    partners.address[1] = (uint16_t)number(2);
    give_addresses();
}

static void hear(void)
{
    lent frame = take_run(apdu_room, RUN, 2);
    kelindap_arrival a = kelindap_heard(partners, given(sheet), sheet.length, given(frame), frame.length);
    guarded(frame);
    give_number(a.event, 1);
    give_number(a.connection, 1);
    give_number(a.group, 2);
    give_number(a.source, 2);
    give_number(a.sequence, 1);
    give_number(a.negative, 1);
}

static void serve(void)
{
    uint8_t as_sent[RUN];
    uint8_t sequence = byte();
    lent frame = take_run(apdu_room, RUN, 2);
    lent answer = take_run(answer_room, RUN, 2);
    memcpy(as_sent, frame.bytes, frame.length);
    kelindap_served s = kelindap_serve(&partners, given(sheet), sheet.length, given(frame), frame.length, given(answer),
                                       answer.length, sequence);
    guarded(frame);
    guarded(answer);
    if (memcmp(as_sent, frame.bytes, frame.length) != 0)
        give_up("the frame was written");
    const uint8_t four[] = { s.number, s.outcome, s.connection, s.count };
    give(four, sizeof four);
    give_sessions();
    give_addresses();
    give_parts(s.changed);
    give(answer.bytes, answer.length);
    give_hash();
}

/* ---- versions ---- */

/* A number that a size can't hold counts as the largest it can: no version has it, no trace so many events. */
static size_t whole(void)
{
    uint64_t k = number(8);
    return k < SIZE_MAX ? (size_t)k : SIZE_MAX;
}

static void set_store(void)
{
    store = take_run(store_room, STORE, 4);
    give_number(kelindap_store_check(given(store), store.length), 1);
    give_hash_of(store);
}

static void save(void)
{
    kelindap_saved saved = kelindap_save(given(sheet), sheet.length, given(store), store.length);
    give_number(saved.outcome, 1);
    give_number(saved.number, 2);
    give_hash();
    give_hash_of(store);
}

/* what a call is given is read before it: on a board its stack is measured around the call and its arguments */
static void restore(void)
{
    uint8_t connection = byte();
    size_t version = whole();
    give_outcome(kelindap_restore(sessions, connection, given(sheet), sheet.length, given(store), store.length, version));
    give_hash_of(store);
}

/* what it keeps, and that there is nothing behind */
static void list_versions(void)
{
    for (size_t k = 0; k <= KELINDAP_STORE_VERSIONS; k++) {
        kelindap_listed kept = kelindap_kept(given(store), store.length, k < KELINDAP_STORE_VERSIONS ? k : SIZE_MAX);
        give_number(kept.number, 2);
        give_number(kept.length, 2);
    }
}

static void take_out(void)
{
    size_t version = whole();
    give_number(kelindap_remove(given(store), store.length, version), 1);
    give_hash_of(store);
}

/* ---- traces ---- */

static void play_trace(void)
{
    size_t from = whole();
    size_t limit = whole();
    lent log = take_run(log_room, LOG, 4);
    kelindap_played played = kelindap_play(&sessions, given(sheet), sheet.length, given(trace), trace.length, from, limit,
                                           given(log), log.length);
    guarded(trace);
    guarded(log);
    give_number(played.refusal, 1);
    give_number(played.handled, 2);
    give_sessions();
    give(log.bytes, log.length);
    give_hash();
}

#ifndef SMALL /* which has no room for them */
/* ---- marks ---- */

static uint8_t before_room[GUARD + SHEET + GUARD];
static _Alignas(8) uint8_t marks_room[GUARD + 4 * (SHEET + KELINDAP_CONNECTIONS) + GUARD];
static lent marks;

static void clear_marks(void)
{
    marks = lend(marks_room, 4 * (sheet.length + KELINDAP_CONNECTIONS));
    memset(marks.bytes, 0, marks.length);
}

static void play_marked(void)
{
    size_t from = whole();
    size_t limit = whole();
    uint32_t so_far = (uint32_t)number(4);
    lent log = take_run(log_room, LOG, 4), before = lend(before_room, sheet.length);
    kelindap_played played = kelindap_play_marked(&sessions, given(sheet), sheet.length, given(trace), trace.length, from, limit,
                                                  given(log), log.length, given(before), before.length,
                                                  (uint32_t *)(void *)marks.bytes, marks.length / 4, so_far);
    guarded(trace);
    guarded(log);
    guarded(before);
    give_number(played.refusal, 1);
    give_number(played.handled, 2);
    give_sessions();
    give(log.bytes, log.length);
    give_hash();
    give_hash_of(marks);
}
#endif

#ifndef BOARD
static void read_pdu(void)
{
    lent apdu = take_run(apdu_room, RUN, 2);
    kelindap_pdu p = kelindap_read(given(apdu), apdu.length);
    guarded(apdu);
    give_number(p.serial, 8);
    give_number(p.key, 4);
    give_number(p.address, 2);
    give_number(p.domain, 2);
    give_number(p.s, 2);
    give_number(p.maximum, 2);
    const uint8_t small[] = { p.outcome, p.kind, p.v, p.t, p.object, p.id, p.n, p.index, p.type, p.access, p.level };
    give(small, sizeof small);
    give_number(p.data_offset, 8);
    give_number(p.data_length, 8);
}

static void write_pdu(void)
{
    kelindap_pdu p;
    p.serial = number(8);
    p.key = (uint32_t)number(4);
    p.address = (uint16_t)number(2);
    p.domain = (uint16_t)number(2);
    p.s = (uint16_t)number(2);
    p.maximum = (uint16_t)number(2);
    p.outcome = byte();
    p.kind = byte();
    p.v = byte();
    p.t = byte();
    p.object = byte();
    p.id = byte();
    p.n = byte();
    p.index = byte();
    p.type = byte();
    p.access = byte();
    p.level = byte();
    p.data_offset = (size_t)number(8);
    p.data_length = (size_t)number(8);
    lent data = take_run(apdu_room, RUN, 2);
    lent answer = take_run(answer_room, RUN, 2);
    kelindap_written written = kelindap_write(p, given(data), data.length, given(answer), answer.length);
    guarded(data);
    guarded(answer);
    give_number(written.outcome, 1);
    give_number(written.count, 1);
    give(answer.bytes, answer.length);
}
#endif

#ifdef BOARD
/* ---- instructions: of calls through pointers, less those of a call that does nothing ---- */

typedef kelindap_reply request_call(kelindap_sessions *, uint8_t *, size_t, uint8_t, uint8_t, uint16_t, const uint8_t *, size_t,
                                    uint8_t *, size_t);
typedef uint8_t check_call(const uint8_t *, size_t);

static kelindap_reply no_request(kelindap_sessions *s, uint8_t *a, size_t an, uint8_t m, uint8_t o, uint16_t g, const uint8_t *b,
                                 size_t bn, uint8_t *c, size_t cn)
{
    (void)s, (void)m, (void)o, (void)g, (void)a, (void)an, (void)b, (void)bn, (void)c, (void)cn;
    return (kelindap_reply){ .outcome = 0 };
}

static uint8_t no_check(const uint8_t *s, size_t n)
{
    (void)s, (void)n;
    return 0;
}

/* Each time sessions and flags are as at first, which is all that a repetition could find changed. */
static void time_requests(void)
{
    request_call *const calls[2] = { kelindap_request, no_request };
    uint64_t taken[2];
    uint32_t times = (uint32_t)number(4);
    uint8_t mode = byte();
    uint8_t connection = byte();
    uint16_t group = (uint16_t)number(2);
    lent apdu = take_run(apdu_room, RUN, 2), answer = take_run(answer_room, RUN, 2);
    const kelindap_sessions found = sessions;
    const uint8_t flags = sheet.bytes[14];
    for (int i = 0; i < 2; i++) {
        request_call *volatile call = calls[i];
        taken[i] = instructions();
        for (uint32_t n = 0; n < times; n++) {
            sessions = found;
            sheet.bytes[14] = flags;
            call(&sessions, sheet.bytes, sheet.length, mode, connection, group, apdu.bytes, apdu.length, answer.bytes,
                 answer.length);
        }
        taken[i] = instructions() - taken[i];
    }
    give_number(taken[0] - taken[1], 8);
}

static void time_checks(void)
{
    check_call *const calls[2] = { kelindap_check, no_check };
    uint64_t taken[2];
    uint32_t times = (uint32_t)number(4);
    for (int i = 0; i < 2; i++) {
        check_call *volatile call = calls[i];
        taken[i] = instructions();
        for (uint32_t n = 0; n < times; n++)
            call(sheet.bytes, sheet.length);
        taken[i] = instructions() - taken[i];
    }
    give_number(taken[0] - taken[1], 8);
}
#endif

static void play(uint8_t command)
{
    uint8_t named; /* a connection, or an object */
    uint64_t k;
    switch (command) {
    case 's':
        sheet = take_run(sheet_room, SHEET, 4);
#ifndef SMALL
        clear_marks();
#endif
        give_rule();
        break;
    case 'x':
        set_byte();
        break;
    case 'k':
        give_rule();
        break;
    case 'n':
        give_outcome(kelindap_convert(given(sheet), sheet.length));
        break;
    case 'f':
        sessions = kelindap_fresh();
        give_sessions();
        break;
    case 'v':
        set_session();
        break;
    case 'c':
        named = byte();
        give_outcome(kelindap_connect(&sessions, named));
        break;
    case 'd':
        named = byte();
        give_outcome(kelindap_disconnect(&sessions, named));
        break;
    case 'b':
        named = byte();
        give_outcome(kelindap_button(given(sheet), sheet.length, named != 0));
        break;
    case 'q':
        request();
        break;
    case 'p':
        named = byte();
        k = byte();
        give_part(kelindap_property(given(sheet), sheet.length, named, (uint8_t)k));
        break;
    case 'r':
        k = number(8);
        give_part(kelindap_region(given(sheet), sheet.length, k < SIZE_MAX ? (size_t)k : SIZE_MAX));
        break;
    case 'u':
        k = number(8);
        give_part(kelindap_user_region(given(sheet), sheet.length, k < SIZE_MAX ? (size_t)k : SIZE_MAX));
        break;
    case 'g':
        give_part(kelindap_group(given(sheet), sheet.length, (uint16_t)number(2)));
        break;
#ifndef SMALL
    case 'm':
        play_marked();
        break;
#endif
#ifndef BOARD
    case 'R':
        read_pdu();
        break;
    case 'W':
        write_pdu();
        break;
#else
    case 't':
        time_requests();
        break;
    case 'T':
        time_checks();
        break;
    case '!':
        run_out_of_stack();
#endif
    case 'S':
        set_store();
        break;
    case 'a':
        save();
        break;
    case 'o':
        restore();
        break;
    case 'e':
        take_out();
        break;
    case 'w':
        list_versions();
        break;
    case 'Y':
        trace = take_run(trace_room, TRACE, 4);
        give_number(kelindap_trace_check(given(trace), trace.length), 1);
        break;
    case 'y':
        play_trace();
        break;
    case 'l':
        set_addresses();
        break;
    case 'h':
        hear();
        break;
    case 'z':
        serve();
        break;
    case 'E':
        give(store.bytes, store.length);
        break;
    case 'D':
        give(sheet.bytes, sheet.length);
        break;
    default:
        give_up("no such command");
    }
}

int main(void)
{
    sheet = lend(sheet_room, 0);
    store = lend(store_room, 0);
    trace = lend(trace_room, 0);
#ifndef SMALL
    clear_marks();
#endif
    lend((uint8_t *)&link_room, sizeof partners);
    sessions = kelindap_fresh();
    partners.address[0] = partners.address[1] = 0;
    while (in_at < in_end || fill())
        play(in[in_at++]);
    return EXIT_SUCCESS;
}
