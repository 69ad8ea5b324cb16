/*
 * Every event in every state of transport, by a table: a state is closed, or open with the number expected of the partner, that of our
 * next frame, how many of ours wait, how often the first was sent again, and whether anything was taken since the connect; an
 * event is any number of data, T_ACK or T_NAK, a frame of ours, a connect, a close, or a time. What is due stands below in the
 * rows of `rows`, and everything that a row does not name stays as it was.
 */
#include "transport.h"

#include <stdio.h>
#include <stdlib.h>
#include <string.h>

static long checks;
#define CHECK(what) ((what) ? (void)checks++ : (printf("transport: line %d: %s (row \"%s\")\n", __LINE__, #what, now_row), exit(1)))
static const char *now_row = "none";

enum { NOW = 100000, SENT = NOW - 1000 };

typedef enum kind { CONNECT, CLOSE, DATA, ACK, NAK, PUT, TOO_LONG, LIFE, TIME } kind;

typedef struct event {
    kind kind;
    uint8_t number; /* of data, T_ACK, T_NAK */
    uint64_t at;    /* of a time */
} event;

/* What a state and an event have to be for a row to count, and what is then due. The first row that fits counts. */
typedef struct row {
    const char *name;
    kind kind;
    bool (*when)(const transport *t, event e);
    transport_todo todo;
    void (*due)(transport *t, event e); /* makes the state that is due of the state before */
} row;

static bool closed(const transport *t, event e) { (void)e; return !t->open; }
static bool any(const transport *t, event e) { (void)t, (void)e; return true; }
static bool expected(const transport *t, event e) { return e.number == t->in; }
static bool before(const transport *t, event e) { return t->taken && (e.number + 1) % 16 == t->in; }
static bool no_room(const transport *t, event e) { return expected(t, e) && t->count == TRANSPORT_LINE; }
static bool under_way(const transport *t, event e) { return t->count > 0 && (e.number + t->count) % 16 == t->out; }
static bool last_of_line(const transport *t, event e) { return under_way(t, e) && t->count == 1; }
static bool tired(const transport *t, event e) { return under_way(t, e) && t->repeats == TRANSPORT_REPEATS; }
static bool full(const transport *t, event e) { (void)e; return t->count == TRANSPORT_LINE; }
static bool waits(const transport *t, event e) { (void)e; return t->count > 0; }
static bool silent(const transport *t, event e) { return e.at >= t->silent; }
static bool late(const transport *t, event e) { return t->count > 0 && e.at >= t->again; }
static bool too_late(const transport *t, event e) { return late(t, e) && t->repeats == TRANSPORT_REPEATS; }

static void same(transport *t, event e) { (void)t, (void)e; }
static void fresh(transport *t, event e) { (void)e; memset(t, 0, sizeof *t), t->open = true, t->silent = NOW + 6000; }
static void gone(transport *t, event e) { (void)e; memset(t, 0, sizeof *t); }
static void alive(transport *t, event e) { (void)e; t->silent = NOW + 6000; }
static void taken(transport *t, event e) { alive(t, e), t->in = (uint8_t)((t->in + 1) % 16), t->taken = true; }
static void goes(transport *t, uint64_t at) { t->again = at + 3000, t->silent = at + 6000; }
static void again(transport *t, event e) { (void)e; goes(t, NOW), t->repeats++; }
static void again_by_time(transport *t, event e) { goes(t, e.at), t->repeats++; }
static void acknowledged(transport *t, event e) { alive(t, e), t->first = (uint8_t)((t->first + 1) % TRANSPORT_LINE), t->count--; }
static void next_goes(transport *t, event e) { acknowledged(t, e), goes(t, NOW), t->repeats = 0; }
static void stands(transport *t, event e) { (void)e; t->count++, t->out = (uint8_t)((t->out + 1) % 16); }
static void stands_and_goes(transport *t, event e) { stands(t, e), goes(t, NOW), t->repeats = 0; }

static const row rows[] = {
    { "a connect starts anew", CONNECT, any, TRANSPORT_NOTHING, fresh },
    { "a close ends it", CLOSE, any, TRANSPORT_NOTHING, gone },
    { "closed: data is nothing", DATA, closed, TRANSPORT_NOTHING, same },
    { "closed: T_ACK is nothing", ACK, closed, TRANSPORT_NOTHING, same },
    { "closed: T_NAK is nothing", NAK, closed, TRANSPORT_NOTHING, same },
    { "closed: nothing is sent", PUT, closed, TRANSPORT_NOTHING, same },
    { "closed: a sign of life is none", LIFE, closed, TRANSPORT_NOTHING, same },
    { "a sign of life", LIFE, any, TRANSPORT_NOTHING, alive },
    { "closed: no time matters", TIME, closed, TRANSPORT_NOTHING, same },
    { "data for whose answer there is no room comes again", DATA, no_room, TRANSPORT_NOTHING, alive },
    { "data that is expected is taken", DATA, expected, TRANSPORT_TAKE, taken },
    { "data that was taken is acknowledged again", DATA, before, TRANSPORT_ACKNOWLEDGE, alive },
    { "data out of turn is refused, 15 after a connect too", DATA, any, TRANSPORT_REFUSE, alive },
    { "T_ACK of the last of the line", ACK, last_of_line, TRANSPORT_NOTHING, acknowledged },
    { "T_ACK of the first of the line: the next goes", ACK, under_way, TRANSPORT_SEND, next_goes },
    { "T_ACK of another number is a sign of life", ACK, any, TRANSPORT_NOTHING, alive },
    { "T_NAK after three repetitions ends it", NAK, tired, TRANSPORT_END, alive },
    { "T_NAK: it goes again", NAK, under_way, TRANSPORT_SEND, again },
    { "T_NAK of another number is a sign of life", NAK, any, TRANSPORT_NOTHING, alive },
    { "no room in the line", PUT, full, TRANSPORT_NOTHING, same },
    { "a frame behind others waits", PUT, waits, TRANSPORT_NOTHING, stands },
    { "a frame alone goes", PUT, any, TRANSPORT_SEND, stands_and_goes },
    { "a frame that is too long is none", TOO_LONG, any, TRANSPORT_NOTHING, same },
    { "6 s of silence end it", TIME, silent, TRANSPORT_END, same },
    { "3 s after the third repetition it ends", TIME, too_late, TRANSPORT_END, same },
    { "3 s without T_ACK: it goes again", TIME, late, TRANSPORT_SEND, again_by_time },
    { "before that, nothing", TIME, any, TRANSPORT_NOTHING, same },
};

static uint8_t longest[TRANSPORT_FRAME + 1];

static transport_todo play(transport *t, event e)
{
    switch (e.kind) {
    case CONNECT: transport_open(t, NOW); return TRANSPORT_NOTHING;
    case CLOSE: transport_close(t); return TRANSPORT_NOTHING;
    case DATA: return transport_data(t, e.number, NOW);
    case ACK: return transport_acknowledged(t, (uint8_t)(T_ACK | e.number << 2), NOW);
    case NAK: return transport_acknowledged(t, (uint8_t)(T_NAK | e.number << 2), NOW);
    case PUT: return transport_put(t, longest, TRANSPORT_FRAME, NOW);
    case LIFE: transport_alive(t, NOW); return TRANSPORT_NOTHING;
    case TOO_LONG: return transport_put(t, longest, sizeof longest, NOW);
    default: return transport_tick(t, e.at);
    }
}

static size_t seen[sizeof rows / sizeof *rows];

static void see(transport state, event e)
{
    size_t k = 0;
    while (rows[k].kind != e.kind || !rows[k].when(&state, e))
        k++;
    now_row = rows[k].name;
    seen[k]++;
    transport due = state, got = state;
    rows[k].due(&due, e);
    CHECK(play(&got, e) == rows[k].todo);
    CHECK(got.open == due.open && got.taken == due.taken && got.in == due.in && got.out == due.out);
    CHECK(got.first == due.first && got.count == due.count && got.again == due.again && got.silent == due.silent);
    CHECK(got.count == 0 || got.repeats == due.repeats);
    if (e.kind == PUT && got.count > state.count)
        CHECK(memcmp(got.line[(got.first + got.count - 1) % TRANSPORT_LINE].bytes, longest, TRANSPORT_FRAME) == 0);
    else if (got.open && e.kind != CONNECT)
        CHECK(memcmp(got.line, state.line, sizeof got.line) == 0);
    uint64_t next = !got.open ? UINT64_MAX : got.count > 0 && got.again < got.silent ? got.again : got.silent;
    CHECK(transport_due(&got) == next);
}

static void see_all(transport state)
{
    for (kind k = CONNECT; k <= LIFE; k++)
        for (uint8_t n = 0; n < (k == DATA || k == ACK || k == NAK ? 16 : 1); n++)
            see(state, (event){ .kind = k, .number = n });
    const uint64_t at[] = { SENT, SENT + 2999, SENT + 3000, SENT + 5999, SENT + 6000, SENT + 99999 };
    for (size_t i = 0; i < sizeof at / sizeof *at; i++)
        see(state, (event){ .kind = TIME, .at = at[i] });
}

/* The way of a frame that nobody acknowledges, and of one that is acknowledged late; and the frames in their order. */
static void ways(void)
{
    transport t;
    uint8_t frame[10] = { 1, 2, 3 };
    now_row = "the ways";
    transport_open(&t, 0);
    CHECK(transport_put(&t, frame, sizeof frame, 0) == TRANSPORT_SEND);
    for (uint64_t at = 3000; at <= 9000; at += 3000) {
        CHECK(transport_due(&t) == at && transport_tick(&t, at - 1) == TRANSPORT_NOTHING);
        CHECK(transport_tick(&t, at) == TRANSPORT_SEND && transport_first(&t)->bytes[1] == 2 && transport_first(&t)->length == 10);
    }
    CHECK(transport_tick(&t, 11999) == TRANSPORT_NOTHING && transport_tick(&t, 12000) == TRANSPORT_END);
    transport_open(&t, 0);
    CHECK(transport_tick(&t, 5999) == TRANSPORT_NOTHING && transport_tick(&t, 6000) == TRANSPORT_END);
    transport_open(&t, 0);
    for (uint8_t round = 0; round < 20; round++) {
        for (uint8_t i = 0; i < TRANSPORT_LINE; i++) {
            frame[9] = t.out;
            CHECK(transport_data(&t, t.in, 0) == TRANSPORT_TAKE);
            CHECK(transport_put(&t, frame, sizeof frame, 0) == (i == 0 ? TRANSPORT_SEND : TRANSPORT_NOTHING));
        }
        for (uint8_t i = 0; i < TRANSPORT_LINE; i++) {
            uint8_t number = (uint8_t)((TRANSPORT_LINE * round + i) & 15);
            CHECK(transport_first(&t)->bytes[9] == number);
            CHECK(transport_acknowledged(&t, (uint8_t)(T_ACK | number << 2), 0) == (i + 1 < TRANSPORT_LINE ? TRANSPORT_SEND : TRANSPORT_NOTHING));
        }
    }
}

int main(void)
{
    size_t states = 1;
    memset(longest, 0xA5, sizeof longest);
    see_all((transport){ .open = false });
    for (unsigned k = 0; k < 16 * 16 * 5 * 4 * 4 * 2; k++) { /* in, out, count, repeats, first, taken */
        transport t = { .open = true, .in = k & 15, .out = k >> 4 & 15, .repeats = k >> 8 & 3, .first = k >> 10 & 3, .taken = k >> 12 & 1,
                        .count = (uint8_t)(k >> 13), .silent = SENT + 6000 };
        t.again = t.count > 0 ? SENT + 3000 : 0;
        memset(t.line, 0x5A, sizeof t.line);
        see_all(t);
        states++;
    }
    ways();
    for (size_t i = 0; i < sizeof rows / sizeof *rows; i++) {
        now_row = rows[i].name;
        CHECK(seen[i] > 0);
    }
    printf("transport: %zu rows, %zu states, %ld checks\n", sizeof rows / sizeof *rows, states, checks);
}
