/*
 * Traces in C: a trace that breaks each rule, and every byte of small ones changed in every way; traces played whole, in
 * pieces and event by event through the other calls; logs that are too short. Nothing beside the lent buffers is touched, and
 * nothing at all where the trace or the log is refused.
 */
#define _DEFAULT_SOURCE
#include "kelindap_trace.h"
#include "lent.h"

enum { MOST_SHEET = 128, MOST_TRACE = 2 + 9 * KELINDAP_TRACE_EVENTS + 16 * KELINDAP_TRACE_EVENTS, MOST_LOG = 18 * 520 };

static const uint8_t sample[] = {
#include "../../hosts/sample_sheet.inc"
};
static const uint8_t pump[] = {
#include "../../hosts/pump_sheet.inc"
};
static uint8_t old[sizeof sample]; /* the sample as it was in edition 1 */

/* ---- making traces ---- */

typedef struct event {
    uint8_t kind, mode; /* the connection in the mode's high four bits */
    uint16_t group;
    uint8_t length;
    uint8_t apdu[20];
} event;

static void put16(uint8_t *at, size_t x)
{
    at[0] = (uint8_t)(x >> 8);
    at[1] = (uint8_t)x;
}

static size_t make_trace(uint8_t *trace, const event *events, size_t n)
{
    size_t end = 2 + KELINDAP_TRACE_ENTRY * n;
    put16(trace, n);
    for (size_t i = 0; i < n; i++) {
        uint8_t *e = trace + 2 + KELINDAP_TRACE_ENTRY * i;
        e[0] = events[i].kind;
        e[1] = events[i].mode;
        put16(e + 2, events[i].group);
        put16(e + 4, end);
        e[6] = events[i].length;
        e[7] = 0;
        memcpy(trace + end, events[i].apdu, events[i].length);
        end += events[i].length;
    }
    return end;
}

/* The rules once more. */
static int refusal(const uint8_t *t, size_t length)
{
    if (length < 2)
        return 50;
    size_t n = 256u * t[0] + t[1], z = 2 + 8 * n;
    if (n > 512)
        return 51;
    if (z > length)
        return 52;
    for (size_t i = 0; i < n; i++) {
        const uint8_t *e = t + 2 + 8 * i;
        if (e[0] > 4)
            return 53;
        if (e[6] > 0 && e[0] != 0)
            return 54;
        if (e[7] != 0)
            return 55;
        if (256u * e[4] + e[5] != z)
            return 56;
        z += e[6];
        if (z > length)
            return 57;
    }
    return z == length ? 0 : 58;
}

/* ---- calls ---- */

static uint8_t check_at(enum place place, const uint8_t *trace, size_t length)
{
    lent b = lend(APDU, place, trace, length);
    uint8_t r = kelindap_trace_check(b.bytes, b.length);
    calls++;
    take_back_same(&b, trace, "trace");
    return r;
}

/* What a device has, and the log beside it. */
typedef struct state {
    kelindap_sessions sessions;
    size_t length;
    uint8_t sheet[MOST_SHEET];
    uint8_t log[MOST_LOG];
} state;

static kelindap_played play_at(enum place place, state *s, const uint8_t *trace, size_t length, size_t from, size_t limit,
                               uint8_t *log, size_t log_length)
{
    lent sessions = lend(SESSIONS, place, &s->sessions, sizeof s->sessions);
    lent sheet = lend(SHEET, place, s->sheet, s->length);
    lent b = lend(APDU, place, trace, length);
    lent lines = lend(ANSWER, place, log, log_length);
    kelindap_played p = kelindap_play((kelindap_sessions *)sessions.bytes, sheet.bytes, sheet.length, b.bytes, b.length, from,
                                      limit, lines.bytes, lines.length);
    calls++;
    take_back(&sessions, &s->sessions, "sessions");
    take_back(&sheet, s->sheet, "sheet");
    take_back_same(&b, trace, "trace");
    take_back(&lines, log, "log");
    return p;
}

/* One event by the other calls, and its line. */
static void happen(state *s, const event *e, uint8_t *line)
{
    static uint8_t before[MOST_SHEET];
    uint8_t answer[16] = { 0 };
    kelindap_reply r = { .outcome = 0 };
    uint8_t connection = e->mode >> 4;
    switch (e->kind) {
    case KELINDAP_TRACE_REQUEST:
        memcpy(before, s->sheet, s->length);
        r = kelindap_request(&s->sessions, s->sheet, s->length, e->mode & 15, connection, e->group, e->apdu, e->length, answer,
                             sizeof answer);
        expect_named(r.outcome, r.changed, before, s->sheet, s->length);
        break;
    case KELINDAP_TRACE_CONNECT:
        r.outcome = kelindap_connect(&s->sessions, connection);
        break;
    case KELINDAP_TRACE_DISCONNECT:
        r.outcome = kelindap_disconnect(&s->sessions, connection);
        break;
    default:
        r.outcome = kelindap_button(s->sheet, s->length, e->kind == KELINDAP_TRACE_BUTTON_ON);
    }
    line[KELINDAP_LOG_OUTCOME] = r.outcome;
    line[KELINDAP_LOG_COUNT] = r.count;
    memcpy(line + KELINDAP_LOG_ANSWER, answer, sizeof answer);
}

/* ---- marks ---- */

/* Marks and the room for the sheet; `played` events were marked. */
typedef struct book {
    uint8_t before[MOST_SHEET];
    uint32_t marks[MOST_SHEET + KELINDAP_CONNECTIONS];
    uint32_t played;
} book;

static kelindap_played mark_at(enum place place, state *s, book *b, const uint8_t *trace, size_t length, size_t from, size_t limit,
                               uint8_t *log, size_t log_length, size_t room, size_t marks)
{
    lent sessions = lend(SESSIONS, place, &s->sessions, sizeof s->sessions);
    lent sheet = lend(SHEET, place, s->sheet, s->length);
    lent t = lend(APDU, place, trace, length);
    lent lines = lend(ANSWER, place, log, log_length);
    lent before = lend(STORE, place, b->before, room);
    lent numbers = lend(MARKS, place, b->marks, marks * sizeof *b->marks);
    kelindap_played p = kelindap_play_marked((kelindap_sessions *)sessions.bytes, sheet.bytes, sheet.length, t.bytes, t.length,
                                             from, limit, lines.bytes, lines.length, before.bytes, before.length,
                                             (uint32_t *)(void *)numbers.bytes, marks, b->played);
    calls++;
    take_back(&sessions, &s->sessions, "sessions");
    take_back(&sheet, s->sheet, "sheet");
    take_back_same(&t, trace, "trace");
    take_back(&lines, log, "log");
    take_back(&before, b->before, "room for the sheet");
    take_back(&numbers, b->marks, "marks");
    b->played += p.handled;
    return p;
}

/* What an event that has happened changed, marked by comparing. */
static void mark(book *b, const state *was, const state *is)
{
    b->played++;
    for (size_t i = 0; i < is->length; i++)
        if (was->sheet[i] != is->sheet[i])
            b->marks[i] = b->played;
    for (size_t c = 0; c < KELINDAP_CONNECTIONS; c++)
        if (was->sessions.of[c].level != is->sessions.of[c].level)
            b->marks[is->length + c] = b->played;
}

static bool same_device(const state *a, const state *b)
{
    return memcmp(&a->sessions, &b->sessions, sizeof a->sessions) == 0 && memcmp(a->sheet, b->sheet, a->length) == 0;
}

static void start(state *s, const uint8_t *sheet, size_t length)
{
    s->sessions = kelindap_fresh();
    s->length = length;
    memcpy(s->sheet, sheet, length);
    for (size_t i = 0; i < MOST_LOG; i++)
        s->log[i] = (uint8_t)(0x5A + 11 * i);
}

/* ---- tests ---- */

static const event story[] = {
    { 1, 0x10, 0, 0, { 0 } },
    { 0, 0x13, 0, 7, { 0x03, 0xD1, 0x00, 0x22, 0x22, 0x22, 0x22 } },
    { 0, 0x13, 0, 8, { 0x03, 0xD7, 0x01, 0x33, 0x10, 0x01, 0x03, 0x84 } },
    { 0, 0x03, 0, 8, { 0x03, 0xD7, 0x01, 0x33, 0x10, 0x01, 0x03, 0x85 } },
    { 1, 0x0F, 0x1234, 0, { 0 } },
    { 0, 0x03, 0, 8, { 0x03, 0xD7, 0x01, 0x33, 0x10, 0x01, 0x03, 0x86 } },
    { 0, 0x02, 0, 6, { 0x03, 0xD5, 0x01, 0x33, 0x10, 0x01 } },
    { 3, 0xFF, 0, 0, { 0 } },
    { 0, 0x01, 0, 2, { 0x01, 0x00 } },
    { 4, 0x00, 0, 0, { 0 } },
    { 0, 0x00, 0x0801, 2, { 0x00, 0x00 } },
    { 0, 0x05, 0, 2, { 0x00, 0x00 } },
    { 0, 0x03, 0, 0, { 0 } },
    { 0, 0x03, 0, 17, { 0x03, 0xD7 } },
    { 2, 0x00, 0, 0, { 0 } },
    { 1, 0x20, 0, 0, { 0 } },
    { 0, 0x13, 0, 2, { 0x03, 0x80 } },
};
enum { STORY = sizeof story / sizeof *story };

/* Rules: a small trace cut anywhere, and with every byte changed in every way. */
static void test_rules(void)
{
    static uint8_t trace[MOST_TRACE];
    size_t length = make_trace(trace, story, 4);
    for (enum place place = EXACT; place < PLACES; place++)
        for (size_t n = 0; n <= length; n++)
            expect(check_at(place, trace, n) == refusal(trace, n), "cut to %zu bytes", n);
    bool seen[10] = { false };
    for (size_t i = 0; i < length; i++) {
        uint8_t was = trace[i];
        for (int x = 0; x < 256; x++) {
            trace[i] = (uint8_t)x;
            int due = refusal(trace, length);
            expect(check_at(GUARDED, trace, length) == due, "byte %zu is %d: not %d", i, x, due);
            if (due)
                seen[due - 50] = true;
        }
        trace[i] = was;
    }
    expect(check_at(EXACT, trace, 1) == 50, "one byte");
    seen[0] = true;
    for (int k = 0; k < 9; k++)
        expect(seen[k], "no trace was refused by %d", 50 + k);
    /* none, and the most, and one more */
    static event many[KELINDAP_TRACE_EVENTS + 1];
    static uint8_t full[MOST_TRACE];
    expect(check_at(BEFORE_WALL, full, 2) == 0 && check_at(BEFORE_WALL, full, 3) == 58, "a trace without events");
    expect(check_at(BEFORE_WALL, full, make_trace(full, many, 512)) == 0, "512 events");
    expect(check_at(BEFORE_WALL, full, make_trace(full, many, 513)) == 51, "513 events");
}

/* A trace played whole, in pieces of every length, and event by event. */
static void test_play(const uint8_t *sheet, size_t sheet_length, const event *events, size_t n, enum place place, size_t step)
{
    static uint8_t trace[MOST_TRACE];
    static state single, whole, pieces;
    size_t length = make_trace(trace, events, n);
    start(&single, sheet, sheet_length);
    start(&whole, sheet, sheet_length);
    for (size_t i = 0; i < n; i++)
        happen(&single, &events[i], single.log + KELINDAP_LOG_LINE * i);
    size_t room = KELINDAP_LOG_LINE * n + any(40);
    kelindap_played p = play_at(place, &whole, trace, length, 0, any(2) ? n : SIZE_MAX, whole.log, room);
    expect(p.refusal == 0 && p.handled == n, "%zu events: %d, %d handled", n, p.refusal, p.handled);
    expect(same_device(&single, &whole), "%zu events leave another device than one by one", n);
    expect(memcmp(single.log, whole.log, MOST_LOG) == 0, "%zu events: another log", n);
    for (size_t piece = 1; piece <= n; piece += step) {
        start(&pieces, sheet, sheet_length);
        for (size_t from = 0; from < n;) {
            size_t left = n - from, due = piece < left ? piece : left;
            p = play_at(place, &pieces, trace, length, from, piece, pieces.log + KELINDAP_LOG_LINE * from, KELINDAP_LOG_LINE * due);
            expect(p.refusal == 0 && p.handled == due, "a piece of %zu from %zu: %d, %d handled", piece, from, p.refusal, p.handled);
            if (p.handled == 0)
                break;
            from += p.handled;
        }
        expect(same_device(&single, &pieces) && memcmp(single.log, pieces.log, MOST_LOG) == 0, "pieces of %zu differ", piece);
    }
}

/* The same with marks, in pieces and over two traces, the marks going on; each call is held to marks made by comparing. */
static void test_marks(const uint8_t *sheet, size_t sheet_length, const event *events, size_t n, enum place place)
{
    static uint8_t trace[MOST_TRACE];
    static state single, was, pieces;
    static book due, told;
    size_t length = make_trace(trace, events, n);
    start(&single, sheet, sheet_length);
    start(&pieces, sheet, sheet_length);
    memset(&due, 0, sizeof due);
    memset(&told, 0, sizeof told);
    due.played = told.played = any(2) ? 0 : (uint32_t)any(3) << 24;
    for (int times = 0; times < 2; times++)
        for (size_t from = 0; from < n;) {
            size_t piece = 1 + any(n - from);
            for (size_t i = from; i < from + piece; i++) {
                was = single;
                happen(&single, &events[i], single.log + KELINDAP_LOG_LINE * i);
                mark(&due, &was, &single);
            }
            kelindap_played p = mark_at(place, &pieces, &told, trace, length, from, piece, pieces.log + KELINDAP_LOG_LINE * from,
                                        KELINDAP_LOG_LINE * piece, sheet_length, sheet_length + KELINDAP_CONNECTIONS);
            expect(p.refusal == 0 && p.handled == piece, "%zu events with marks: %d, %d handled", piece, p.refusal, p.handled);
            expect(same_device(&single, &pieces) && memcmp(single.log, pieces.log, MOST_LOG) == 0, "marks change what is played");
            expect(memcmp(due.marks, told.marks, sizeof due.marks) == 0 && due.played == told.played, "the marks of %zu differ", piece);
            expect(memcmp(told.before, pieces.sheet, sheet_length) == 0, "the room for the sheet is not the sheet");
            if (p.handled == 0)
                return;
            from += piece;
        }
}

/* Marks, room or numbers that do not fit are refused, after all that playing refuses. */
static void test_marks_refused(void)
{
    static uint8_t trace[MOST_TRACE];
    static state s, before;
    static book b, blank;
    size_t length = make_trace(trace, story, STORY), bytes = sizeof sample, all = bytes + KELINDAP_CONNECTIONS;
    const struct {
        size_t length, log, room, marks;
        uint32_t played;
        int due;
    } cases[] = {
        { length, MOST_LOG, bytes, all, UINT32_MAX - STORY, 0 },
        { length, MOST_LOG, bytes, all, UINT32_MAX - STORY + 1, KELINDAP_TRACE_NUMBERS },
        { length, MOST_LOG, bytes, all, UINT32_MAX, KELINDAP_TRACE_NUMBERS },
        { length, MOST_LOG, bytes - 1, all, UINT32_MAX, KELINDAP_TRACE_MARKS },
        { length, MOST_LOG, bytes + 1, all, 0, KELINDAP_TRACE_MARKS },
        { length, MOST_LOG, 0, all, 0, KELINDAP_TRACE_MARKS },
        { length, MOST_LOG, bytes, all - 1, UINT32_MAX, KELINDAP_TRACE_MARKS },
        { length, MOST_LOG, bytes, all + 1, 0, KELINDAP_TRACE_MARKS },
        { length, MOST_LOG, bytes, bytes, 0, KELINDAP_TRACE_MARKS },
        { length, MOST_LOG, bytes, 0, 0, KELINDAP_TRACE_MARKS },
        { length, 17, 0, 0, UINT32_MAX, KELINDAP_TRACE_LOG },
        { 1, 0, 0, 0, UINT32_MAX, KELINDAP_TRACE_SHORT },
    };
    start(&before, sample, sizeof sample);
    for (size_t i = 0; i < sizeof blank.before; i++)
        blank.before[i] = (uint8_t)(3 * i);
    for (size_t i = 0; i < sizeof cases / sizeof *cases; i++)
        for (enum place place = EXACT; place < PLACES; place++) {
            s = before;
            b = blank;
            b.played = cases[i].played;
            kelindap_played p = mark_at(place, &s, &b, trace, cases[i].length, 0, SIZE_MAX, s.log, cases[i].log, cases[i].room,
                                        cases[i].marks);
            expect(p.refusal == cases[i].due, "case %zu of marks: %d for %d", i, p.refusal, cases[i].due);
            if (p.refusal == 0)
                continue;
            expect(p.handled == 0 && same_device(&s, &before) && memcmp(s.log, before.log, MOST_LOG) == 0, "case %zu of marks was played", i);
            expect(memcmp(b.marks, blank.marks, sizeof b.marks) == 0 && memcmp(b.before, blank.before, sizeof b.before) == 0,
                   "case %zu of marks was not left alone", i);
        }
}

/* What is refused leaves all as found; nothing is left behind the end. */
static void test_refused(void)
{
    static uint8_t trace[MOST_TRACE];
    static state s, before;
    size_t length = make_trace(trace, story, STORY);
    start(&before, sample, sizeof sample);
    for (size_t room = 0; room < KELINDAP_LOG_LINE * STORY; room++) {
        s = before;
        size_t limit = 1 + any(STORY), fits = room / KELINDAP_LOG_LINE;
        kelindap_played p = play_at(room % PLACES, &s, trace, length, 0, limit, s.log, room);
        if (limit <= fits) {
            expect(p.refusal == 0 && p.handled == limit, "room for %zu, limit %zu: %d", fits, limit, p.refusal);
            continue;
        }
        expect(p.refusal == KELINDAP_TRACE_LOG && p.handled == 0, "a log of %zu bytes for %zu: %d", room, limit, p.refusal);
        expect(same_device(&s, &before) && memcmp(s.log, before.log, MOST_LOG) == 0, "a short log was not left alone");
    }
    for (size_t i = 0; i < length; i++) {
        uint8_t was = trace[i];
        trace[i] ^= (uint8_t)(1 + any(255));
        int due = refusal(trace, length);
        s = before;
        kelindap_played p = play_at(i % PLACES, &s, trace, length, 0, STORY, s.log, i % 3 ? MOST_LOG : 0);
        if (due) {
            expect(p.refusal == due && p.handled == 0, "byte %zu changed: %d for %d", i, p.refusal, due);
            expect(same_device(&s, &before) && memcmp(s.log, before.log, MOST_LOG) == 0, "a refused trace was played");
        }
        trace[i] = was;
    }
    static const size_t past[] = { STORY, STORY + 1, 512, 65536, SIZE_MAX };
    for (size_t i = 0; i < sizeof past / sizeof *past; i++) {
        s = before;
        kelindap_played p = play_at(EXACT, &s, trace, length, past[i], SIZE_MAX, s.log, 0);
        expect(p.refusal == 0 && p.handled == 0 && same_device(&s, &before), "from %zu: %d, %d", past[i], p.refusal, p.handled);
    }
    s = before;
    kelindap_played p = play_at(EXACT, &s, trace, length, 0, 0, s.log, 0);
    expect(p.refusal == 0 && p.handled == 0 && same_device(&s, &before), "limit 0: %d, %d", p.refusal, p.handled);
}

static event any_event(void)
{
    event e = story[any(STORY)];
    if (any(4) == 0)
        e.mode = (uint8_t)(any(3) << 4 | any(6));
    if (e.length > 1 && any(6) == 0)
        e.apdu[any(e.length)] ^= (uint8_t)(1u << any(8));
    return e;
}

int main(void)
{
    begin("trace_test");
    memcpy(old, sample, sizeof old);
    old[0] = 1;
    test_rules();
    for (enum place place = EXACT; place < PLACES; place++) {
        test_play(sample, sizeof sample, story, STORY, place, 1);
        test_play(pump, sizeof pump, story, STORY, place, 1);
        test_play(sample, sizeof sample - 1, story, STORY, place, 1); /* not accepted */
        test_play(sample, 0, story, STORY, place, 1);
        test_play(old, sizeof old, story, STORY, place, 1);
        test_marks(sample, sizeof sample, story, STORY, place);
        test_marks(pump, sizeof pump, story, STORY, place);
        test_marks(sample, sizeof sample - 1, story, STORY, place);
        test_marks(sample, 0, story, STORY, place);
        test_marks(old, sizeof old, story, STORY, place);
    }
    test_refused();
    test_marks_refused();
    static event events[KELINDAP_TRACE_EVENTS];
    for (int round = 0; round < 300; round++) {
        size_t n = any(round % 20 ? 40 : KELINDAP_TRACE_EVENTS + 1);
        for (size_t i = 0; i < n; i++)
            events[i] = any_event();
        const bool first = any(2);
        test_play(first ? sample : pump, first ? sizeof sample : sizeof pump, events, n, any(PLACES), 1 + any(n + 1));
        test_marks(first ? sample : pump, first ? sizeof sample : sizeof pump, events, n, any(PLACES));
    }
    return tell();
}
