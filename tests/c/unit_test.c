/*
 * The calls of kelindap_unit.h beside those of the other headers, on two devices with the same past: requests, frames, versions
 * and traces with and without marks, mostly near right ones. Both give the same, and leave the same.
 */
#define _DEFAULT_SOURCE
#include "kelindap_unit.h"
#include "lent.h"

enum { STORE_BYTES = 160, MOST_EVENTS = 6, MOST_TRACE = 2 + 24 * MOST_EVENTS, MOST_LOG = KELINDAP_LOG_LINE * MOST_EVENTS };
#ifndef ROUNDS
#define ROUNDS 60000
#endif

static const uint8_t sample[] = {
#include "../../hosts/sample_sheet.inc"
};
enum { SHEET_BYTES = sizeof sample, NUMBERS = SHEET_BYTES + KELINDAP_CONNECTIONS };

/* All that a host has, once as records and once as it is lent to the calls. */
typedef struct device {
    uint8_t sheet[SHEET_BYTES], store[STORE_BYTES], log[MOST_LOG], before[SHEET_BYTES];
    uint32_t marks[NUMBERS];
    uint32_t played;
    kelindap_link link;
} device;

static device raw, kept;
static kelindap_unit unit;
static kelindap_store store;
static kelindap_room lines;
static kelindap_marks marks;

static void same(const char *what)
{
    calls++;
    kept.link = unit.link;
    kept.played = marks.played;
    expect(memcmp(raw.sheet, kept.sheet, sizeof raw.sheet) == 0, "%s: the sheet", what);
    expect(memcmp(raw.store, kept.store, sizeof raw.store) == 0, "%s: the store", what);
    expect(memcmp(raw.log, kept.log, sizeof raw.log) == 0, "%s: the log", what);
    expect(memcmp(raw.before, kept.before, sizeof raw.before) == 0, "%s: the copy", what);
    expect(memcmp(raw.marks, kept.marks, sizeof raw.marks) == 0 && raw.played == kept.played, "%s: the marks", what);
    expect(memcmp(&raw.link, &kept.link, sizeof raw.link) == 0, "%s: the link", what);
}

static void begin_both(void)
{
    memset(&raw, 0, sizeof raw);
    memset(&kept, 0, sizeof kept);
    memcpy(raw.sheet, sample, sizeof sample);
    memcpy(kept.sheet, sample, sizeof sample);
    raw.link.sessions = kelindap_fresh();
    unit = kelindap_unit_start(kept.sheet, sizeof kept.sheet);
    store = (kelindap_store){ kept.store, sizeof kept.store };
    lines = (kelindap_room){ kept.log, sizeof kept.log };
    marks = (kelindap_marks){ kept.marks, NUMBERS, kept.before, sizeof kept.before, 0 };
    same("at first");
}

/* An APDU that means something to this sheet, one byte of it changed now and then. */
static size_t any_apdu(uint8_t apdu[16])
{
    static const struct {
        uint8_t length, bytes[10];
    } known[] = {
        { 7, { 0x03, 0xD1, 0x00, 0x11, 0x11, 0x11, 0x11 } },       /* the key of level 0 */
        { 8, { 0x03, 0xD7, 0x01, 0x33, 0x10, 0x01, 0x04, 0xE2 } }, /* the height */
        { 8, { 0x03, 0xD7, 0x01, 0x33, 0x10, 0x02, 0x04, 0xE2 } }, /* the element behind it */
        { 6, { 0x03, 0xD5, 0x01, 0x33, 0x10, 0x01 } },
        { 5, { 0x02, 0x81, 0x01, 0x00, 0x77 } },
        { 3, { 0x00, 0x80, 0x05 } },
        { 2, { 0x00, 0x00 } },
        { 2, { 0x03, 0x80 } }, /* a Restart */
    };
    size_t k = any(sizeof known / sizeof known[0] - (any(4) != 0));
    memcpy(apdu, known[k].bytes, sizeof known[k].bytes);
    if (any(6) == 0)
        apdu[any(known[k].length)] = (uint8_t)any(256);
    return known[k].length;
}

static kelindap_way any_way(void)
{
    switch (any(6)) {
    case 0:
        return kelindap_multicast(any(4) ? 0x0801 : (uint16_t)any(65536));
    case 1:
        return kelindap_broadcast();
    case 2:
        return kelindap_connectionless();
    default:
        return kelindap_connected(any(8) == 0 ? KELINDAP_NO_CONNECTION : any(2) ? KELINDAP_SECOND : KELINDAP_FIRST);
    }
}

static unsigned answered, sent, restored, listed, played, cut;

static void try_request(void)
{
    uint8_t apdu[16], answer[16] = { 0 };
    size_t length = any_apdu(apdu);
    kelindap_way way = any_way();
    kelindap_sessions before = raw.link.sessions;
    kelindap_reply r = kelindap_request(&raw.link.sessions, raw.sheet, sizeof raw.sheet, (uint8_t)way.mode, (uint8_t)way.connection,
                                        way.group, apdu, length, answer, sizeof answer);
    kelindap_answer a = kelindap_unit_request(&unit, way, (kelindap_bytes){ apdu, length });
    expect(a.outcome == r.outcome && a.count == r.count && memcmp(a.bytes, answer, sizeof answer) == 0 &&
               memcmp(a.changed, r.changed, sizeof a.changed) == 0, "a request");
    for (int c = 0; c < KELINDAP_CONNECTIONS; c++)
        expect(a.closed[c] == (before.of[c].open && !raw.link.sessions.of[c].open), "what a request closed");
    expect(kelindap_unit_saving(&unit, a.changed) == kelindap_saving(raw.sheet, sizeof raw.sheet, r.changed), "what is due");
    answered += a.count > 0;
    same("a request");
}

static void try_frame(void)
{
    static const uint16_t senders[] = { 0x11FF, 0x12FF, 0x13FF };
    uint16_t source = senders[any(3)];
    uint8_t apdu[16], out[KELINDAP_LINK_ROOM] = { 0 }, sequence = (uint8_t)any(256);
    uint8_t frame[32] = { 0x29, 0, 0xB0, 0x60, (uint8_t)(source >> 8), (uint8_t)source, raw.sheet[16], raw.sheet[17] };
    size_t length = any_apdu(apdu);
    if (any(3) == 0)
        apdu[0] = any(2) ? 0x80 : 0x81, length = 1;
    else if (any(3) != 0)
        apdu[0] |= (uint8_t)(0x40 | any(16) << 2);
    frame[8] = (uint8_t)(length - 1);
    memcpy(frame + 9, apdu, length);
    kelindap_bytes lent_frame = { frame, 9 + length };
    kelindap_arrival a = kelindap_heard(raw.link, raw.sheet, sizeof raw.sheet, frame, 9 + length);
    kelindap_arrival b = kelindap_unit_heard(&unit, lent_frame);
    expect(memcmp(&a, &b, sizeof a) == 0, "what is heard");
    kelindap_sessions before = raw.link.sessions;
    kelindap_served r = kelindap_serve(&raw.link, raw.sheet, sizeof raw.sheet, frame, 9 + length, out, sizeof out, sequence);
    lent again = lend(APDU, EXACT, frame, 9 + length);
    kelindap_frame_answer s = kelindap_unit_serve(&unit, b, (kelindap_bytes){ again.bytes, again.length }, sequence);
    take_back_same(&again, frame, "frame");
    expect(s.number == r.number && s.outcome == r.outcome && s.count == r.count && memcmp(s.bytes, out, sizeof out) == 0 &&
               memcmp(s.changed, r.changed, sizeof s.changed) == 0, "a frame");
    for (int c = 0; c < KELINDAP_CONNECTIONS; c++) {
        bool gone = before.of[c].open && !raw.link.sessions.of[c].open;
        expect(s.closed[c] == (gone && a.event != KELINDAP_EVENT_DISCONNECT), "whom a frame cut off");
        cut += s.closed[c];
    }
    sent += s.count > 0;
    same("a frame");
}

static void try_versions(void)
{
    size_t number = any(12);
    uint8_t c = (uint8_t)any(3);
    switch (any(4)) {
    case 0: {
        kelindap_saved r = kelindap_save(raw.sheet, sizeof raw.sheet, raw.store, sizeof raw.store);
        kelindap_saved s = kelindap_unit_save(&unit, &store);
        expect(r.outcome == s.outcome && r.number == s.number, "a save");
        break;
    }
    case 1: {
        uint8_t r = kelindap_restore(raw.link.sessions, c, raw.sheet, sizeof raw.sheet, raw.store, sizeof raw.store, number);
        expect(r == kelindap_unit_restore(&unit, (enum kelindap_connection)c, &store, kelindap_version_of(number)), "a restore");
        restored += kelindap_carried_out(r);
        break;
    }
    case 2:
        expect(kelindap_remove(raw.store, sizeof raw.store, number) == kelindap_unit_remove(&store, kelindap_version_of(number)),
               "a remove");
        break;
    default:
        for (size_t k = 0; k <= KELINDAP_STORE_VERSIONS; k++) {
            kelindap_listed r = kelindap_kept(raw.store, sizeof raw.store, k), s = kelindap_unit_kept(&store, k);
            expect(r.number == s.number && r.length == s.length, "what is kept");
            listed += s.number != 0;
        }
    }
    expect(kelindap_store_check(raw.store, sizeof raw.store) == kelindap_unit_store_check(&store), "the store");
    same("versions");
}

static void try_trace(void)
{
    uint8_t trace[MOST_TRACE];
    size_t n = any(MOST_EVENTS + 1), end = 2 + KELINDAP_TRACE_ENTRY * n;
    memset(trace, 0, sizeof trace);
    trace[1] = (uint8_t)n;
    for (size_t i = 0; i < n; i++) {
        uint8_t apdu[16], *e = trace + 2 + KELINDAP_TRACE_ENTRY * i;
        size_t length = any_apdu(apdu);
        e[0] = (uint8_t)(any(3) ? KELINDAP_TRACE_REQUEST : any(5));
        e[1] = (uint8_t)(any(2) << 4 | (any(2) ? 3 : any(4)));
        e[2] = 0x08, e[3] = 0x01;
        e[4] = (uint8_t)(end >> 8), e[5] = (uint8_t)end;
        if (e[0] == KELINDAP_TRACE_REQUEST)
            e[6] = (uint8_t)length, memcpy(trace + end, apdu, length), end += length;
    }
    kelindap_piece piece = kelindap_whole_trace(trace, any(8) ? end : any(MOST_TRACE));
    if (any(3) == 0)
        piece.from = any(4), piece.limit = any(4);
    size_t room = any(8) ? sizeof raw.log : any(MOST_LOG);
    lines.length = room;
    expect(kelindap_trace_check(trace, piece.length) == kelindap_unit_trace_check(piece), "a trace");
    kelindap_played r, s;
    if (any(2) == 0) {
        r = kelindap_play(&raw.link.sessions, raw.sheet, sizeof raw.sheet, trace, piece.length, piece.from, piece.limit, raw.log, room);
        s = kelindap_unit_play(&unit, piece, lines);
    } else {
        marks.count = any(8) ? NUMBERS : any(NUMBERS);
        r = kelindap_play_marked(&raw.link.sessions, raw.sheet, sizeof raw.sheet, trace, piece.length, piece.from, piece.limit,
                                 raw.log, room, raw.before, sizeof raw.before, raw.marks, marks.count, raw.played);
        s = kelindap_unit_play_marked(&unit, piece, lines, &marks);
        raw.played += r.handled;
    }
    expect(r.refusal == s.refusal && r.handled == s.handled, "playing");
    played += s.handled;
    same("playing");
}

static void try_rest(void)
{
    bool on = any(2) != 0;
    enum kelindap_connection c = any(3) == 0 ? KELINDAP_NO_CONNECTION : any(2) ? KELINDAP_SECOND : KELINDAP_FIRST;
    switch (any(5)) {
    case 0:
        expect(kelindap_button(raw.sheet, sizeof raw.sheet, on) == kelindap_unit_button(&unit, on), "the button");
        break;
    case 1:
    case 2:
        expect(kelindap_connect(&raw.link.sessions, (uint8_t)c) == kelindap_unit_connect(&unit, c), "a connect");
        break;
    case 3:
        expect(kelindap_disconnect(&raw.link.sessions, (uint8_t)c) == kelindap_unit_disconnect(&unit, c), "a disconnect");
        break;
    default:
        if (any(4) == 0)
            raw.sheet[0] = kept.sheet[0] = 1;
        expect(kelindap_check(raw.sheet, sizeof raw.sheet) == kelindap_unit_check(&unit), "the check");
        expect(kelindap_convert(raw.sheet, sizeof raw.sheet) == kelindap_unit_convert(&unit), "the conversion");
        expect(kelindap_unit_check(&unit) == KELINDAP_ACCEPTED, "a sheet of this test is not accepted");
    }
    same("the rest");
}

/* 0 and 1 are carried out, and no other number. */
static void test_carried_out(void)
{
    for (int n = 0; n < 256; n++)
        expect(kelindap_carried_out((uint8_t)n) == (n < 2), "%d", n);
}

int main(void)
{
    static void (*const tries[])(void) = { try_request, try_request, try_frame, try_frame, try_versions, try_trace, try_rest };
    begin("unit_test");
    test_carried_out();
    for (unsigned i = 0; i < ROUNDS; i++) {
        if (i % 500 == 0)
            begin_both();
        tries[any(sizeof tries / sizeof tries[0])]();
    }
    expect(answered > 100 && sent > 100 && restored > 10 && listed > 100 && played > 100 && cut > 10,
           "too few: %u answered, %u sent, %u restored, %u listed, %u played, %u cut off", answered, sent, restored, listed, played, cut);
    return tell();
}
