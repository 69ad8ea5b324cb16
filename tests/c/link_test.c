/*
 * Frames in C: every number of why there is no event, in its order; partners, a third and strangers; second connects, Restarts and
 * time-outs; a frame sent twice; the device's own address as a sender; the answering frames byte by byte; and frames of any bytes. Nothing beside the lent buffers is
 * touched, and nothing at all where there is no event.
 */
#define _DEFAULT_SOURCE
#include "kelindap_link.h"
#include "lent.h"

enum { MOST_SHEET = 128, MOST_FRAME = 300 };
#ifndef ROUNDS
#define ROUNDS 40000
#endif

static const uint8_t pump[] = {
#include "../../hosts/pump_sheet.inc"
};

enum { OWN = 0x1105, NEXT = 0x1106, ONE = 0x11FF, TWO = 0x12FF, THREE = 0x13FF, NOBODY = KELINDAP_LINK_NOBODY };

/* What a device has: its address is 1105h. */
typedef struct state {
    kelindap_link link;
    size_t length;
    uint8_t sheet[MOST_SHEET];
} state;

static state start(void)
{
    state s = { .length = sizeof pump };
    s.link.sessions = kelindap_fresh();
    memcpy(s.sheet, pump, sizeof pump);
    s.sheet[16] = OWN >> 8;
    s.sheet[17] = OWN & 255;
    return s;
}

/* A frame of an indication, its TPDU as text of hex digits. */
typedef struct frame {
    uint8_t bytes[MOST_FRAME];
    size_t length;
} frame;

static frame made(uint8_t control2, uint16_t source, uint16_t destination, const char *tpdu)
{
    frame f = { { 0x29, 0, 0xBC, control2, (uint8_t)(source >> 8), (uint8_t)source, (uint8_t)(destination >> 8),
                  (uint8_t)destination }, 9 };
    for (; *tpdu != '\0'; tpdu += 2) {
        unsigned byte = 0;
        expect(sscanf(tpdu, "%2x", &byte) == 1, "no hex: %s", tpdu);
        f.bytes[f.length++] = (uint8_t)byte;
    }
    f.bytes[8] = (uint8_t)(f.length - 10);
    return f;
}

static frame to(uint16_t source, uint16_t destination, const char *tpdu) { return made(0x60, source, destination, tpdu); }
static frame group(uint16_t source, uint16_t destination, const char *tpdu) { return made(0xD0, source, destination, tpdu); }

/* ---- calls ---- */

static kelindap_arrival hear_at(enum place place, const state *s, const uint8_t *bytes, size_t length)
{
    lent sheet = lend(SHEET, place, s->sheet, s->length);
    lent b = lend(APDU, place, bytes, length);
    kelindap_arrival a = kelindap_heard(s->link, sheet.bytes, sheet.length, b.bytes, b.length);
    bool reads = a.event < KELINDAP_FRAME_SHORT || a.event > KELINDAP_FRAME_LENGTH;
    uint16_t source = reads ? (uint16_t)(bytes[4 + bytes[1]] << 8 | bytes[5 + bytes[1]]) : 0;
    uint8_t octet = reads ? bytes[9 + bytes[1]] : 0;
    expect(a.source == source && a.sequence == (octet >> 2 & 15) && a.negative == ((octet & 0xC3) == 0xC3),
           "%d is sent by %04x with %d and %d", a.event, a.source, a.sequence, a.negative);
    expect(a.event > 3 || a.event == 3 || a.sequence == 0, "%d has a number", a.event);
    calls++;
    take_back_same(&sheet, s->sheet, "sheet");
    take_back_same(&b, bytes, "frame");
    return a;
}

static kelindap_served serve_at(enum place place, state *s, uint8_t sequence, const uint8_t *bytes, size_t length, uint8_t *out,
                                size_t room)
{
    lent link = lend(SESSIONS, place, &s->link, sizeof s->link);
    lent sheet = lend(SHEET, place, s->sheet, s->length);
    lent b = lend(APDU, place, bytes, length);
    lent answer = lend(ANSWER, place, out, room);
    uint8_t before[sizeof s->sheet];
    memcpy(before, s->sheet, s->length);
    kelindap_served r = kelindap_serve((kelindap_link *)link.bytes, sheet.bytes, sheet.length, b.bytes, b.length, answer.bytes,
                                       answer.length, sequence);
    calls++;
    take_back(&link, &s->link, "link");
    take_back(&sheet, s->sheet, "sheet");
    take_back_same(&b, bytes, "frame");
    take_back(&answer, out, "buffer");
    expect_named(r.number == 0 ? r.outcome : r.number, r.changed, before, s->sheet, s->length);
    return r;
}

static bool same(kelindap_served r, kelindap_served s)
{
    return r.number == s.number && r.outcome == s.outcome && r.connection == s.connection && r.count == s.count &&
           memcmp(r.changed, s.changed, sizeof r.changed) == 0;
}

/* A frame served in every place: they agree, and with what is heard; one of them is what then is. */
static kelindap_served serve(state *s, uint8_t sequence, frame f, uint8_t out[KELINDAP_LINK_ROOM])
{
    state first = *s;
    kelindap_served all = { .number = 0 };
    kelindap_arrival a = hear_at(GUARDED, s, f.bytes, f.length);
    for (enum place place = 0; place < PLACES; place++) {
        state now = *s;
        uint8_t answer[KELINDAP_LINK_ROOM];
        memcpy(answer, as_found, sizeof answer);
        kelindap_served r = serve_at(place, &now, sequence, f.bytes, f.length, answer, sizeof answer);
        expect(place == 0 || (same(r, all) && memcmp(&now, &first, sizeof now) == 0 &&
                              memcmp(answer, out, sizeof answer) == 0), "the place of the buffers counts");
        all = r;
        first = now;
        memcpy(out, answer, sizeof answer);
    }
    expect(a.event <= 5 ? all.number == 0 : all.number == a.event, "heard %d and served %d", a.event, all.number);
    expect(a.connection == all.connection, "heard on %d and served on %d", a.connection, all.connection);
    expect(memcmp(out + all.count, as_found + all.count, KELINDAP_LINK_ROOM - all.count) == 0, "bytes behind the answer");
    if (a.event > 3) /* no data */
        expect(all.changed[0].length == 0 && all.changed[1].length == 0, "event %d names a part", a.event);
    if (all.number != 0)
        expect(memcmp(&first, s, sizeof first) == 0 && all.outcome == 0 && all.count == 0, "%d changes something", all.number);
    *s = first;
    return all;
}

static void is(state *s, const char *what, frame f, int number, int outcome, int connection, int count)
{
    uint8_t out[KELINDAP_LINK_ROOM];
    kelindap_served r = serve(s, 0, f, out);
    expect(r.number == number && r.outcome == outcome && r.connection == connection && r.count == count,
           "%s: %d %d %d %d", what, r.number, r.outcome, r.connection, r.count);
}

static void partners(const state *s, bool first, uint16_t one, bool second, uint16_t two, const char *what)
{
    expect(s->link.sessions.of[0].open == first && s->link.sessions.of[1].open == second && s->link.address[0] == one &&
               s->link.address[1] == two, "%s: %d %04x %d %04x", what, s->link.sessions.of[0].open, s->link.address[0],
           s->link.sessions.of[1].open, s->link.address[1]);
}

/* ---- the tests ---- */

static void test_places(void)
{
    state s = start();
    is(&s, "data of nobody's partner", to(ONE, OWN, "43d501331001"), 61, 0, NOBODY, 0);
    is(&s, "a disconnect of nobody's partner", to(ONE, OWN, "81"), 63, 0, NOBODY, 0);
    is(&s, "a neighbour's connect", to(ONE, NEXT, "80"), 60, 0, NOBODY, 0);
    partners(&s, false, 0, false, 0, "at first");
    is(&s, "the first connect", to(ONE, OWN, "80"), 0, 1, 0, 0);
    is(&s, "the second", to(TWO, OWN, "80"), 0, 1, 1, 0);
    is(&s, "a third", to(THREE, OWN, "80"), 62, 0, NOBODY, 0);
    partners(&s, true, ONE, true, TWO, "after three connects");
    is(&s, "a third's data", to(THREE, OWN, "43d501331001"), 61, 0, NOBODY, 0);
    is(&s, "a third's disconnect", to(THREE, OWN, "81"), 63, 0, NOBODY, 0);
    is(&s, "the key of level 1", to(TWO, OWN, "43d10022222222"), 0, 0, 1, 12);
    expect(s.link.sessions.of[1].level == 1 && s.link.sessions.of[0].level == 3, "the key is the other's");
    is(&s, "a second connect of the second", to(TWO, OWN, "80"), 0, 1, 1, 0);
    expect(s.link.sessions.of[1].level == 3, "a second connect leaves the level");
    partners(&s, true, ONE, true, TWO, "after a second connect");
    is(&s, "an acknowledgement of the second", to(TWO, OWN, "c2"), 45, 0, 1, 0);
    is(&s, "an acknowledgement of nobody's partner", to(THREE, OWN, "c2"), 45, 0, NOBODY, 0);
    is(&s, "another control of the first", to(ONE, OWN, "c0"), 44, 0, 0, 0);
    is(&s, "the first disconnects", to(ONE, OWN, "81"), 0, 1, 0, 0);
    partners(&s, false, ONE, true, TWO, "after a disconnect");
    is(&s, "the third gets its place", to(THREE, OWN, "80"), 0, 1, 0, 0);
    partners(&s, true, THREE, true, TWO, "after the third");
    is(&s, "who had it is a stranger", to(ONE, OWN, "43d501331001"), 61, 0, NOBODY, 0);
    is(&s, "a Restart", to(TWO, OWN, "4380"), 0, 1, 1, 0);
    partners(&s, false, THREE, false, TWO, "after a Restart");
    is(&s, "data after a Restart", to(TWO, OWN, "43d501331001"), 61, 0, NOBODY, 0);
    is(&s, "the old second connects", to(TWO, OWN, "80"), 0, 1, 0, 0);
    expect(kelindap_disconnect(&s.link.sessions, 0) == 1, "the time-out");
    is(&s, "data after a time-out", to(TWO, OWN, "43d501331001"), 61, 0, NOBODY, 0);
}

/* The answering frame: priority and address type of the request, B0h, 60h, the own address, the sequence number's low bits. */
static void test_answers(void)
{
    static const uint8_t connectionless[] = { 0x11, 0, 0xBC, 0x60, 0x11, 0x05, 0x11, 0xFF, 7, 0x03, 0xD6, 1, 0x33, 0x10, 1 };
    static const uint8_t connected[] = { 0x11, 0, 0xB4, 0x60, 0x11, 0x05, 0x11, 0xFF, 7, 0x67, 0xD6, 1, 0x33, 0x10, 1 };
    static const uint8_t of_group[] = { 0x11, 0, 0xBC, 0xE0, 0x11, 0x05, 0x08, 0x01 };
    state s = start();
    uint8_t out[KELINDAP_LINK_ROOM];
    kelindap_served r = serve(&s, 200, to(ONE, OWN, "03d501331001"), out);
    expect(r.number == 0 && r.outcome == 0 && r.connection == NOBODY && r.count == 17 && memcmp(out, connectionless, 15) == 0,
           "a read without connection");
    is(&s, "the connect", to(ONE, OWN, "80"), 0, 1, 0, 0);
    frame f = to(ONE, OWN, "43d501331001");
    f.bytes[2] = 0x94; /* repeated, and of another priority */
    f.bytes[3] = 0x30; /* three hops left */
    r = serve(&s, 0x59, f, out);
    expect(r.count == 17 && memcmp(out, connected, 15) == 0, "a read on a connection");
    r = serve(&s, 9, group(ONE, 0x0801, "0000"), out);
    expect(r.number == 0 && r.outcome == 0 && r.connection == NOBODY && r.count > 9 && memcmp(out, of_group, 8) == 0 &&
               out[8] == r.count - 10, "the read of a group");
    r = serve(&s, 9, group(ONE, 0x0802, "0000"), out);
    expect(r.number == 0 && r.outcome == 2 && r.count == 0, "another group");

    /* an answer comes from the address that the frame found, also if it is another afterwards */
    expect(kelindap_button(s.sheet, s.length, true) == 1, "the button");
    r = serve(&s, 0, group(ONE, 0, "00c01107"), out);
    expect(r.outcome == 1 && s.sheet[17] == 7, "the address written");
    is(&s, "the old address", to(ONE, OWN, "81"), 60, 0, NOBODY, 0);
    is(&s, "the new one", to(ONE, 0x1107, "81"), 0, 1, 0, 0);
    s.length = 17;
    is(&s, "a sheet without an address", to(ONE, 0, "80"), 0, 1, 0, 0);
    is(&s, "a request on it", to(ONE, 0, "43d501331001"), 0, KELINDAP_BAD_SHEET, 0, 0);
}

/* A frame that is sent again is carried out again: that is why the host judges sequence numbers. */
static void test_repeated(void)
{
    state s = start(), before;
    frame f = to(ONE, OWN, "43d0010100ff0f"); /* one byte at 0100h: AND FFh, XOR 0Fh */
    is(&s, "the connect", to(ONE, OWN, "80"), 0, 1, 0, 0);
    is(&s, "the key", to(ONE, OWN, "43d10011111111"), 0, 0, 0, 12);
    before = s;
    uint8_t out[KELINDAP_LINK_ROOM];
    kelindap_served r = serve(&s, 0, f, out);
    expect(r.number == 0 && r.outcome <= 1 && memcmp(s.sheet, before.sheet, s.length) != 0, "a bit write: %d", r.outcome);
    expect(r.changed[0].length == 1 && r.changed[1].length == 0 && s.sheet[r.changed[0].offset] != before.sheet[r.changed[0].offset],
           "the byte that a bit write names");
    serve(&s, 0, f, out);
    expect(memcmp(s.sheet, before.sheet, s.length) == 0, "two bit writes");
}

/* The element behind the last valid one: its count and its bytes are two parts, named alike by a frame and by its request. */
static void test_two_parts(void)
{
    static const uint8_t apdu[] = { 0x03, 0xD7, 1, 51, 0x10, 2, 0x04, 0xE2 };
    state s = start(), before;
    is(&s, "the connect", to(ONE, OWN, "80"), 0, 1, 0, 0);
    is(&s, "the key", to(ONE, OWN, "43d10011111111"), 0, 0, 0, 12);
    before = s;
    uint8_t out[KELINDAP_LINK_ROOM], answer[16];
    kelindap_served r = serve(&s, 0, to(ONE, OWN, "43d70133100204e2"), out);
    expect(r.outcome == 0 && r.changed[0].length == 2 && r.changed[1].length == 2, "two parts: %d, %d and %d bytes", r.outcome,
           (int)r.changed[0].length, (int)r.changed[1].length);
    state found = before;
    kelindap_reply reply = kelindap_request(&found.link.sessions, found.sheet, found.length, 3, 0, 0, apdu, sizeof apdu, answer, 16);
    expect_named(reply.outcome, reply.changed, before.sheet, found.sheet, found.length);
    expect(memcmp(reply.changed, r.changed, sizeof r.changed) == 0 && memcmp(found.sheet, s.sheet, s.length) == 0,
           "a request and its frame name other parts");
}

/* From its own address to itself alone: no event, whatever it would be. To a group and to all it is heard as anybody's. */
static void test_itself(void)
{
    static const char *const all[] = { "80", "81", "c2", "c0", "43d501331001", "03d501331001" };
    state s = start();
    for (size_t i = 0; i < sizeof all / sizeof *all; i++)
        is(&s, all[i], to(OWN, OWN, all[i]), 65, 0, NOBODY, 0);
    is(&s, "to its neighbour", to(OWN, NEXT, "80"), 60, 0, NOBODY, 0);
    partners(&s, false, 0, false, 0, "after its own connect");
    is(&s, "the first connect", to(ONE, OWN, "80"), 0, 1, 0, 0);
    s.link.address[0] = OWN; /* as no frame leaves it */
    for (size_t i = 0; i < sizeof all / sizeof *all; i++)
        is(&s, all[i], to(OWN, OWN, all[i]), 65, 0, NOBODY, 0);
    partners(&s, true, OWN, false, 0, "with its own address for a partner");
    s = start();
    is(&s, "the group's value, read", group(OWN, 0x0801, "0000"), 0, 0, NOBODY, 12);
    is(&s, "a group with the number of its address", group(OWN, OWN, "0000"), 0, 2, NOBODY, 0);
    is(&s, "a control to a group", group(OWN, 0x0801, "80"), 44, 0, NOBODY, 0);
    expect(kelindap_button(s.sheet, s.length, true) == 1, "the button");
    s.sheet[16] = s.sheet[17] = 0xFF; /* factory-new, as the interface that programs it */
    is(&s, "its address read", group(0xFFFF, 0, "0100"), 0, 0, NOBODY, 11);
    is(&s, "its address written", group(0xFFFF, 0, "00c01107"), 0, 1, NOBODY, 0);
    expect(s.sheet[16] == 0x11 && s.sheet[17] == 7, "the address written");
    is(&s, "who programmed it connects", to(0xFFFF, 0x1107, "80"), 0, 1, 0, 0);

    /* a partner whose address the device is given has its place, and is not heard on it */
    is(&s, "its address written once more", group(ONE, 0, "00c0ffff"), 0, 1, NOBODY, 0);
    is(&s, "its partner under the same address", to(0xFFFF, 0xFFFF, "43d501331001"), 65, 0, NOBODY, 0);
    partners(&s, true, 0xFFFF, false, 0, "after that");
}

/* The order of the numbers: buffer, frame, device, the device itself, transport, partner. */
static void test_order(void)
{
    state s = start(), before = s;
    frame f = to(ONE, NEXT, "c2");
    uint8_t out[KELINDAP_LINK_ROOM];
    memcpy(out, as_found, sizeof out);
    for (size_t room = 0; room <= KELINDAP_LINK_ROOM; room++)
        for (size_t length = 0; length <= f.length; length++) {
            kelindap_served r = serve_at((enum place)(length % PLACES), &s, 0, f.bytes, length, out, room);
            int due = room < KELINDAP_LINK_ROOM ? 64 : length < f.length ? 40 : 60;
            expect(r.number == due, "room %zu, length %zu: %d", room, length, r.number);
        }
    expect(memcmp(&s, &before, sizeof s) == 0 && memcmp(out, as_found, sizeof out) == 0, "something has changed");
    f.bytes[0] = 0x2E;
    is(&s, "a message code", f, 41, 0, NOBODY, 0);
    f.bytes[0] = 0x29, f.bytes[3] = 0x61;
    is(&s, "no standard frame", f, 42, 0, NOBODY, 0);
    f.bytes[3] = 0x60, f.bytes[8] = 1;
    is(&s, "a length byte", f, 43, 0, NOBODY, 0);
    f = to(OWN, OWN, "c2"), f.bytes[8] = 1;
    is(&s, "a length byte of its own", f, 43, 0, NOBODY, 0);
}

/* Frames of any bytes, mostly near right ones, on links of any sort: no event changes nothing, and what is sent reads. */
static void test_any(void)
{
    static const uint16_t senders[] = { ONE, TWO, THREE, 0, OWN };
    state s = start();
    for (unsigned i = 0; i < ROUNDS; i++) {
        frame f = to(senders[any(5)], OWN, "43d501331001");
        f.length = 10 + any(17);
        for (size_t k = 9; k < f.length; k++)
            f.bytes[k] = (uint8_t)any(256);
        f.bytes[8] = (uint8_t)(f.length - 10);
        static const uint8_t first[] = { 0x80, 0x81, 0x43, 0x03, 0xC2, 0x42 };
        if (any(4) != 0)
            f.bytes[9] = first[any(6)];
        if (any(3) == 0 && (f.bytes[9] == 0x80 || f.bytes[9] == 0x81))
            f.length = 10, f.bytes[8] = 0;
        if (any(8) == 0)
            f.bytes[3] ^= 0x80;
        if (any(8) == 0)
            f.bytes[any(10)] = (uint8_t)any(256);
        if (any(16) == 0)
            s.link.sessions.of[any(2)] = (kelindap_session){ any(2) != 0, (uint8_t)any(5) };
        uint8_t out[KELINDAP_LINK_ROOM];
        kelindap_link before = s.link;
        kelindap_served r = serve(&s, (uint8_t)any(256), f, out);
        expect(r.count <= KELINDAP_LINK_ROOM && (r.count == 0 || (r.count == 10 + out[8] && out[0] == 0x11)), "a frame sent");
        for (int c = 0; c < 2; c++)
            expect(s.link.address[c] == before.address[c] || (r.number == 0 && r.connection == c && f.bytes[9 + f.bytes[1]] == 0x80),
                   "an address is set by no connect");
    }
}

int main(void)
{
    begin("link_test");
    test_places();
    test_answers();
    test_repeated();
    test_two_parts();
    test_itself();
    test_order();
    test_any();
    return tell();
}
