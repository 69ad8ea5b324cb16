/*
 * A host in C that trusts the reader and writer of frames with nothing: frames with additional information of every length
 * are read, written again and compared, each byte damaged in turn; no byte beside the buffers is touched.
 */
#define _DEFAULT_SOURCE
#include "kelindap_names.h"
#include "lent.h"

enum { MOST_FRAME = 280, FRAME_ROOM = MOST_FRAME + 8 };

static uint8_t found[FRAME_ROOM];

/* Whatever is given has words; of events those that are refusals. */
static void expect_words(uint8_t number)
{
    expect(strcmp(kelindap_outcome_name(number), "no outcome") != 0, "%d has no words", number);
}

static kelindap_frame read_at(enum place place, const uint8_t *bytes, size_t length)
{
    lent b = lend(APDU, place, bytes, length);
    kelindap_frame f = kelindap_frame_read(b.bytes, b.length);
    calls++;
    take_back_same(&b, bytes, "frame");
    expect(f.outcome == 0 || (40 <= f.outcome && f.outcome <= 43), "reading gave %d", f.outcome);
    expect_words(f.outcome);
    expect_words(f.event == KELINDAP_NO_EVENT ? f.outcome : f.event);
    if (f.outcome == 0)
        expect(f.info_offset == 2 && f.tpdu_offset == 9 + f.info_length && f.tpdu_offset + f.tpdu_length == length &&
                   1 <= f.tpdu_length && f.tpdu_length <= 16 && f.transport == bytes[f.tpdu_offset] >> 2 &&
                   (f.event <= 5 || f.event == 44 || f.event == 45),
               "a frame of %d bytes reads wrong", (int)length);
    else
        expect(f.event == KELINDAP_NO_EVENT && f.source == 0 && f.destination == 0 && f.code == 0 && f.control1 == 0 &&
                   f.control2 == 0 && f.transport == 0 && f.info_offset == 0 && f.info_length == 0 && f.tpdu_offset == 0 && f.tpdu_length == 0,
               "a refusal by %d has fields", f.outcome);
    return f;
}

static kelindap_framed write_at(enum place place, kelindap_frame f, run info, run apdu, size_t room, uint8_t *now)
{
    lent i = lend(SESSIONS, place, info.bytes, info.length);
    lent a = lend(APDU, place, apdu.bytes, apdu.length);
    lent out = lend(ANSWER, place, found, room);
    kelindap_framed r = kelindap_frame_write(f, i.bytes, i.length, a.bytes, a.length, out.bytes, out.length);
    calls++;
    take_back_same(&i, info.bytes, "additional information");
    take_back_same(&a, apdu.bytes, "APDU");
    take_back(&out, now, "buffer");
    expect(r.outcome == 0 || r.outcome == 46 || r.outcome == 47, "writing gave %d", r.outcome);
    expect_words(r.outcome);
    expect(r.outcome == 0 ? 10 <= r.count && r.count <= room : r.count == 0, "writing gave %d, %d bytes", r.outcome, r.count);
    expect(memcmp(now + r.count, found + r.count, room - r.count) == 0, "writing changed what is behind the frame");
    return r;
}

/* A frame with l bytes of additional information and n from octet 6 on. */
static size_t make(uint8_t *b, size_t l, size_t n)
{
    b[0] = any(2) ? 0x11 : 0x29;
    b[1] = (uint8_t)l;
    for (size_t i = 0; i < l + 7 + n; i++)
        b[2 + i] = (uint8_t)any(256);
    b[2 + l] |= 0x80;
    b[3 + l] &= 0xF0;
    b[8 + l] = (uint8_t)(n - 1);
    return 9 + l + n;
}

/* What reads is written again to the same bytes, in a buffer of just its size, a larger one, and not in a smaller one. */
static void test_again(enum place place, const uint8_t *b, size_t length)
{
    uint8_t now[FRAME_ROOM];
    kelindap_frame f = read_at(place, b, length);
    if (f.outcome != 0)
        return;
    run info = { b + f.info_offset, f.info_length }, tpdu = { b + f.tpdu_offset, f.tpdu_length };
    for (size_t room = length; room <= length + 8; room += 8) {
        kelindap_framed r = write_at(place, f, info, tpdu, room, now);
        expect(r.outcome == 0 && r.count == length && memcmp(now, b, length) == 0, "a frame of %d bytes is not written again",
               (int)length);
    }
    expect(write_at(place, f, info, tpdu, length - 1, now).outcome == 46, "a short buffer does not give 46");
}

static void test_damaged(enum place place, uint8_t *b, size_t length)
{
    size_t at = any((uint32_t)length);
    uint8_t was = b[at];
    b[at] = (uint8_t)(was ^ (1u << any(8)));
    test_again(place, b, length);
    b[at] = was;
    read_at(place, b, length - 1 - any((uint32_t)length));
}

/* Fields that no frame that reads has, and parts that are too long or missing. */
static void test_47(enum place place)
{
    static uint8_t bytes[300];
    uint8_t now[FRAME_ROOM];
    kelindap_frame good = { .code = 0x11, .control1 = 0xBC, .control2 = 0xE0, .transport = 63 };
    run one = { bytes, 1 }, none = { bytes, 0 };
    for (int code = 0; code < 256; code++)
        for (int what = 0; what < 4; what++) {
            kelindap_frame f = good;
            uint8_t *part = (uint8_t *[]){ &f.code, &f.control1, &f.control2, &f.transport }[what];
            *part = (uint8_t)code;
            bool fits = what == 0 ? code == 0x11 || code == 0x29 : what == 1 ? code >= 128 : what == 2 ? code % 16 == 0 : code < 64;
            expect((write_at(place, f, none, one, 10, now).outcome == 0) == fits, "field %d as %d", what, code);
            expect(write_at(place, f, none, one, 9, now).outcome == (fits ? 46 : 47), "field %d as %d, short", what, code);
        }
    for (size_t l = 250; l <= 300; l++)
        expect((write_at(place, good, (run){ bytes, l }, one, FRAME_ROOM, now).outcome == 0) == (l <= 255), "information of %d", (int)l);
    for (size_t n = 0; n <= 20; n++)
        expect((write_at(place, good, none, (run){ bytes, n }, FRAME_ROOM, now).outcome == 0) == (1 <= n && n <= 16), "APDU of %d", (int)n);
}

int main(void)
{
    uint8_t b[FRAME_ROOM];
    begin("frame_test");
    for (size_t i = 0; i < FRAME_ROOM; i++)
        found[i] = (uint8_t)(0xE1 - 3 * i);
    for (enum place place = EXACT; place < PLACES; place++) {
        for (size_t l = 0; l <= 255; l++) {
            size_t length = make(b, l, 1 + any(16));
            test_again(place, b, length);
            for (int i = 0; i < 8; i++)
                test_damaged(place, b, length);
        }
        test_47(place);
    }
    return tell();
}
