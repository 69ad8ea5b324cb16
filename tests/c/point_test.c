/*
 * A host in C that trusts the tool's library with no group value: every type at every short length is read, what reads is
 * written again, any flat datapoint is written to parts of any length; on a refusal no byte changes, and no byte beside
 * the buffers is touched.
 */
#define _DEFAULT_SOURCE
#include "kelindap_names.h"
#include "lent.h"

static size_t width_of(uint8_t type)
{
    return type == 1 || type == 5 ? 1 : type == 9 ? 2 : type == 14 ? 4 : 0;
}

static bool finite(uint32_t bits)
{
    return (bits >> 23 & 255) != 255;
}

/* The refusal due on writing, 0 if none is. */
static int refusal_of(const kelindap_point *p, size_t room)
{
    if (width_of(p->type) == 0)
        return 25;
    if (room != width_of(p->type))
        return 20;
    if (p->type == 1)
        return p->value > 1 ? 21 : 0;
    if (p->type == 9)
        return p->hundredths < -67108864 || 67043328 < p->hundredths ? 23 : 0;
    return p->type == 14 && !finite(p->bits) ? 24 : 0;
}

/* Whatever is given has words. */
static void expect_words(uint8_t outcome)
{
    expect(strcmp(kelindap_outcome_name(outcome), "no outcome") != 0, "%d has no words", outcome);
}

static kelindap_point read_at(enum place place, uint8_t type, const uint8_t *bytes, size_t length)
{
    lent b = lend(APDU, place, bytes, length);
    kelindap_point p = kelindap_point_read(type, b.bytes, b.length);
    calls++;
    take_back_same(&b, bytes, "bytes");
    expect(p.outcome == 0 ? p.type == type : p.type == 0 && p.value == 0 && p.hundredths == 0 && p.bits == 0,
           "reading type %d gave %d with other fields", type, p.outcome);
    expect_words(p.outcome);
    return p;
}

static void write_at(enum place place, kelindap_point p, size_t room, uint8_t now[MOST_ROOM])
{
    lent out = lend(ANSWER, place, as_found, room);
    int outcome = kelindap_point_write(p, out.bytes, out.length), due = refusal_of(&p, room);
    calls++;
    take_back(&out, now, "part");
    expect(outcome == due, "writing type %d to %d bytes gave %d, due %d", p.type, (int)room, outcome, due);
    expect_words((uint8_t)outcome);
    expect(outcome == 0 || memcmp(now, as_found, room) == 0, "a refusal (%d) changed the part", outcome);
}

/* Every type at lengths 0 to 5, any bytes; what reads, written again, has the same value. */
static void test_reading(void)
{
    uint8_t bytes[5], now[MOST_ROOM];
    for (int turn = 0; turn < 40; turn++)
        for (int type = 0; type < 256; type++)
            for (size_t length = 0; length <= sizeof bytes; length++) {
                for (size_t i = 0; i < length; i++)
                    bytes[i] = (uint8_t)(any(3) ? any(256) : any(2));
                kelindap_point p = read_at((enum place)any(PLACES), (uint8_t)type, bytes, length);
                int due = width_of((uint8_t)type) == 0 ? 25 : length != width_of((uint8_t)type) ? 20 : p.outcome;
                expect(p.outcome == due, "type %d of %d bytes gave %d", type, (int)length, p.outcome);
                if (p.outcome != 0)
                    continue;
                write_at((enum place)any(PLACES), p, length, now);
                kelindap_point back = kelindap_point_read((uint8_t)type, now, length);
                expect(back.outcome == 0 && back.value == p.value && back.hundredths == p.hundredths && back.bits == p.bits,
                       "a value of type %d is not read back", type);
                expect(type == 9 || memcmp(now, bytes, length) == 0, "type %d is written with other bytes", type);
            }
}

/* Any flat datapoint, to parts of 0 to 5 bytes. */
static void test_writing(void)
{
    static const uint8_t types[] = { 0, 1, 2, 5, 9, 14, 255 };
    uint8_t now[MOST_ROOM];
    for (int turn = 0; turn < 4000; turn++) {
        kelindap_point p = { .type = types[any(7)], .value = (uint8_t)any(turn % 2 ? 3 : 256), .outcome = (uint8_t)any(256),
                             .bits = any(65536) << 16 | any(65536) };
        p.hundredths = (int32_t)(p.bits >> any(32)) * (any(2) ? 1 : -1);
        for (size_t room = 0; room <= 5; room++)
            write_at((enum place)any(PLACES), p, room, now);
    }
}

/* NULL with length 0 is an empty run. */
static void test_nothing(void)
{
    kelindap_point p = { .type = 5 };
    expect(kelindap_point_read(5, NULL, 0).outcome == 20, "an empty run is read as a byte");
    expect(kelindap_point_write(p, NULL, 0) == 20, "a byte is written to nothing");
    calls += 2;
}

int main(void)
{
    begin("points");
    test_nothing();
    test_reading();
    test_writing();
    return tell();
}
