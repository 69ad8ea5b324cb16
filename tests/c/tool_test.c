/*
 * A host in C that trusts the tool's library with nothing: every code at every length is read, what reads is written again
 * and read back, and any flat PDU is written; no byte beside the buffers is touched.
 */
#define _DEFAULT_SOURCE
#include "kelindap_pdu.h"
#include "lent.h"

/* The fields of a kind, each a bit. */
enum {
    V = 1, T = 2, OBJECT = 4, ID = 8, N = 16, S = 32, INDEX = 64, TYPE = 128, MAXIMUM = 256, ACCESS = 512, LEVEL = 1024,
    ADDRESS = 2048, DOMAIN = 4096, SERIAL = 8192, KEY = 16384, DATA = 32768, ELEMENTS = OBJECT | ID | N | S
};

static const uint16_t fields_of[] = {
    [KELINDAP_GROUP_READ] = 0,
    [KELINDAP_GROUP_RESPONSE] = V | DATA,
    [KELINDAP_GROUP_WRITE] = V | DATA,
    [KELINDAP_ADDRESS_WRITE] = ADDRESS,
    [KELINDAP_ADDRESS_READ] = 0,
    [KELINDAP_SERIAL_READ] = SERIAL,
    [KELINDAP_SERIAL_WRITE] = SERIAL | ADDRESS,
    [KELINDAP_DESCRIPTOR_READ] = T,
    [KELINDAP_PROPERTY_READ] = ELEMENTS,
    [KELINDAP_PROPERTY_WRITE] = ELEMENTS | DATA,
    [KELINDAP_DESCRIPTION_READ] = OBJECT | ID | INDEX,
    [KELINDAP_MEMORY_READ] = N | ADDRESS,
    [KELINDAP_MEMORY_WRITE] = N | ADDRESS | DATA,
    [KELINDAP_MEMORY_BIT_WRITE] = N | ADDRESS | DATA,
    [KELINDAP_AUTHORIZE_REQUEST] = KEY,
    [KELINDAP_KEY_WRITE] = LEVEL | KEY,
    [KELINDAP_RESTART] = 0,
    [KELINDAP_ADDRESS_RESPONSE] = 0,
    [KELINDAP_SERIAL_RESPONSE] = SERIAL | DOMAIN,
    [KELINDAP_DESCRIPTOR_RESPONSE] = T | DATA,
    [KELINDAP_PROPERTY_RESPONSE] = ELEMENTS | DATA,
    [KELINDAP_DESCRIPTION_RESPONSE] = OBJECT | ID | INDEX | TYPE | MAXIMUM | ACCESS,
    [KELINDAP_MEMORY_RESPONSE] = N | ADDRESS | DATA,
    [KELINDAP_AUTHORIZE_RESPONSE] = LEVEL,
    [KELINDAP_KEY_RESPONSE] = LEVEL,
    [KELINDAP_USER_MEMORY_READ] = N | ADDRESS,
    [KELINDAP_USER_MEMORY_RESPONSE] = N | ADDRESS | DATA,
    [KELINDAP_USER_MEMORY_WRITE] = N | ADDRESS | DATA,
};
enum { KINDS = sizeof fields_of / sizeof fields_of[0] };

/* The fields that are not 0. */
static int fields_in(const kelindap_pdu *p)
{
    return (p->v ? V : 0) | (p->t ? T : 0) | (p->object ? OBJECT : 0) | (p->id ? ID : 0) | (p->n ? N : 0) | (p->s ? S : 0) |
           (p->index ? INDEX : 0) | (p->type ? TYPE : 0) | (p->maximum ? MAXIMUM : 0) | (p->access ? ACCESS : 0) |
           (p->level ? LEVEL : 0) | (p->address ? ADDRESS : 0) | (p->domain ? DOMAIN : 0) | (p->serial ? SERIAL : 0) |
           (p->key ? KEY : 0) | (p->data_length ? DATA : 0);
}

static bool same_fields(const kelindap_pdu *a, const kelindap_pdu *b)
{
    return a->kind == b->kind && a->v == b->v && a->t == b->t && a->object == b->object && a->id == b->id && a->n == b->n &&
           a->s == b->s && a->index == b->index && a->type == b->type && a->maximum == b->maximum && a->access == b->access &&
           a->level == b->level && a->address == b->address && a->domain == b->domain && a->serial == b->serial &&
           a->key == b->key && a->data_length == b->data_length;
}

static kelindap_pdu read_at(enum place place, run apdu)
{
    lent b = lend(APDU, place, apdu.bytes, apdu.length);
    kelindap_pdu pdu = kelindap_read(b.bytes, b.length);
    calls++;
    take_back_same(&b, apdu.bytes, "APDU");
    return pdu;
}

static kelindap_written write_at(enum place place, kelindap_pdu pdu, run data, size_t room, uint8_t now[MOST_ROOM])
{
    lent from = lend(APDU, place, data.bytes, data.length);
    lent out = lend(ANSWER, place, as_found, room);
    kelindap_written w = kelindap_write(pdu, from.bytes, from.length, out.bytes, out.length);
    calls++;
    take_back_same(&from, data.bytes, "data");
    take_back(&out, now, "buffer");
    expect(w.outcome == 0 || w.outcome == 3 || w.outcome == 13, "writing gave %d", w.outcome);
    expect((w.outcome == 3) == (room < 16), "writing to %d bytes gave %d", (int)room, w.outcome);
    expect(w.outcome == 0 ? 2 <= w.count && w.count <= 16 : w.count == 0, "writing gave %d, %d bytes", w.outcome, w.count);
    expect(w.count > room || memcmp(now + w.count, as_found + w.count, room - w.count) == 0, "writing changed the rest");
    return w;
}

/* What was read is written again, and reads as the same PDU with the same data. */
static void write_again(enum place place, run apdu, kelindap_pdu pdu)
{
    uint8_t now[MOST_ROOM];
    run data = { apdu.bytes + pdu.data_offset, pdu.data_length };
    kelindap_written w = write_at(place, pdu, data, 16 + apdu.length % 5, now);
    expect(w.outcome == 0 && w.count == apdu.length, "kind %d of %d bytes is not written again", pdu.kind, (int)apdu.length);
    if (w.outcome != 0)
        return;
    kelindap_pdu back = kelindap_read(now, w.count);
    expect(back.outcome == 0 && same_fields(&pdu, &back), "kind %d reads back with other fields", pdu.kind);
    expect(pdu.data_length == 0 || memcmp(now + back.data_offset, data.bytes, data.length) == 0,
           "kind %d reads back with other data", pdu.kind);
    expect(now[0] <= 3 && (now[0] & 3) == (apdu.bytes[0] & 3) && now[1] == apdu.bytes[1], "kind %d has another code", pdu.kind);
}

static void try_reading(enum place place, run apdu)
{
    kelindap_pdu pdu = read_at(place, apdu), error = { .outcome = pdu.outcome, .kind = KELINDAP_NO_KIND };
    bool fits = 2 <= apdu.length && apdu.length <= 16;
    expect(fits ? pdu.outcome == 0 || pdu.outcome == 8 || pdu.outcome == 10 : pdu.outcome == 5, "reading %d bytes gave %d",
           (int)apdu.length, pdu.outcome);
    if (pdu.outcome != 0) {
        uint8_t now[MOST_ROOM];
        expect(same_fields(&pdu, &error) && pdu.data_offset == 0, "reading gave %d with fields", pdu.outcome);
        expect(write_at(place, pdu, (run){ apdu.bytes, 0 }, 16, now).outcome == KELINDAP_UNWRITABLE,
               "what reading gave %d for was written", pdu.outcome);
        return;
    }
    expect(pdu.kind < KINDS && (fields_in(&pdu) & ~fields_of[pdu.kind]) == 0, "kind %d has fields of another", pdu.kind);
    expect(pdu.data_offset <= apdu.length && pdu.data_length <= apdu.length - pdu.data_offset, "kind %d has data outside",
           pdu.kind);
    write_again(place, apdu, pdu);
}

/* Every code at every length, with bytes after it that often suit a PDU. */
static void test_reading(void)
{
    unsigned long before = calls;
    for (int code = 0; code < 1024; code++)
        for (size_t length = 0; length <= 20; length++) {
            uint8_t apdu[20];
            for (size_t i = 0; i < sizeof apdu; i++)
                apdu[i] = (uint8_t)(any(3) == 0 ? any(256) : any(6));
            apdu[0] = (uint8_t)(apdu[0] << 2 | code >> 8);
            apdu[1] = (uint8_t)code;
            try_reading((enum place)(any(PLACES)), (run){ apdu, length });
        }
    static const uint16_t codes[] = { 0x3D0, 0x3D9, 0x2C1, 0x2C2 };
    for (int i = 0; i < 40000; i++) { /* kinds with n in the third byte, or a capped number, are rare above */
        uint16_t code = codes[i % 4];
        size_t n = any(code < 0x300 ? 13 : 7);
        uint8_t apdu[20] = { (uint8_t)(code >> 8), (uint8_t)code, (uint8_t)n };
        for (size_t k = 3; k < sizeof apdu; k++)
            apdu[k] = (uint8_t)any(256);
        apdu[6] &= 15;
        try_reading((enum place)(any(PLACES)), (run){ apdu, code == 0x3D0 ? 5 + 2 * n : code == 0x3D9 ? 9 : 5 + n });
    }
    expect(calls > before + 40000, "too little was read and written");
}

/* Any numbers in the flat PDU, unknown kinds, any length of data and of buffer: nothing is touched that should not be. */
static void test_writing(void)
{
    uint8_t data[20], now[MOST_ROOM];
    for (size_t i = 0; i < sizeof data; i++)
        data[i] = (uint8_t)(17 * i + 3);
    for (int kind = 0; kind < 256; kind++)
        for (size_t length = 0; length <= 20; length++)
            for (size_t room = 0; room <= 20; room += room < 13 ? 13 : 1) {
                kelindap_pdu p = { .kind = (uint8_t)kind, .v = (uint8_t)any(80), .t = (uint8_t)any(80), .object = (uint8_t)any(256),
                                   .id = (uint8_t)any(256), .n = (uint8_t)any(20), .s = (uint16_t)any(5000),
                                   .index = (uint8_t)any(256), .type = (uint8_t)any(256), .maximum = (uint16_t)any(5000),
                                   .access = (uint8_t)any(256), .level = (uint8_t)any(256), .address = (uint16_t)any(65536),
                                   .domain = (uint16_t)any(65536), .serial = (uint64_t)any(65536) << any(48), .key = any(1u << 31),
                                   .outcome = (uint8_t)any(256), .data_offset = SIZE_MAX - any(9), .data_length = SIZE_MAX };
                kelindap_written w = write_at((enum place)any(PLACES), p, (run){ data, length }, room, now);
                expect(kind < KINDS || w.outcome != 0, "kind %d was written", kind);
                if (w.outcome == 0) {
                    kelindap_pdu back = kelindap_read(now, w.count);
                    expect(back.outcome == 0 && back.kind == kind && back.data_length == length, "kind %d doesn't read back", kind);
                }
            }
}

/* NULL with length 0 is an empty run. */
static void test_nothing(void)
{
    uint8_t out[16] = { 0 };
    kelindap_pdu pdu = { .kind = KELINDAP_RESTART };
    expect(kelindap_read(NULL, 0).outcome == 5, "an empty APDU is read as a PDU");
    expect(kelindap_write(pdu, NULL, 0, NULL, 0).outcome == 3, "a PDU is written to nothing");
    kelindap_written w = kelindap_write(pdu, NULL, 0, out, sizeof out);
    expect(w.outcome == 0 && w.count == 2 && out[0] == 0x03 && out[1] == 0x80, "a PDU without data is not written");
    calls += 3;
}

int main(void)
{
    begin("tool");
    expect(kelindap_pdu_version() == KELINDAP_VERSION, "the library has another version than its header");
    test_nothing();
    test_reading();
    test_writing();
    return tell();
}
