/*
 * A host in C that trusts the device's library with nothing: the marked cases, all lengths and modes, damaged sheets of
 * both editions, old ones and their conversion, two connections and numbers that are none's, lookups, ranges over two regions,
 * long runs; each request is held to what is promised of any, and no byte beside its buffers is touched.
 */
#define _DEFAULT_SOURCE
#include "kelindap.h"
#include "kelindap_names.h"
#include "kelindap_pdu.h"
#include "lent.h"

/* ---- requests ---- */

enum { MOST_SHEET = 16384 };

typedef struct event {
    kelindap_sessions sessions;
    uint8_t mode, connection;
    uint16_t group;
    run apdu, sheet;
    size_t room;
} event;

typedef struct effect {
    kelindap_reply reply;
    kelindap_sessions sessions;
    uint8_t answer[MOST_ROOM];
    uint8_t sheet[MOST_SHEET + 1];
} effect;

static void request_at(enum place place, const event *e, effect *f)
{
    lent sessions = lend(SESSIONS, place, &e->sessions, sizeof e->sessions);
    lent apdu = lend(APDU, place, e->apdu.bytes, e->apdu.length);
    lent sheet = lend(SHEET, place, e->sheet.bytes, e->sheet.length);
    lent answer = lend(ANSWER, place, as_found, e->room);
    f->reply = kelindap_request((kelindap_sessions *)sessions.bytes, sheet.bytes, sheet.length, e->mode, e->connection, e->group,
                                apdu.bytes, apdu.length, answer.bytes, answer.length);
    calls++;
    take_back(&sessions, &f->sessions, "sessions");
    take_back_same(&apdu, e->apdu.bytes, "APDU");
    take_back(&sheet, f->sheet, "sheet");
    take_back(&answer, f->answer, "answer");
    expect_named(f->reply.outcome, f->reply.changed, e->sheet.bytes, f->sheet, e->sheet.length);
}

static uint8_t check_at(enum place place, run sheet)
{
    lent b = lend(SHEET, place, sheet.bytes, sheet.length);
    uint8_t rule = kelindap_check(b.bytes, b.length);
    calls++;
    take_back_same(&b, sheet.bytes, "sheet");
    expect(rule <= KELINDAP_S9 || rule == KELINDAP_OLD, "check gave %d", rule);
    expect(strcmp(kelindap_rule_name(rule), "no rule") != 0, "verdict %d has no words", rule);
    return rule;
}

/* What is due on a sheet by the verdict of its check: 4, 14, or the third. */
static int sheet_outcome(uint8_t rule, int on_accepted)
{
    return rule == KELINDAP_ACCEPTED ? on_accepted : rule == KELINDAP_OLD ? KELINDAP_OLD_SHEET : KELINDAP_BAD_SHEET;
}

/* The first of the outcomes 3, 4, 14, 5, 6, 7 that is due, or 0. */
static int early_outcome(const event *e, uint8_t rule)
{
    if (e->room < 16)
        return KELINDAP_NO_ROOM;
    if (rule != KELINDAP_ACCEPTED)
        return sheet_outcome(rule, 0);
    if (e->apdu.length < 2 || 16 < e->apdu.length)
        return KELINDAP_BAD_LENGTH;
    if (e->mode > 3)
        return KELINDAP_BAD_MODE;
    bool connected = e->connection < KELINDAP_CONNECTIONS && e->sessions.of[e->connection].open;
    return e->mode == KELINDAP_CONNECTED && !connected ? KELINDAP_NOT_CONNECTED : 0;
}

static bool same_session(kelindap_session a, kelindap_session b)
{
    return a.open == b.open && a.level == b.level;
}

static bool same_sessions(kelindap_sessions a, kelindap_sessions b)
{
    return same_session(a.of[0], b.of[0]) && same_session(a.of[1], b.of[1]);
}

static const kelindap_sessions both_closed = { { { false, 3 }, { false, 3 } } };

/* A request with outcome 0 or 1 changes the level of its own session at most, or has restarted and closed both. */
static void hold_sessions_to_promises(const event *e, const effect *f)
{
    bool restarted = f->reply.outcome == KELINDAP_DONE && (e->apdu.bytes[0] & 3) == 3 && e->apdu.bytes[1] == 0x80;
    if (restarted) {
        expect(same_sessions(f->sessions, both_closed), "a Restart in mode %d left a session", e->mode);
        return;
    }
    expect(e->mode != KELINDAP_CONNECTIONLESS || f->reply.outcome != KELINDAP_DONE, "a host would take it for a Restart in mode 2");
    for (int c = 0; c < KELINDAP_CONNECTIONS; c++) {
        bool own = e->mode == KELINDAP_CONNECTED && e->connection == c;
        kelindap_session before = e->sessions.of[c], after = f->sessions.of[c];
        expect(own ? after.open == before.open : same_session(after, before), "a request in mode %d changed session %d", e->mode,
               c);
    }
}

/* What holds of any request: the early outcomes, and that a refusal leaves every byte. */
static void hold_to_promises(const event *e, const effect *f)
{
    int outcome = f->reply.outcome;
    size_t count = f->reply.count;
    bool answered = outcome == KELINDAP_ANSWERED || outcome == KELINDAP_DENIED;
    bool carried_out = outcome == KELINDAP_ANSWERED || outcome == KELINDAP_DONE;
    int early = early_outcome(e, kelindap_check(e->sheet.bytes, e->sheet.length));
    if (early != 0)
        expect(outcome == early, "a request gave %d, %d was due", outcome, early);
    else
        expect(outcome < KELINDAP_NO_ROOM || (KELINDAP_NOT_CONNECTED < outcome && outcome <= KELINDAP_DENIED_SILENT),
               "a request gave %d", outcome);
    expect(answered ? 2 <= count && count <= 16 : count == 0, "outcome %d came with %d bytes", outcome, (int)count);
    expect(count > e->room || memcmp(f->answer + count, as_found + count, e->room - count) == 0,
           "outcome %d: the answer buffer changed after byte %d", outcome, (int)count);
    expect(!answered || kelindap_read(f->answer, count).outcome == 0, "outcome %d: the answer can't be read", outcome);
    if (carried_out) {
        hold_sessions_to_promises(e, f);
        return;
    }
    expect(same_sessions(f->sessions, e->sessions), "outcome %d changed a session", outcome);
    expect(e->sheet.length == 0 || memcmp(f->sheet, e->sheet.bytes, e->sheet.length) == 0,
           "outcome %d changed the sheet", outcome);
}

static bool same_effect(const event *e, const effect *a, const effect *b)
{
    return a->reply.outcome == b->reply.outcome && a->reply.count == b->reply.count &&
           same_sessions(a->sessions, b->sessions) && memcmp(a->answer, b->answer, e->room) == 0 &&
           memcmp(a->sheet, b->sheet, e->sheet.length) == 0;
}

/* A request in one place; what happened stands until the next one there. */
static const effect *try_at(enum place place, const event *e)
{
    static effect effects[PLACES];
    effect *f = &effects[place];
    request_at(place, e, f);
    hold_to_promises(e, f);
    return f;
}

/* The same request in every place, where the same must happen. */
static const effect *try_everywhere(const event *e)
{
    const effect *first = try_at(EXACT, e);
    for (enum place place = GUARDED; place < PLACES; place++)
        expect(same_effect(e, first, try_at(place, e)), "a request did something else in place %d", place);
    return first;
}

/* ---- sheets ---- */

static const uint8_t sample[69] = {
#include "../../hosts/sample_sheet.inc"
};
static const run sample_sheet = { sample, sizeof sample };

/* The same as it was in edition 1. */
static uint8_t old[sizeof sample];
static const run old_sheet = { old, sizeof old };

/* Both memories. */
static const uint8_t pump[101] = {
#include "../../hosts/pump_sheet.inc"
};
static const run pump_sheet = { pump, sizeof pump };

/* The same under the later rules. */
static uint8_t later[sizeof pump];
static const run later_sheet = { later, sizeof later };

static void build_other_sheets(void)
{
    memcpy(later, pump, sizeof later);
    later[30] = 1;
    memcpy(old, sample, sizeof old);
    old[0] = 1;
}

static void put_word(uint8_t *at, size_t value)
{
    at[0] = (uint8_t)(value >> 8);
    at[1] = (uint8_t)value;
}

/* A full sheet: 16 regions, 64 properties, 64 group objects, 16 user regions, and where the body of each stands. */
enum { REGIONS = 16, PROPERTIES = 64, GROUPS = 64, USERS = 16 };
enum { CONTENTS = 32 + 8 * REGIONS + 12 * PROPERTIES + 8 * GROUPS + 8 * USERS };
static uint8_t full[MOST_SHEET];
static size_t full_length;
static kelindap_part region_body[REGIONS], property_body[PROPERTIES], group_body[GROUPS], user_body[USERS];

static size_t region_address(size_t i) { return 0x100 + 0x200 * i; }
static size_t user_address(size_t i) { return 0x102 + 0x200 * i; } /* addresses that device memory has too */
static size_t property_object(size_t i) { return i / 8; }
static size_t property_id(size_t i) { return 1 + 3 * (i % 8); }
static size_t group_address(size_t i) { return 5 + 9 * i; }

/* Gives the next body `length` bytes, writes its offset, and moves on. */
static kelindap_part body(uint8_t *offset_at, size_t length)
{
    kelindap_part part = { full_length, length };
    put_word(offset_at, full_length);
    full_length += length;
    return part;
}

static void build_full_sheet(void)
{
    uint8_t *e = full + 32;
    full_length = CONTENTS;
    memcpy(full, sample, 32);
    full[0] = 2;
    full[1] = REGIONS;
    full[2] = PROPERTIES;
    full[3] = GROUPS;
    full[15] = USERS;
    for (size_t i = 0; i < REGIONS; i++, e += 8) {
        size_t length = i == 3 ? 0x200 : 1 + 5 * i; /* region 3 touches region 4 */
        put_word(e, region_address(i));
        put_word(e + 2, length);
        region_body[i] = body(e + 4, length);
        e[6] = (uint8_t)(0x33 - (i % 4) - 16 * (i / 4));
    }
    for (size_t i = 0; i < PROPERTIES; i++, e += 12) {
        size_t size = 1 + i % 10, maximum = 1 + i % 13;
        e[0] = (uint8_t)property_object(i);
        e[1] = (uint8_t)property_id(i);
        e[2] = i % 3 == 0 ? 0x04 : 0x84;
        e[3] = (uint8_t)size;
        put_word(e + 4, maximum);
        put_word(e + 6, i % (maximum + 1));
        property_body[i] = body(e + 8, size * maximum);
        e[10] = (uint8_t)(16 * (i % 4) + i / 4 % 4);
    }
    for (size_t i = 0; i < GROUPS; i++, e += 8) {
        put_word(e, group_address(i));
        e[2] = (uint8_t)(i % 15);
        e[3] = (uint8_t)(i % 8);
        group_body[i] = body(e + 4, i % 15 == 0 ? 1 : i % 15);
    }
    for (size_t i = 0; i < USERS; i++, e += 8) {
        size_t length = i == 5 ? 0x200 : 2 + 4 * i; /* user region 5 touches user region 6 */
        put_word(e, user_address(i));
        put_word(e + 2, length);
        user_body[i] = body(e + 4, length);
        e[6] = (uint8_t)(0x33 - 16 * (i % 4) - i / 4);
    }
    put_word(full + 4, full_length);
    for (uint8_t *b = e; b < full + full_length; b++)
        *b = (uint8_t)((b - full) * 11 % 64);
}

/* The longest sheet: one region. */
static uint8_t longest[MOST_SHEET];

static void build_longest_sheet(void)
{
    static const uint8_t entry[8] = { 0x12, 0x34, 0x3F, 0xD8, 0x00, 0x28, 0x33, 0x00 };
    memcpy(longest, sample, 32);
    longest[2] = longest[3] = 0;
    put_word(longest + 4, MOST_SHEET);
    memcpy(longest + 32, entry, 8);
    for (size_t i = 40; i < MOST_SHEET; i++)
        longest[i] = (uint8_t)(i * 7);
}

/* ---- lookups ---- */

typedef struct question {
    enum { BY_PROPERTY, BY_REGION, BY_GROUP, BY_USER } by;
    size_t a, b;
} question;

static kelindap_part ask(const lent *sheet, question q)
{
    switch (q.by) {
    case BY_PROPERTY:
        return kelindap_property(sheet->bytes, sheet->length, (uint8_t)q.a, (uint8_t)q.b);
    case BY_REGION:
        return kelindap_region(sheet->bytes, sheet->length, q.a);
    case BY_USER:
        return kelindap_user_region(sheet->bytes, sheet->length, q.a);
    default:
        return kelindap_group(sheet->bytes, sheet->length, (uint16_t)q.a);
    }
}

/* The part that a lookup gives lies in the caller's sheet, is where it should be, and has the bytes of that place. */
static void look_up(enum place place, run sheet, question q, kelindap_part due)
{
    lent b = lend(SHEET, place, sheet.bytes, sheet.length);
    kelindap_part part = ask(&b, q);
    calls++;
    expect(part.offset == due.offset && part.length == due.length, "lookup %d of %d, %d gave %d bytes at %d", q.by, (int)q.a,
           (int)q.b, (int)part.length, (int)part.offset);
    bool inside = part.offset <= sheet.length && part.length <= sheet.length - part.offset;
    expect(inside, "lookup %d of %d, %d gave a part outside the sheet", q.by, (int)q.a, (int)q.b);
    if (inside && part.length > 0)
        expect(memcmp(b.bytes + part.offset, sheet.bytes + due.offset, part.length) == 0,
               "lookup %d of %d, %d: wrong bytes", q.by, (int)q.a, (int)q.b);
    take_back_same(&b, sheet.bytes, "sheet");
}

static void look_up_everywhere(run sheet, question q, kelindap_part due)
{
    for (enum place place = EXACT; place < PLACES; place++)
        look_up(place, sheet, q, due);
}

static const kelindap_part none = { 0, 0 };

static void test_lookups_in_small_sheets(void)
{
    for (size_t object = 0; object < 256; object++)
        for (size_t id = 0; id < 256; id++)
            look_up((enum place)(id % PLACES), sample_sheet, (question){ BY_PROPERTY, object, id },
                    object == 1 && id == 0x33 ? (kelindap_part){ 64, 4 } : none);
    for (size_t address = 0; address < 65536; address++)
        look_up((enum place)(address % PLACES), sample_sheet, (question){ BY_GROUP, address, 0 },
                address == 0x801 ? (kelindap_part){ 68, 1 } : none);
    look_up_everywhere(sample_sheet, (question){ BY_REGION, 0, 0 }, (kelindap_part){ 60, 4 });
    look_up_everywhere(sample_sheet, (question){ BY_USER, 0, 0 }, none);
    look_up_everywhere(pump_sheet, (question){ BY_REGION, 0, 0 }, (kelindap_part){ 76, 4 });
    look_up_everywhere(pump_sheet, (question){ BY_REGION, 1, 0 }, none);
    look_up_everywhere(pump_sheet, (question){ BY_USER, 0, 0 }, (kelindap_part){ 85, 4 });
    look_up_everywhere(pump_sheet, (question){ BY_USER, 1, 0 }, (kelindap_part){ 89, 12 });
    for (size_t k = 2; k != 0; k = k < 300 ? k + 1 : k == SIZE_MAX ? 0 : k > SIZE_MAX / 2 ? SIZE_MAX : 2 * k) {
        look_up((enum place)(k % PLACES), sample_sheet, (question){ BY_REGION, k, 0 }, none);
        look_up((enum place)(k % PLACES), pump_sheet, (question){ BY_USER, k, 0 }, none);
    }
    look_up_everywhere(sample_sheet, (question){ BY_REGION, 1, 0 }, none);
}

static void test_lookups_in_full_sheet(void)
{
    run sheet = { full, full_length };
    expect(check_at(EXACT, sheet) == 0, "the full sheet breaks rule %d", check_at(EXACT, sheet));
    for (size_t i = 0; i < REGIONS; i++)
        look_up_everywhere(sheet, (question){ BY_REGION, i, 0 }, region_body[i]);
    look_up_everywhere(sheet, (question){ BY_REGION, REGIONS, 0 }, none);
    for (size_t i = 0; i < USERS; i++)
        look_up_everywhere(sheet, (question){ BY_USER, i, 0 }, user_body[i]);
    look_up_everywhere(sheet, (question){ BY_USER, USERS, 0 }, none);
    for (size_t i = 0; i < PROPERTIES; i++) {
        look_up_everywhere(sheet, (question){ BY_PROPERTY, property_object(i), property_id(i) }, property_body[i]);
        look_up_everywhere(sheet, (question){ BY_PROPERTY, property_object(i), property_id(i) + 1 }, none);
    }
    for (size_t i = 0; i < GROUPS; i++) {
        look_up_everywhere(sheet, (question){ BY_GROUP, group_address(i), 0 }, group_body[i]);
        look_up_everywhere(sheet, (question){ BY_GROUP, group_address(i) + 1, 0 }, none);
    }
    look_up_everywhere((run){ longest, MOST_SHEET }, (question){ BY_REGION, 0, 0 }, (kelindap_part){ 40, MOST_SHEET - 40 });
}

/* ---- the marked cases ---- */

static size_t unhex(const char *digits, uint8_t *bytes)
{
    size_t length = 0;
    unsigned value;
    for (; sscanf(digits, "%2x", &value) == 1; digits += 2)
        bytes[length++] = (uint8_t)value;
    return length;
}

/* The sessions with this one for a connection, the other being open at level 2. */
static kelindap_sessions with(uint8_t connection, kelindap_session session)
{
    kelindap_sessions sessions = { { { true, 2 }, { true, 2 } } };
    sessions.of[connection] = session;
    return sessions;
}

static const struct marked {
    uint8_t mode, level;
    const char *apdu, *answer;
    uint8_t outcome, level_after;
    int changed; /* offset of the bytes that change, or -1 */
    const char *to;
} marked[] = {
#include "marked.inc" /* from tests/vectors/device.tsv */
};
enum { MARKED = sizeof marked / sizeof marked[0] };

static void test_marked_cases(void)
{
    for (size_t i = 0; i < MARKED; i++) {
        const struct marked *m = &marked[i];
        uint8_t apdu[16], answer[16], sheet[sizeof sample];
        memcpy(sheet, sample, sizeof sample);
        if (m->changed >= 0)
            unhex(m->to, sheet + m->changed);
        size_t count = unhex(m->answer, answer);
        for (uint8_t c = 0; c < KELINDAP_CONNECTIONS; c++) {
            event e = { with(c, (kelindap_session){ m->mode == 3, m->level }), m->mode, c, 0, { apdu, unhex(m->apdu, apdu) },
                        sample_sheet, 16 };
            const effect *f = try_everywhere(&e);
            expect(f->reply.outcome == m->outcome && f->reply.count == count && memcmp(f->answer, answer, count) == 0,
                   "marked case %d: outcome %d, %d bytes", (int)i + 1, f->reply.outcome, f->reply.count);
            expect(same_sessions(f->sessions, with(c, (kelindap_session){ m->mode == 3, m->level_after })),
                   "marked case %d: sessions", (int)i + 1);
            expect(memcmp(f->sheet, sheet, sizeof sheet) == 0, "marked case %d: sheet", (int)i + 1);
        }
    }
}

/* ---- lengths, modes, damage ---- */

/* A request of each service at its own length, in the mode that serves it, and a few that none serves. */
static const struct service {
    uint8_t mode;
    const char *apdu;
} services[] = {
    { 0, "0000" }, { 0, "004055" }, { 0, "008055" }, { 0, "0081" }, { 1, "00C01234" }, { 1, "0100" },
    { 1, "03DC00C501020304" }, { 1, "03DE00C5010203041207DEADBEEF" }, { 2, "0300" }, { 2, "0305" },
    { 2, "03D501331001" }, { 3, "03D7013310010384" }, { 3, "03D7013310000000" }, { 2, "03D8013300" }, { 3, "02040100" },
    { 3, "028401001122334455" }, { 3, "0284010011223344" }, { 3, "03D00201000102A0B0" }, { 3, "03D10022222222" },
    { 3, "03D300ABCDEF01" }, { 3, "0380" }, { 3, "0381" }, { 2, "0140" }, { 2, "03FF" }, { 3, "02C0040100" },
    { 3, "02C00B0104" }, { 3, "02C20401001122334455" }, { 3, "02C204010011223344" }, { 3, "02C20B01040102030405060708090A0B" },
};
enum { SERVICES = sizeof services / sizeof services[0] };

/* The sample sheet, but for user memory, which it has not; and the one of the later rules, which all are tried on. */
enum { RULES = 2 };
static run sheet_for(size_t service, int rules)
{
    return rules == 1 ? later_sheet : strncmp(services[service].apdu, "02C", 3) == 0 ? pump_sheet : sample_sheet;
}

static void test_lengths(void)
{
    for (size_t i = 0; i < SERVICES; i++) {
        uint8_t apdu[20] = { 0 };
        unhex(services[i].apdu, apdu);
        for (int rules = 0; rules < RULES; rules++)
            for (size_t length = 0; length <= 20; length++)
                for (size_t room = 0; room <= 20; room += rules == 0 ? 1 : 4)
                    try_everywhere(&(event){ with(length % 2, (kelindap_session){ true, (uint8_t)(i % 4) }), services[i].mode,
                                             length % 2, 0x801, { apdu, length }, sheet_for(i, rules), room });
    }
}

static void test_modes(void)
{
    for (size_t i = 0; i < SERVICES; i++) {
        uint8_t apdu[16];
        size_t length = unhex(services[i].apdu, apdu);
        for (int rules = 0; rules < RULES; rules++)
            for (int mode = 0; mode < 256; mode++)
                for (int open = 0; open < 2; open++)
                    try_everywhere(&(event){ with(mode % 2, (kelindap_session){ open != 0, (uint8_t)mode }), (uint8_t)mode,
                                             mode % 2, 0x801, { apdu, length }, sheet_for(i, rules), 16 });
    }
}

/* Numbers of connections, two of them of one that there is. */
static const uint8_t numbers[] = { 0, 1, 2, 3, 127, 128, 254, 255 };
enum { NUMBERS = sizeof numbers };

/* One that is none's gives 7 in mode 3, and in the other modes none is read. */
static void test_connections(void)
{
    static effect first;
    for (size_t i = 0; i < SERVICES; i++) {
        uint8_t apdu[16];
        size_t length = unhex(services[i].apdu, apdu);
        for (int rules = 0; rules < RULES; rules++)
            for (uint8_t mode = 0; mode < 5; mode++)
                for (size_t k = 0; k < NUMBERS; k++) {
                    event e = { { { { true, 1 }, { true, 3 } } }, mode, numbers[k], 0x801, { apdu, length }, sheet_for(i, rules),
                                16 };
                    const effect *f = try_everywhere(&e);
                    if (k == 0)
                        first = *f;
                    if (mode == KELINDAP_CONNECTED)
                        expect((f->reply.outcome == KELINDAP_NOT_CONNECTED) == (numbers[k] > 1), "connection %d gave %d",
                               numbers[k], f->reply.outcome);
                    else
                        expect(same_effect(&e, &first, f), "the number %d was read in mode %d", numbers[k], mode);
                }
    }
}

/* ---- the two rules ---- */

/* A request on the sheet with the rules in byte 30 and programming mode on. */
static const effect *under(uint8_t rules, kelindap_sessions sessions, uint8_t mode, uint8_t connection, uint8_t low)
{
    static uint8_t sheet[sizeof pump], apdu[2];
    memcpy(sheet, pump, sizeof sheet);
    sheet[30] = rules;
    sheet[14] |= 1;
    apdu[0] = 0x03;
    apdu[1] = low;
    return try_everywhere(&(event){ sessions, mode, connection, 0, { apdu, sizeof apdu }, { sheet, sizeof sheet }, 16 });
}

/* A Restart in every mode, on a connection open or closed, beside one open or closed: what is due, by the rules. */
static void test_restart(uint8_t rules)
{
    static const uint8_t levels[] = { 0, 1, 2, 3, 4, 255 };
    for (size_t i = 0; i < 5 * 8 * sizeof levels; i++) {
        kelindap_session own = { i % 2 != 0, levels[i / 40] };
        kelindap_sessions found = { { { i / 4 % 2 != 0, 1 }, { i / 4 % 2 != 0, 1 } } };
        uint8_t connection = (uint8_t)(i / 2 % 2), mode = (uint8_t)(i / 8 % 5);
        found.of[connection] = own;
        bool taken = (mode == KELINDAP_CONNECTED && own.open) || (mode == KELINDAP_CONNECTIONLESS && rules == 1);
        int due = taken ? KELINDAP_DONE : mode > 3 ? KELINDAP_BAD_MODE : mode == 3 ? KELINDAP_NOT_CONNECTED : KELINDAP_WRONG_MODE;
        const effect *f = under(rules, found, mode, connection, 0x80);
        expect(f->reply.outcome == due, "a Restart in mode %d under rules %d gave %d", mode, rules, f->reply.outcome);
        expect(same_sessions(f->sessions, taken ? both_closed : found), "a Restart in mode %d under rules %d: sessions", mode,
               rules);
        expect((f->sheet[14] & 1) == (taken ? 0 : 1), "a Restart in mode %d under rules %d: programming mode", mode, rules);
        expect(f->sheet[30] == rules, "a Restart in mode %d changed the rules", mode);
    }
}

/* Each code of a restart with more bits, and each type of descriptor, without and with a connection. */
static void test_codes_and_types(uint8_t rules)
{
    kelindap_sessions open = { { { true, 1 }, { true, 2 } } };
    for (uint8_t mode = KELINDAP_CONNECTIONLESS; mode <= KELINDAP_CONNECTED; mode++) {
        for (uint8_t low = 0x81; low <= 0xBF; low++)
            expect(under(rules, open, mode, low % 2, low)->reply.outcome == KELINDAP_UNKNOWN, "code 3%02Xh in mode %d under rules %d", low,
                   mode, rules);
        for (uint8_t type = 1; type <= 63; type++) {
            const effect *f = under(rules, open, mode, type % 2, type);
            bool denied = f->reply.outcome == KELINDAP_DENIED && f->reply.count == 2 && f->answer[0] == 0x03 && f->answer[1] == 0x7F;
            expect(rules == 1 ? denied : f->reply.outcome == KELINDAP_NOT_FOR_US, "type %d in mode %d under rules %d gave %d", type,
                   mode, rules, f->reply.outcome);
        }
        const effect *f = under(rules, open, mode, 0, 0);
        expect(f->reply.outcome == KELINDAP_ANSWERED && f->reply.count == 4, "type 0 in mode %d under rules %d", mode, rules);
    }
}

/* Byte 30 by edition: 0, which is old in edition 1, and in edition 2 also 1. */
static void test_rules_byte(void)
{
    static uint8_t sheet[sizeof sample];
    memcpy(sheet, sample, sizeof sheet);
    for (int edition = 1; edition <= 2; edition++)
        for (int rules = 0; rules < 256; rules++) {
            sheet[0] = (uint8_t)edition;
            sheet[30] = (uint8_t)rules;
            bool known = rules == 0 || (rules == 1 && edition == 2);
            uint8_t due = !known ? KELINDAP_S5 : edition == 1 ? KELINDAP_OLD : KELINDAP_ACCEPTED;
            expect(check_at(EXACT, (run){ sheet, sizeof sheet }) == due, "edition %d with rules %d", edition, rules);
        }
}

/* The button sets or clears bit 0 of byte 14 and nothing else. */
static void press(enum place place, run sheet, bool on, uint8_t rule)
{
    static uint8_t due[MOST_SHEET + 1], now[MOST_SHEET + 1];
    lent b = lend(SHEET, place, sheet.bytes, sheet.length);
    uint8_t outcome = kelindap_button(b.bytes, b.length, on);
    calls++;
    if (sheet.length > 0)
        memcpy(due, sheet.bytes, sheet.length);
    if (rule == 0)
        due[14] = (uint8_t)((due[14] & ~1) | on);
    take_back(&b, now, "sheet");
    expect(outcome == sheet_outcome(rule, KELINDAP_DONE), "the button gave %d under verdict %d", outcome, rule);
    expect(memcmp(now, due, sheet.length) == 0, "the button left another sheet");
}

/* A conversion makes byte 0 of an old sheet 2, and the sheet is accepted then; it touches nothing else, and no other sheet. */
static void convert(enum place place, run sheet, uint8_t rule)
{
    static uint8_t due[MOST_SHEET + 1], now[MOST_SHEET + 1];
    lent b = lend(SHEET, place, sheet.bytes, sheet.length);
    uint8_t outcome = kelindap_convert(b.bytes, b.length);
    calls++;
    if (sheet.length > 0)
        memcpy(due, sheet.bytes, sheet.length);
    if (rule == KELINDAP_OLD)
        due[0] = 2;
    take_back(&b, now, "sheet");
    expect(outcome == (rule == KELINDAP_OLD ? KELINDAP_DONE : KELINDAP_BAD_SHEET), "a conversion gave %d under verdict %d", outcome,
           rule);
    expect(memcmp(now, due, sheet.length) == 0, "a conversion under verdict %d left another sheet", rule);
    if (rule == KELINDAP_OLD)
        expect(kelindap_check(now, sheet.length) == KELINDAP_ACCEPTED, "a converted sheet is not accepted");
}

/* Every call on a sheet that may be bad or old: they agree on whether it is, and such a one is left alone, but for a conversion. */
static void try_sheet(enum place place, run sheet)
{
    static const uint8_t apdu[6] = { 0x03, 0xD5, 0x01, 0x33, 0x10, 0x01 };
    uint8_t rule = check_at(place, sheet);
    press(place, sheet, true, rule);
    press(place, sheet, false, rule);
    convert(place, sheet, rule);
    try_at(place, &(event){ with(0, (kelindap_session){ true, 0 }), 2, 0, 0, { apdu, sizeof apdu }, sheet, 16 });
    if (rule == 0)
        return;
    look_up(place, sheet, (question){ BY_PROPERTY, 1, 0x33 }, none);
    look_up(place, sheet, (question){ BY_REGION, 0, 0 }, none);
    look_up(place, sheet, (question){ BY_GROUP, 0x801, 0 }, none);
    look_up(place, sheet, (question){ BY_USER, 0, 0 }, none);
}

/* On an old sheet every service in every mode gets 14, or 3, whatever else is wrong with it; converted, the sheet is the sample. */
static void test_old(void)
{
    static uint8_t converted[sizeof old];
    for (size_t i = 0; i < SERVICES; i++) {
        uint8_t apdu[20] = { 0 };
        unhex(services[i].apdu, apdu);
        for (size_t length = 0; length <= 20; length++)
            for (uint8_t mode = 0; mode < 5; mode++) {
                size_t room = length % 5 == 0 ? 15 : 16 + length % 5;
                event e = { with(mode % 2, (kelindap_session){ true, 0 }), mode, numbers[length % NUMBERS], 0x801, { apdu, length },
                            old_sheet, room };
                int due = room < 16 ? KELINDAP_NO_ROOM : KELINDAP_OLD_SHEET;
                expect(try_everywhere(&e)->reply.outcome == due, "an old sheet, mode %d, %d bytes", mode, (int)length);
            }
    }
    memcpy(converted, old, sizeof old);
    expect(kelindap_check(converted, sizeof converted) == KELINDAP_OLD, "the sample of edition 1 is not old");
    expect(kelindap_convert(converted, sizeof converted) == KELINDAP_DONE, "it is not converted");
    expect(memcmp(converted, sample, sizeof sample) == 0, "converted it is not the sample");
    expect(kelindap_convert(converted, sizeof converted) == KELINDAP_BAD_SHEET, "it is converted twice");
    calls += 4;
}

static void test_damaged(run good)
{
    static uint8_t sheet[sizeof pump];
    for (size_t at = 0; at < good.length; at++)
        for (int value = 0; value < 256; value++) {
            memcpy(sheet, good.bytes, good.length);
            sheet[at] = (uint8_t)value;
            try_sheet((enum place)(value % PLACES), (run){ sheet, good.length });
        }
}

/* Sheets cut short, also with a stated length that agrees, and sheets with bytes to spare. */
static void test_cut_sheets(run good)
{
    static uint8_t sheet[sizeof pump + 10];
    for (size_t length = 0; length <= good.length + 10; length++)
        for (enum place place = EXACT; place < PLACES; place++) {
            memset(sheet, 0, sizeof sheet);
            memcpy(sheet, good.bytes, good.length);
            try_sheet(place, (run){ sheet, length });
            put_word(sheet + 4, length);
            try_sheet(place, (run){ sheet, length });
        }
}

/* Damage to the full sheet, its contents above all. */
static void test_damaged_full_sheet(void)
{
    static uint8_t sheet[MOST_SHEET];
    for (int i = 0; i < 4000; i++) {
        memcpy(sheet, full, full_length);
        sheet[any(i % 4 == 0 ? (uint32_t)full_length : CONTENTS)] = (uint8_t)any(256);
        try_sheet((enum place)(i % PLACES), (run){ sheet, full_length });
    }
    for (size_t length = 0; length <= full_length; length += 1 + any(9)) {
        memcpy(sheet, full, full_length);
        put_word(sheet + 4, length);
        try_sheet((enum place)(length % PLACES), (run){ sheet, length });
    }
    for (size_t length = MOST_SHEET - 1; length <= MOST_SHEET; length++)
        for (enum place place = EXACT; place < PLACES; place++)
            try_sheet(place, (run){ longest, length });
}

/* ---- long runs on the full sheet ---- */

/* An APDU that often hits an entry. */
static size_t any_apdu(uint8_t apdu[20])
{
    static const uint8_t codes[][2] = {
        { 0, 0x00 }, { 0, 0x40 }, { 0, 0x80 }, { 0, 0x85 }, { 0, 0xC0 }, { 1, 0x00 }, { 3, 0xDC }, { 3, 0xDE }, { 3, 0x00 },
        { 3, 0xD5 }, { 3, 0xD7 }, { 3, 0xD8 }, { 2, 0x00 }, { 2, 0x80 }, { 3, 0xD0 }, { 3, 0xD1 }, { 3, 0xD3 }, { 2, 0xC0 },
        { 2, 0xC2 },
    };
    static const uint8_t lengths[] = { 2, 3, 3, 2, 4, 2, 8, 14, 2, 6, 8, 5, 4, 4, 5, 7, 7, 5, 5 };
    size_t k = any(sizeof codes / 2), i = any(PROPERTIES), n = 1 + any(12), length = lengths[k];
    for (size_t j = 0; j < 20; j++)
        apdu[j] = (uint8_t)any(256);
    apdu[0] = (uint8_t)(apdu[0] << 2 | codes[k][0]);
    apdu[1] = codes[k][1];
    if (codes[k][0] == 2 && codes[k][1] >= 0xC0) { /* user memory: n, then the address */
        apdu[2] = (uint8_t)n;
        put_word(apdu + 3, user_address(i % USERS) + any(70));
        length = codes[k][1] == 0xC0 ? 5 : 5 + n;
    } else if (codes[k][0] == 2) { /* memory: n in the code, then the address */
        apdu[1] = (uint8_t)(apdu[1] + n);
        put_word(apdu + 2, region_address(i % REGIONS) + any(70));
        length = codes[k][1] == 0 ? 4 : 4 + n;
    } else if (codes[k][1] == 0xD0) { /* bits: n, then the address */
        apdu[2] = (uint8_t)(1 + n % 5);
        put_word(apdu + 3, region_address(i % REGIONS) + any(70));
        length = 5 + 2 * (size_t)apdu[2];
    } else if (codes[k][0] == 3 && 0xD5 <= codes[k][1] && codes[k][1] <= 0xD8) { /* a property */
        apdu[2] = (uint8_t)property_object(i);
        apdu[3] = (uint8_t)property_id(i);
        put_word(apdu + 4, 4096 * (1 + any(3)) + any(15));
        if (codes[k][1] == 0xD7)
            length = 6 + (apdu[4] >> 4) * (1 + i % 10);
    } else if (codes[k][1] == 0xDC || codes[k][1] == 0xDE) {
        memcpy(apdu + 2, sample + 6, 6);
    } else if (codes[k][1] == 0xD1 || codes[k][1] == 0xD3) { /* a key */
        memcpy(apdu + 3, full + 18 + 4 * any(3), 4);
        apdu[2] = (uint8_t)any(4);
    } else if (codes[k][0] == 0 && codes[k][1] < 0xC0 && codes[k][1] % 64 == 0 && codes[k][1] != 0) {
        length = 2 + any(15);
    }
    return length > 16 || any(50) == 0 ? any(21) : length;
}

static void test_long_run(void)
{
    static uint8_t sheet[MOST_SHEET], apdu[20];
    unsigned long seen[16] = { 0 };
    kelindap_sessions sessions = kelindap_fresh();
    memcpy(sheet, full, full_length);
    for (int i = 0; i < 30000; i++) {
        sheet[30] = (uint8_t)(i / 15000); /* the second half under the later rules */
        if (any(20) == 0)
            kelindap_connect(&sessions, (uint8_t)any(3));
        if (any(200) == 0)
            sessions.of[any(2)].level = (uint8_t)any(5);
        if (any(100) == 0)
            kelindap_button(sheet, full_length, any(2) == 0);
        event e = { sessions, (uint8_t)any(4), (uint8_t)any(2), (uint16_t)group_address(any(GROUPS)),
                    { apdu, any_apdu(apdu) }, { sheet, full_length }, 16 + any(5) };
        const effect *f = try_at((enum place)(i % PLACES), &e);
        seen[f->reply.outcome % 16]++;
        sessions = f->sessions;
        memcpy(sheet, f->sheet, full_length);
        if (i % 100 == 0)
            expect(kelindap_check(sheet, full_length) == 0, "after %d requests the sheet is not accepted", i);
    }
    expect(seen[0] > 2000 && seen[1] > 500 && seen[2] > 500 && seen[10] > 500 && seen[11] > 2000,
           "the long run doesn't reach far: outcomes 0, 1, 2, 10, 11 came %lu, %lu, %lu, %lu, %lu times", seen[0], seen[1],
           seen[2], seen[10], seen[11]);
}

/* ---- ranges over the border of two regions that touch ---- */

/* A read or write of n bytes of a memory, the new ones at `data`; gives its length. */
static size_t memory_apdu(bool user, bool write, size_t address, size_t n, const uint8_t *data, uint8_t apdu[16])
{
    size_t head = user ? 5 : 4;
    apdu[0] = 0x02;
    apdu[1] = (uint8_t)(user ? (write ? 0xC2 : 0xC0) : (write ? 0x80 : 0x00) + n);
    apdu[2] = (uint8_t)n;
    put_word(apdu + head - 2, address);
    if (write)
        memcpy(apdu + head, data, n);
    return write ? head + n : head;
}

/* The region before the border and the one behind it are k and k + 1. Each one that a range touches must permit it; then
   its bytes are side by side in the sheet, and else nothing is stored. */
static void try_border(bool user, size_t k, size_t border, size_t place)
{
    static const uint8_t data[12] = { 0xE1, 0xE2, 0xE3, 0xE4, 0xE5, 0xE6, 0xE7, 0xE8, 0xE9, 0xEA, 0xEB, 0xEC };
    static uint8_t due[MOST_SHEET];
    const uint8_t *entries = full + (user ? CONTENTS - 8 * USERS : 32);
    int before = entries[8 * k + 6], behind = entries[8 * k + 14];
    for (size_t address = border - 12; address <= border; address++)
        for (size_t n = 1; n <= (user ? 11 : 12); n++)
            for (int i = 0; i < 8; i++) {
                bool write = i >= 4;
                int level = i % 4, shift = write ? 0 : 4;
                bool permitted = (address >= border || level <= (before >> shift & 15)) &&
                                 (address + n <= border || level <= (behind >> shift & 15));
                uint8_t apdu[16];
                event e = { with(n % 2, (kelindap_session){ true, (uint8_t)level }), 3, n % 2, 0, { apdu, memory_apdu(user, write, address, n, data, apdu) },
                            { full, full_length }, 16 };
                const effect *f = try_at((enum place)(address % PLACES), &e);
                size_t at = place + address - border, head = user ? 5 : 4;
                memcpy(due, full, full_length);
                if (write && permitted)
                    memcpy(due + at, data, n);
                expect(f->reply.outcome == (permitted ? KELINDAP_ANSWERED : KELINDAP_DENIED), "%d bytes at %d, level %d: %d", (int)n,
                       (int)address, level, f->reply.outcome);
                expect(f->reply.count == (permitted ? head + n : head) && (!permitted || memcmp(f->answer + head, due + at, n) == 0),
                       "%d bytes at %d, level %d: the answer", (int)n, (int)address, level);
                expect(memcmp(f->sheet, due, full_length) == 0, "%d bytes at %d, level %d: the sheet", (int)n, (int)address, level);
            }
}

static void test_ranges(void)
{
    try_border(false, 3, region_address(4), region_body[4].offset);
    try_border(true, 5, user_address(6), user_body[6].offset);
}

/* ---- sessions, and empty runs ---- */

/* A connect, or a disconnect, of this number on sessions as found. */
static void turn(enum place place, bool opens, kelindap_sessions found, uint8_t number)
{
    kelindap_sessions due = found, after;
    if (number < KELINDAP_CONNECTIONS)
        due.of[number] = (kelindap_session){ opens, 3 };
    lent b = lend(SESSIONS, place, &found, sizeof found);
    kelindap_sessions *sessions = (kelindap_sessions *)b.bytes;
    uint8_t outcome = opens ? kelindap_connect(sessions, number) : kelindap_disconnect(sessions, number);
    calls++;
    take_back(&b, &after, "sessions");
    expect(outcome == (number < KELINDAP_CONNECTIONS ? KELINDAP_DONE : KELINDAP_NOT_CONNECTED), "%s %d gave %d",
           opens ? "connect" : "disconnect", number, outcome);
    expect(same_sessions(after, due), "%s %d left other sessions", opens ? "connect" : "disconnect", number);
}

static void test_sessions(void)
{
    expect(same_sessions(kelindap_fresh(), both_closed), "fresh sessions are not closed at 3");
    for (int i = 0; i < 4 * 256; i++)
        for (size_t k = 0; k < NUMBERS; k++) {
            kelindap_session one = { i % 2 != 0, (uint8_t)(i / 4) }, two = { i / 2 % 2 != 0, (uint8_t)(255 - i / 4) };
            kelindap_sessions found = { { one, two } };
            turn((enum place)(i % PLACES), true, found, numbers[k]);
            turn((enum place)(i % PLACES), false, found, numbers[k]);
        }
    for (int number = 2; number < 256; number++) {
        turn(GUARDED, true, (kelindap_sessions){ { { false, 0 }, { true, 1 } } }, (uint8_t)number);
        turn(GUARDED, false, (kelindap_sessions){ { { true, 0 }, { true, 1 } } }, (uint8_t)number);
    }
}

/* ---- two tools ---- */

/* A request of a tool in the middle of what both do; what it leaves is found by the next. */
static void tool_asks(event *e, uint8_t connection, const char *apdu, int outcome, const char *answer)
{
    static uint8_t sheet[sizeof pump], bytes[16];
    uint8_t due[16];
    size_t count = unhex(answer, due);
    e->connection = connection;
    e->apdu = (run){ bytes, unhex(apdu, bytes) };
    const effect *f = try_everywhere(e);
    expect(f->reply.outcome == outcome && f->reply.count == count && memcmp(f->answer, due, count) == 0,
           "tool %d, %s: outcome %d, %d bytes", connection, apdu, f->reply.outcome, f->reply.count);
    e->sessions = f->sessions;
    memcpy(sheet, f->sheet, e->sheet.length);
    e->sheet.bytes = sheet;
}

static void test_two_tools(void)
{
    event e = { kelindap_fresh(), KELINDAP_CONNECTED, 0, 0, { NULL, 0 }, sample_sheet, 16 };
    kelindap_connect(&e.sessions, 0);
    kelindap_connect(&e.sessions, 1);
    /* the key of one is no key of the other, and the other's wrong key takes nothing from it */
    tool_asks(&e, 0, "03D10022222222", 0, "03D201");
    tool_asks(&e, 1, "03D7013310010384", 11, "03D601330001");
    tool_asks(&e, 1, "03D10033333333", 0, "03D203");
    tool_asks(&e, 0, "03D7013310010384", 0, "03D6013310010384");
    tool_asks(&e, 1, "03D501331001", 0, "03D6013310010384");
    kelindap_disconnect(&e.sessions, 1);
    tool_asks(&e, 1, "03D501331001", 7, "");
    tool_asks(&e, 0, "03D7013310010385", 0, "03D6013310010385");
    /* a key counts as it stands, whoever wrote it, and a level stays */
    kelindap_connect(&e.sessions, 1);
    tool_asks(&e, 1, "03D10022222222", 0, "03D201");
    tool_asks(&e, 0, "03D301ABCDEF01", 0, "03D401");
    tool_asks(&e, 1, "03D7013310010386", 0, "03D6013310010386");
    tool_asks(&e, 1, "03D10022222222", 0, "03D203");
    tool_asks(&e, 1, "03D7013310010387", 11, "03D601330001");
    tool_asks(&e, 1, "03D100ABCDEF01", 0, "03D201");
    expect(same_sessions(e.sessions, (kelindap_sessions){ { { true, 1 }, { true, 1 } } }), "two tools at level 1");
    /* a restart ends both */
    tool_asks(&e, 1, "0380", 1, "");
    tool_asks(&e, 0, "03D501331001", 7, "");
    tool_asks(&e, 1, "03D501331001", 7, "");
    calls += 4;
}

/* NULL with length 0 is an empty run, everywhere. EXACT lends NULL for it. */
static void test_nothing(void)
{
    static const uint8_t apdu[2] = { 0x03, 0x00 };
    run nothing = { NULL, 0 }, some = { apdu, 2 };
    for (int i = 0; i < 8; i++) {
        event e = { both_closed, 2, 0, 0, i & 1 ? some : nothing, i & 2 ? sample_sheet : nothing, i & 4 ? 16 : 0 };
        int due = !(i & 4) ? 3 : !(i & 2) ? 4 : !(i & 1) ? 5 : 0;
        expect(try_everywhere(&e)->reply.outcome == due, "empty runs %d gave another outcome than %d", i, due);
    }
    try_sheet(EXACT, nothing);
    expect(kelindap_check(NULL, 0) == 1, "an empty sheet breaks rule 1");
    expect(kelindap_button(NULL, 0, true) == KELINDAP_BAD_SHEET, "the button on an empty sheet");
    expect(kelindap_convert(NULL, 0) == KELINDAP_BAD_SHEET, "the conversion of an empty sheet");
    calls += 3;
}

int main(void)
{
    begin("host");
    expect(kelindap_version() == KELINDAP_VERSION, "the library has another version than its header");
    build_full_sheet();
    build_longest_sheet();
    build_other_sheets();
    test_marked_cases();
    test_sessions();
    test_connections();
    test_two_tools();
    test_nothing();
    test_lengths();
    test_modes();
    for (uint8_t rules = 0; rules < RULES; rules++) {
        test_restart(rules);
        test_codes_and_types(rules);
    }
    test_rules_byte();
    test_old();
    test_lookups_in_small_sheets();
    test_lookups_in_full_sheet();
    test_damaged(sample_sheet);
    test_damaged(old_sheet);
    test_damaged(pump_sheet);
    test_cut_sheets(sample_sheet);
    test_cut_sheets(old_sheet);
    test_cut_sheets(pump_sheet);
    test_damaged_full_sheet();
    test_ranges();
    test_long_run();
    return tell();
}
