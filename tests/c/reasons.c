/*
 * The reasons that the desk unit tells (hosts/unit_reasons.h), held against the library over random sheets and requests: every
 * refusal has a reason, nothing that is carried out has one, and each is true. A reason that can be mended is: with all of
 * them mended the request is carried out, with all but one it is not, and of a level neither the next weaker one does.
 * reasons [REQUESTS [SEED]]
 */
#include "../../hosts/unit_reasons.h"

#include <stdlib.h>

static uint64_t state = 20261116;
static size_t failures, seen[KEY_NONE + 1], mended_whole;

/* A number below `below`. */
static unsigned any(unsigned below)
{
    state = state * 6364136223846793005u + 1442695040888963407u;
    return (unsigned)((state >> 33) % below);
}

static bool one_in(unsigned n)
{
    return any(n) == 0;
}

/* ---- a sheet ---- */

typedef struct sheet {
    uint8_t bytes[512];
    size_t length;
} sheet;

static void put_two(uint8_t *at, size_t value)
{
    at[0] = (uint8_t)(value >> 8);
    at[1] = (uint8_t)value;
}

/* The entries of one memory's regions: some touch the one before them, some leave a gap; the last may end at ffffh. */
static uint8_t *put_regions(uint8_t *e, size_t count, size_t *body)
{
    size_t address = one_in(4) ? 65536 - 8 * count : 0x100;
    for (size_t k = 0; k < count; k++, e += 8) {
        size_t length = 1 + any(8);
        put_two(e, address);
        put_two(e + 2, length);
        put_two(e + 4, *body);
        e[6] = (uint8_t)(any(4) << 4 | any(4));
        e[7] = 0;
        *body += length;
        address += length + (one_in(3) && address + length + 9 < 65536 ? 1 : 0);
        if (address > 65528)
            address = address > 65536 - 8 * (count - k - 1) ? address : 65536 - 8 * (count - k - 1);
    }
    return e;
}

static sheet make_sheet(void)
{
    sheet s = { { 0 }, 0 };
    uint8_t *b = s.bytes;
    size_t regions = any(4), properties = any(4), groups = any(3), users = any(3);
    size_t body = 32 + 8 * regions + 12 * properties + 8 * groups + 8 * users;
    b[0] = 2, b[1] = (uint8_t)regions, b[2] = (uint8_t)properties, b[3] = (uint8_t)groups, b[15] = (uint8_t)users;
    memcpy(b + 6, "\x00\xc5\x01\x02\x03\x04\x07\xb0", 8);
    b[14] = (uint8_t)any(4);
    put_two(b + 16, 0x1105);
    memset(b + 18, 0x11, 4), memset(b + 22, 0x22, 4), memset(b + 26, 0x33, 4);
    b[30] = (uint8_t)any(2);
    uint8_t *e = put_regions(b + 32, regions, &body);
    for (size_t k = 0; k < properties; k++, e += 12) {
        size_t maximum = 1 + any(6);
        e[0] = (uint8_t)(k / 2), e[1] = (uint8_t)(50 + k), e[2] = (uint8_t)(one_in(3) ? 4 : 132), e[3] = (uint8_t)(1 + any(10));
        put_two(e + 4, maximum);
        put_two(e + 6, any((unsigned)maximum + 1));
        put_two(e + 8, body);
        e[10] = (uint8_t)(any(4) << 4 | any(4));
        body += e[3] * maximum;
    }
    for (size_t k = 0; k < groups; k++, e += 8) {
        put_two(e, 0x801 + k);
        e[2] = (uint8_t)any(4), e[3] = (uint8_t)any(8);
        put_two(e + 4, body);
        body += e[2] == 0 ? 1 : e[2];
    }
    put_regions(e, users, &body);
    s.length = body;
    put_two(b + 4, body);
    return s;
}

/* ---- a request ---- */

typedef struct trial {
    sheet sheet;
    kelindap_sessions sessions;
    uint8_t mode, connection;
    uint16_t group;
    uint8_t apdu[18];
    size_t length;
} trial;

static asked asked_of(const trial *t)
{
    return (asked){ t->sheet.bytes, t->sheet.length, t->sessions, t->mode, t->connection, t->group, t->apdu, t->length, 16 };
}

/* The outcome on copies, so that the trial stays. */
static uint8_t outcome_of(const trial *t)
{
    trial copy = *t;
    uint8_t answer[16];
    return kelindap_request(&copy.sessions, copy.sheet.bytes, copy.sheet.length, t->mode, t->connection, t->group, copy.apdu, t->length, answer, sizeof answer)
        .outcome;
}

static bool done(const trial *t)
{
    return outcome_of(t) <= KELINDAP_DONE;
}

/* Sets the APDU of a trial; false if there is none of these values. */
static bool set_pdu(trial *t, kelindap_pdu pdu, const uint8_t *data, size_t length)
{
    uint8_t out[16];
    kelindap_written w = kelindap_write(pdu, data, length, out, sizeof out);
    if (w.outcome != KELINDAP_OK)
        return false;
    memcpy(t->apdu, out, w.count);
    t->length = w.count;
    return true;
}

static size_t some_address(void)
{
    return one_in(4) ? 65536 - 1 - any(12) : 0x100 + any(24) - (one_in(6) ? 1 : 0);
}

/* A request of any kind, with values near those that the sheet has. */
static void make_request(trial *t)
{
    static const uint8_t requests[] = { 0, 1,  2,  3,  4,  5,  6,  7,  8,  8,  8,  9,  9,  9,  9,
                                        10, 11, 11, 12, 12, 13, 13, 14, 15, 15, 16, 25, 25, 27, 27 };
    uint8_t data[14];
    kelindap_pdu p = { .kind = requests[any(sizeof requests)] };
    size_t length = 0;
    for (size_t i = 0; i < sizeof data; i++)
        data[i] = (uint8_t)(one_in(3) ? 0 : any(256));
    p.serial = one_in(2) ? 0x00c501020304 : any(1000);
    p.address = (uint16_t)some_address();
    p.t = (uint8_t)(one_in(2) ? 0 : any(64));
    p.object = (uint8_t)any(3), p.id = (uint8_t)(one_in(6) ? 0 : 50 + any(5)), p.index = (uint8_t)any(4);
    p.n = (uint8_t)(one_in(8) ? any(16) : any(4)), p.s = (uint16_t)any(8);
    p.level = (uint8_t)any(5);
    p.key = one_in(2) ? 0x22222222 : 0x44444444;
    switch (p.kind) {
    case KELINDAP_GROUP_RESPONSE:
    case KELINDAP_GROUP_WRITE:
        length = any(4);
        p.v = (uint8_t)(length == 0 ? any(64) : 0);
        break;
    case KELINDAP_PROPERTY_WRITE:
        length = one_in(2) && p.n * 2 <= 10 && p.n > 0 ? p.n * 2 : 1 + any(10);
        break;
    case KELINDAP_MEMORY_WRITE:
        p.n = (uint8_t)any(13), length = p.n;
        break;
    case KELINDAP_USER_MEMORY_WRITE:
        p.n = (uint8_t)any(12), length = p.n;
        break;
    case KELINDAP_MEMORY_BIT_WRITE:
        p.n = (uint8_t)any(6), length = 2 * p.n;
        break;
    default:
        break;
    }
    if (!set_pdu(t, p, data, length))
        t->length = 0;
    if (one_in(30)) { /* any bytes at all */
        t->length = any(18);
        for (size_t i = 0; i < t->length; i++)
            t->apdu[i] = (uint8_t)any(256);
    }
    enum way way = t->length < 2 ? NO_WAY : way_of(code_of(t->apdu), t->sheet.bytes[30] != 0);
    t->mode = (uint8_t)(one_in(12) || way == NO_WAY ? any(5) : way == TO_DEVICE ? 2 + any(2) : (unsigned)way);
    t->connection = (uint8_t)(one_in(20) ? any(4) : any(2));
    t->group = (uint16_t)(0x801 + any(3));
}

static trial make_trial(void)
{
    trial t = { .sheet = make_sheet() };
    for (size_t c = 0; c < 2; c++)
        t.sessions.of[c] = (kelindap_session){ !one_in(8), (uint8_t)(one_in(20) ? any(256) : any(4)) };
    make_request(&t);
    if (one_in(40))
        t.sheet.bytes[0] = (uint8_t)(t.sheet.bytes[15] == 0 && t.sheet.bytes[30] == 0 ? any(2) : 3);
    return t;
}

/* ---- mending ---- */

/* Sends one element less of the request's beginning or end, whatever it is about: its last element stays. */
static bool set_elements(trial *t, unsigned s, unsigned n, size_t size)
{
    static const uint8_t zeros[16];
    kelindap_pdu p = kelindap_read(t->apdu, t->length);
    p.s = (uint16_t)s, p.n = (uint8_t)n;
    return set_pdu(t, p, zeros, p.kind == KELINDAP_PROPERTY_WRITE ? n * size : 0);
}

/* Gives a request the level, on a connection. */
static void set_level(trial *t, unsigned level)
{
    if (t->mode == 2) {
        t->mode = 3;
        t->connection = 0;
    }
    t->sessions.of[t->connection] = (kelindap_session){ true, (uint8_t)level };
}

/* Mends one cause; false if there is no one thing to change. */
static bool mend(trial *t, reason r)
{
    static const uint8_t zeros[16];
    kelindap_pdu p = kelindap_read(t->apdu, t->length);
    uint8_t *e = p.kind == KELINDAP_PROPERTY_READ || p.kind == KELINDAP_PROPERTY_WRITE
                     ? (uint8_t *)property_at(t->sheet.bytes, p.object, p.id)
                     : NULL;
    uint8_t *group = t->mode == 0 && t->length >= 2 ? (uint8_t *)group_at(t->sheet.bytes, t->group) : NULL;
    unsigned last = p.s + p.n - 1u;
    switch (r.cause) {
    case LEVEL_NEEDED:
        set_level(t, r.first);
        return true;
    case PROPERTY_FIXED:
        e[2] |= 128;
        return true;
    case COUNT_EXCEEDED:
        if (r.first > two_bytes(e + 4))
            return false;
        put_two(e + 6, r.first);
        return true;
    case MAXIMUM_EXCEEDED:
        return p.n <= r.second && (p.s = (uint16_t)(r.second - p.n + 1), set_pdu(t, p, t->apdu + p.data_offset, p.data_length));
    case ANSWER_TOO_LONG:
        return set_elements(t, last - 10 / e[3] + 1, 10 / e[3], e[3]);
    case DATA_LENGTH:
        return p.n * e[3] <= 10 ? set_elements(t, p.s, p.n, e[3]) : set_elements(t, last, 1, e[3]);
    case ELEMENT_ZERO_READ:
    case ELEMENT_ZERO_WRITE:
        return set_elements(t, 0, 1, 2);
    case ELEMENTS_NONE:
        if (two_bytes(e + 6) == 0)
            put_two(e + 6, 1);
        return set_elements(t, 1, 1, e[3]);
    case TYPE_OTHER:
        p.t = 0;
        return set_pdu(t, p, zeros, 0);
    case NO_PROGRAMMING:
        return kelindap_button(t->sheet.bytes, t->sheet.length, true) == KELINDAP_DONE;
    case SERIAL_OTHER:
        memcpy(t->apdu + 2, t->sheet.bytes + SHEET_SERIAL, 6);
        return true;
    case GROUP_LENGTH:
        p.v = 0;
        return set_pdu(t, p, zeros, group[2]);
    case KEY_NONE:
        p.level = 2;
        set_level(t, 2);
        return set_pdu(t, p, zeros, 0);
    case CONNECTION_CLOSED:
        t->sessions.of[t->connection].open = true;
        return true;
    case GROUP_FLAG:
        group[3] |= (uint8_t)r.first;
        return true;
    default:
        return false;
    }
}

/* ---- what must hold ---- */

static void fail(const trial *t, const char *what, const reasons *r)
{
    char text[128];
    if (failures++ >= 10)
        return;
    printf("reasons: %s: mode %d, connection %d, group %d, outcome %d, APDU ", what, t->mode, t->connection, t->group, outcome_of(t));
    for (size_t i = 0; i < t->length; i++)
        printf("%02x", t->apdu[i]);
    printf(", sheet ");
    for (size_t i = 0; i < t->sheet.length; i++)
        printf("%02x", t->sheet.bytes[i]);
    for (size_t i = 0; i < r->count; i++) {
        tell_reason(text, sizeof text, r->of[i]);
        printf("; %s", text);
    }
    putchar('\n');
}

/* Whether one byte of memory can be read at level 0. */
static bool is_there(const trial *t, size_t address, bool user)
{
    trial one = *t;
    one.mode = 3, one.connection = 0;
    one.sessions.of[0] = (kelindap_session){ true, 0 };
    kelindap_pdu p = { .kind = user ? KELINDAP_USER_MEMORY_READ : KELINDAP_MEMORY_READ, .n = 1, .address = (uint16_t)address };
    return address <= 65535 && set_pdu(&one, p, NULL, 0) && done(&one);
}

/* Whether an object has so many properties. */
static bool has_index(const trial *t, unsigned object, unsigned index)
{
    unsigned number = 0;
    for (unsigned id = 1; id < 256; id++)
        number += kelindap_property(t->sheet.bytes, t->sheet.length, (uint8_t)object, (uint8_t)id).length > 0;
    return index < number;
}

/* Whether a cause that nobody mends is true by what the library says. */
static bool is_true(const trial *t, reason r)
{
    kelindap_pdu p = kelindap_read(t->apdu, t->length);
    trial other = *t;
    switch (r.cause) {
    case PROPERTY_NONE:
        return r.first == p.object && r.second == p.id &&
               kelindap_property(t->sheet.bytes, t->sheet.length, (uint8_t)r.first, (uint8_t)r.second).length == 0;
    case INDEX_NONE:
        return !has_index(t, r.first, r.second) && r.first == p.object && r.second == p.index;
    case GROUP_NONE:
        return kelindap_group(t->sheet.bytes, t->sheet.length, t->group).length == 0;
    case MEMORY_NONE:
        for (size_t at = p.address; at < r.first; at++)
            if (!is_there(t, at, r.second != 0))
                return false;
        return !is_there(t, r.first, r.second != 0) && r.first < p.address + (unsigned)p.n;
    case MEMORY_COUNT:
        return r.first == p.n && (p.n == 0 || p.n > r.second);
    case COUNT_EXCEEDED: /* above the maximum, so that no count can mend it */
        return r.first > two_bytes(property_at(t->sheet.bytes, p.object, p.id) + 4);
    case MAXIMUM_EXCEEDED:
        return p.s + p.n - 1u == r.first && r.first > r.second;
    case CODE_UNKNOWN:
        for (other.mode = 0; other.mode < 4; other.mode++)
            if (other.mode < 3 && outcome_of(&other) != KELINDAP_UNKNOWN)
                return false;
        return way_of(r.first, false) == NO_WAY;
    case CODE_ANSWER:
        return p.outcome == KELINDAP_OK && p.kind == r.first && way_of(code_of(t->apdu), true) == NO_WAY;
    case MODE_OTHER: /* the way that is told, and no other */
        for (unsigned mode = 0; mode < 4; mode++) {
            bool taken = r.first == TO_DEVICE ? mode >= 2 : mode == r.first;
            other.mode = (uint8_t)mode;
            other.connection = 0;
            other.sessions.of[0].open = true;
            if ((outcome_of(&other) != KELINDAP_WRONG_MODE) != taken)
                return false;
        }
        return true;
    case PDU_FORM:
        return p.outcome == KELINDAP_UNFIT;
    case CONNECTION_NONE:
        return t->mode == 3 && t->connection == r.first && r.first >= KELINDAP_CONNECTIONS;
    case SHEET_RULE:
        return kelindap_check(t->sheet.bytes, t->sheet.length) == r.first && r.first >= 1 && r.first <= 9;
    case SHEET_OLD:
        return kelindap_check(t->sheet.bytes, t->sheet.length) == KELINDAP_OLD;
    case APDU_LENGTH:
        return t->length == r.first && (r.first < 2 || r.first > 16);
    case MODE_NUMBER:
        return t->mode == r.first && r.first > 3;
    default:
        return false;
    }
}

/* With every cause mended but this one, and of a level the next weaker one given, the request is not carried out. */
static bool still_refused(const trial *t, const reasons *r, size_t but)
{
    trial less = *t;
    for (size_t i = 0; i < r->count; i++)
        if (i != but)
            mend(&less, r->of[i]);
    if (r->of[but].cause == LEVEL_NEEDED && !done(&less) && r->of[but].first < 3)
        set_level(&less, r->of[but].first + 1);
    return !done(&less);
}

static void try_one(void)
{
    trial t = make_trial();
    uint8_t outcome = outcome_of(&t);
    asked a = asked_of(&t);
    reasons r = reasons_of(&a, outcome);
    bool whole = true;
    if (outcome <= KELINDAP_DONE) {
        kelindap_pdu p = kelindap_read(t.apdu, t.length);
        /* nor does one stand behind what was carried out, but that a type or a mode is taken for granted */
        if (p.kind != KELINDAP_DESCRIPTOR_READ)
            denied(&r, &a, &p);
        if (r.count != 0)
            fail(&t, "a reason for what was carried out", &r);
        return;
    }
    if (r.count == 0)
        fail(&t, "no reason", &r);
    trial all = t;
    for (size_t i = 0; i < r.count; i++) {
        trial alone = t;
        seen[r.of[i].cause]++;
        if (!mend(&alone, r.of[i])) {
            whole = false;
            if (!is_true(&t, r.of[i]))
                fail(&t, "not true", &r);
        }
        mend(&all, r.of[i]);
    }
    /* 2 and 7 are tested before what a request may, so that mending them may bring up another outcome, but never the same */
    bool first = outcome == KELINDAP_NOT_CONNECTED || (r.count > 0 && r.of[0].cause == GROUP_FLAG);
    if (whole && r.count > 0 && first && outcome_of(&all) == outcome)
        fail(&t, "mended, and the outcome is the same", &r);
    if (whole && r.count > 0 && !first && !done(&all))
        fail(&t, "all is mended, and it is not carried out", &r);
    for (size_t i = 0; whole && !first && i < r.count; i++)
        if (!still_refused(&t, &r, i))
            fail(&t, "one cause is left, and it is carried out", &r);
    mended_whole += whole;
}

int main(int argc, char **argv)
{
    unsigned long trials = argc > 1 ? strtoul(argv[1], NULL, 10) : 200000;
    size_t causes = 0;
    if (argc > 2)
        state = strtoul(argv[2], NULL, 10);
    for (unsigned long i = 0; i < trials; i++)
        try_one();
    for (size_t c = SHEET_RULE; c <= KEY_NONE; c++) {
        causes += seen[c] > 0;
        if (seen[c] == 0 && trials >= 100000)
            printf("reasons: cause %zu was never told\n", c), failures++;
    }
    printf("reasons: %lu requests, %zu causes told, %zu refusals mended whole, %zu wrong\n", trials, causes, mended_whole, failures);
    return failures == 0 ? EXIT_SUCCESS : EXIT_FAILURE;
}
