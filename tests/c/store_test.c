/*
 * A host in C that trusts the store's calls with nothing: stores empty, full, near their limits and damaged, sheets with none
 * to many properties, every connection and numbers that are none's. Each call is held to a plain version of its own, written
 * from docs/STORE.md alone, byte by byte; and no byte beside its buffers is touched.
 */
#define _DEFAULT_SOURCE
#include "kelindap_store.h"
#include "lent.h"

#ifndef ROUNDS
#define ROUNDS 200000
#endif
enum { MOST_SHEET = 16384, MOST_STORE = KELINDAP_STORE_MOST };

/* ---- plain versions of the calls ---- */

static unsigned word_at(const uint8_t *s, size_t at) { return s[at] * 256u + s[at + 1]; }

static void put_word(uint8_t *s, size_t at, size_t x)
{
    s[at] = (uint8_t)(x >> 8);
    s[at + 1] = (uint8_t)x;
}

/* A store taken apart: its versions with copies of their bodies. */
typedef struct kept {
    unsigned number;
    size_t length;
    uint8_t *body;
} kept;

typedef struct versions {
    bool good;
    unsigned last;
    size_t count, end; /* of the last body */
    kept of[KELINDAP_STORE_VERSIONS + 1];
} versions;

static versions take_apart(const uint8_t *s, size_t length)
{
    versions v = { .good = false };
    if (length < 8 || length > MOST_STORE)
        return v;
    size_t n = word_at(s, 0), at = 8 + 8 * n;
    unsigned before = 0;
    if (n > 8 || at > length || s[4] != 0 || s[5] != 0 || s[6] != 0 || s[7] != 0)
        return v;
    v.last = word_at(s, 2);
    for (size_t i = 0; i < n; i++) {
        const uint8_t *entry = s + 8 + 8 * i;
        if (word_at(entry, 0) <= before || word_at(entry, 2) != 1 || word_at(entry, 4) != at)
            return v;
        before = word_at(entry, 0);
        v.of[i].number = before;
        v.of[i].length = word_at(entry, 6);
        at += v.of[i].length;
    }
    if (at > length || (n > 0 && before > v.last))
        return v;
    v.good = true;
    v.count = n;
    v.end = at;
    at = 8 + 8 * n;
    for (size_t i = 0; i < n; i++) {
        v.of[i].body = heap(v.of[i].length + 1);
        memcpy(v.of[i].body, s + at, v.of[i].length);
        at += v.of[i].length;
    }
    return v;
}

static void let_go(versions *v)
{
    for (size_t i = 0; v->good && i < v->count; i++)
        free(v->of[i].body);
}

/* Puts head, table and bodies in front of a buffer, and gives where they end. */
static size_t put_together(uint8_t *s, const versions *v)
{
    size_t at = 8 + 8 * v->count;
    memset(s, 0, 8);
    put_word(s, 0, v->count);
    put_word(s, 2, v->last);
    for (size_t i = 0; i < v->count; i++) {
        uint8_t *entry = s + 8 + 8 * i;
        put_word(entry, 0, v->of[i].number);
        put_word(entry, 2, 1);
        put_word(entry, 4, at);
        put_word(entry, 6, v->of[i].length);
        memcpy(s + at, v->of[i].body, v->of[i].length);
        at += v->of[i].length;
    }
    return at;
}

/* Where entries and bodies of an accepted sheet's properties stand. */
typedef struct extent {
    size_t count, entries, bodies, length;
} extent;

static extent extent_of(const uint8_t *sheet)
{
    extent x = { .count = sheet[2], .entries = 32 + 8u * sheet[1] };
    for (size_t i = 0; i < x.count; i++) {
        const uint8_t *entry = sheet + x.entries + 12 * i;
        if (i == 0)
            x.bodies = word_at(entry, 8);
        x.length += (size_t)entry[3] * word_at(entry, 4);
    }
    return x;
}

/* A version of these properties, in v's next place. */
static void add(versions *v, const uint8_t *sheet)
{
    extent x = extent_of(sheet);
    kept *k = &v->of[v->count++];
    k->number = ++v->last;
    k->length = 2 + 12 * x.count + x.length;
    k->body = heap(k->length);
    put_word(k->body, 0, x.count);
    memcpy(k->body + 2, sheet + x.entries, 12 * x.count);
    memcpy(k->body + 2 + 12 * x.count, sheet + x.bodies, x.length);
}

/* What is due for the sheet alone: 4, 14, or 0. */
static uint8_t refused(const uint8_t *sheet, size_t length)
{
    uint8_t rule = kelindap_check(sheet, length);
    return rule == KELINDAP_ACCEPTED || rule == KELINDAP_OLD ? rule : 4;
}

static kelindap_saved plain_save(const uint8_t *sheet, size_t sheet_length, uint8_t *store, size_t length)
{
    if (refused(sheet, sheet_length) != 0)
        return (kelindap_saved){ refused(sheet, sheet_length), 0 };
    versions v = take_apart(store, length);
    kelindap_saved r = { 0, 0 };
    extent x = extent_of(sheet);
    if (!v.good)
        r.outcome = 30;
    else if (v.last == 65535)
        r.outcome = 31;
    else if (v.count == 8)
        r.outcome = 32;
    else if (v.end + 8 + 2 + 12 * x.count + x.length > length)
        r.outcome = 33;
    else {
        add(&v, sheet);
        put_together(store, &v);
        r.number = (uint16_t)v.last;
    }
    let_go(&v);
    return r;
}

static uint8_t judge_version(const uint8_t *sheet, extent x, const kept *k)
{
    if (k->length != 2 + 12 * x.count + x.length || word_at(k->body, 0) != x.count)
        return 36;
    for (size_t i = 0; i < 12 * x.count; i++)
        if (i % 12 != 6 && i % 12 != 7 && k->body[2 + i] != sheet[x.entries + i])
            return 36;
    for (size_t i = 0; i < x.count; i++)
        if (word_at(k->body, 2 + 12 * i + 6) > word_at(sheet, x.entries + 12 * i + 4))
            return 37;
    return 1;
}

static uint8_t plain_restore(kelindap_sessions q, uint8_t c, uint8_t *sheet, size_t sheet_length, const uint8_t *store,
                             size_t length, size_t number)
{
    if (refused(sheet, sheet_length) != 0)
        return refused(sheet, sheet_length);
    versions v = take_apart(store, length);
    uint8_t r = v.good ? 34 : 30;
    for (size_t i = 0; v.good && i < v.count; i++) {
        const kept *k = &v.of[i];
        if (k->number != number)
            continue;
        extent x = extent_of(sheet);
        r = c > 1 || !q.of[c].open || q.of[c].level != 0 ? 35 : judge_version(sheet, x, k);
        if (r == 1) {
            memcpy(sheet + x.entries, k->body + 2, 12 * x.count);
            memcpy(sheet + x.bodies, k->body + 2 + 12 * x.count, x.length);
        }
    }
    let_go(&v);
    return r;
}

static uint8_t plain_remove(uint8_t *store, size_t length, size_t number)
{
    versions v = take_apart(store, length);
    uint8_t r = v.good ? 34 : 30;
    for (size_t i = 0; v.good && i < v.count; i++) {
        if (v.of[i].number != number)
            continue;
        free(v.of[i].body);
        v.count--;
        for (; i < v.count; i++)
            v.of[i] = v.of[i + 1];
        size_t end = put_together(store, &v);
        memset(store + end, 0, v.end - end);
        r = 1;
    }
    let_go(&v);
    return r;
}

/* ---- the calls, in every place ---- */

static uint8_t now_store[MOST_STORE + 1], now_sheet[MOST_SHEET + 1];

static void same(run due, const uint8_t *found, const char *what)
{
    expect(due.length == 0 || memcmp(due.bytes, found, due.length) == 0, "the %s is not what is due", what);
}

static unsigned listed;

/* Whether it is good, and what it keeps: each version, and none behind the last. */
static void try_check(enum place place, run store)
{
    lent b = lend(STORE, place, store.bytes, store.length);
    uint8_t r = kelindap_store_check(b.bytes, b.length);
    calls++;
    versions v = take_apart(store.bytes, store.length);
    expect(r == (v.good ? 0 : 30), "store_check gave %d", r);
    for (size_t k = 0; k <= KELINDAP_STORE_VERSIONS + 1; k++) {
        size_t at = k <= KELINDAP_STORE_VERSIONS ? k : SIZE_MAX;
        kelindap_listed kept = kelindap_kept(b.bytes, b.length, at);
        bool there = v.good && at < v.count;
        expect(kept.number == (there ? v.of[k].number : 0) && kept.length == (there ? v.of[k].length : 0),
               "version %zu is told as %d of %d bytes", at, kept.number, kept.length);
        calls++;
        listed += there;
    }
    take_back_same(&b, store.bytes, "store");
    let_go(&v);
}

/* Saves into `store` itself. */
static unsigned outcomes[256];

static kelindap_saved try_save(enum place place, run sheet, uint8_t *store, size_t length)
{
    lent a = lend(SHEET, place, sheet.bytes, sheet.length);
    lent b = lend(STORE, place, store, length);
    kelindap_saved r = kelindap_save(a.bytes, a.length, b.bytes, b.length);
    calls++;
    outcomes[r.outcome]++;
    take_back_same(&a, sheet.bytes, "sheet");
    take_back(&b, now_store, "store");
    kelindap_saved due = plain_save(sheet.bytes, sheet.length, store, length);
    expect(r.outcome == due.outcome && r.number == due.number, "save gave %d %d, due %d %d", r.outcome, r.number, due.outcome,
           due.number);
    same((run){ store, length }, now_store, "store after a save");
    return r;
}

/* Restores into `sheet` itself. */
static uint8_t try_restore(enum place place, kelindap_sessions q, uint8_t c, uint8_t *sheet, size_t sheet_length, run store,
                           size_t number)
{
    lent a = lend(SHEET, place, sheet, sheet_length);
    lent b = lend(STORE, place, store.bytes, store.length);
    uint8_t r = kelindap_restore(q, c, a.bytes, a.length, b.bytes, b.length, number);
    calls++;
    outcomes[r]++;
    take_back(&a, now_sheet, "sheet");
    take_back_same(&b, store.bytes, "store");
    uint8_t due = plain_restore(q, c, sheet, sheet_length, store.bytes, store.length, number);
    expect(r == due, "restore gave %d, due %d", r, due);
    same((run){ sheet, sheet_length }, now_sheet, "sheet after a restore");
    return r;
}

/* Removes from `store` itself. */
static uint8_t try_remove(enum place place, uint8_t *store, size_t length, size_t number)
{
    lent b = lend(STORE, place, store, length);
    uint8_t r = kelindap_remove(b.bytes, b.length, number);
    calls++;
    outcomes[r]++;
    take_back(&b, now_store, "store");
    uint8_t due = plain_remove(store, length, number);
    expect(r == due, "remove gave %d, due %d", r, due);
    same((run){ store, length }, now_store, "store after a remove");
    return r;
}

/* ---- sheets ---- */

/* A sheet with these many properties and two regions' worth of other bytes; an accepted one. */
static size_t make_sheet(uint8_t *s, size_t properties, size_t room)
{
    size_t regions = any(3), at = 32 + 8 * regions + 12 * properties;
    memset(s, 0, 32);
    s[0] = 2;
    s[1] = (uint8_t)regions;
    s[2] = (uint8_t)properties;
    for (size_t i = 6; i < 12; i++)
        s[i] = (uint8_t)any(256);
    for (size_t i = 18; i < 30; i++)
        s[i] = (uint8_t)any(256);
    for (size_t i = 0; i < regions; i++) {
        uint8_t *e = s + 32 + 8 * i;
        size_t n = 1 + any(6);
        put_word(e, 0, 256 * (i + 1));
        put_word(e, 2, n);
        put_word(e, 4, at);
        e[6] = 0x33;
        e[7] = 0;
        at += n;
    }
    for (size_t i = 0; i < properties; i++) {
        uint8_t *e = s + 32 + 8 * regions + 12 * i;
        size_t element = 1 + any(10), most = 1 + any((uint32_t)(1 + room / (10 * (properties + 1))));
        e[0] = (uint8_t)(i / 8);
        e[1] = (uint8_t)(1 + i);
        e[2] = (uint8_t)(any(2) << 7 | any(16));
        e[3] = (uint8_t)element;
        put_word(e, 4, most);
        put_word(e, 6, any((uint32_t)most + 1));
        put_word(e, 8, at);
        e[10] = (uint8_t)(any(4) << 4 | any(4));
        e[11] = 0;
        at += element * most;
    }
    for (size_t i = 32 + 8 * regions + 12 * properties; i < at; i++)
        s[i] = (uint8_t)any(256);
    put_word(s, 4, at);
    return at;
}

/* Other counts and bodies, as a tool may have written them. */
static void write_properties(uint8_t *sheet)
{
    extent x = extent_of(sheet);
    for (size_t i = 0; i < x.count; i++)
        put_word(sheet, x.entries + 12 * i + 6, any(word_at(sheet, x.entries + 12 * i + 4) + 1));
    for (size_t i = 0; i < x.length; i++)
        sheet[x.bodies + i] = (uint8_t)any(256);
}

static uint8_t sheet[MOST_SHEET + 1], other[MOST_SHEET + 1], store[MOST_STORE + 1];

static enum place any_place(void) { return (enum place)any(PLACES); }

static kelindap_sessions any_sessions(void)
{
    kelindap_sessions q = { { { any(4) != 0, (uint8_t)(any(3) ? 0 : any(5)) }, { any(2), (uint8_t)any(4) } } };
    return q;
}

/* ---- tests ---- */

static const kelindap_sessions at_zero = { { { true, 0 }, { false, 3 } } };

/* The example of docs/STORE.md. */
static void test_example(void)
{
    static const uint8_t sample[] = {
#include "../../hosts/sample_sheet.inc"
    };
    static const uint8_t twice[64] = {
        0, 2, 0, 2, 0, 0, 0, 0, 0, 1, 0, 1, 0, 24, 0, 18, 0, 2, 0, 1, 0, 42, 0, 18, 0, 1, 0x01, 0x33, 0x84, 0x02, 0, 2,
        0, 1, 0, 0x40, 0x31, 0, 0x03, 0xE8, 0, 0, 0, 1, 0x01, 0x33, 0x84, 0x02, 0, 2, 0, 2, 0, 0x40, 0x31, 0, 0x03, 0xE8, 0xBE, 0xEF,
        0xEE, 0xEE, 0xEE, 0xEE
    };
    static const uint8_t left[64] = {
        0, 1, 0, 2, 0, 0, 0, 0, 0, 2, 0, 1, 0, 16, 0, 18, 0, 1, 0x01, 0x33, 0x84, 0x02, 0, 2, 0, 2, 0, 0x40, 0x31, 0, 0x03, 0xE8,
        0xBE, 0xEF, 0, 0, 0, 0, 0, 0, 0, 0, 0, 0, 0, 0, 0, 0, 0, 0, 0, 0, 0, 0, 0, 0, 0, 0, 0, 0,
        0xEE, 0xEE, 0xEE, 0xEE
    };
    for (enum place place = EXACT; place < PLACES; place++) {
        memset(store, 0xEE, 64);
        memset(store, 0, 8);
        memcpy(sheet, sample, sizeof sample);
        expect(try_save(place, (run){ sheet, sizeof sample }, store, 64).number == 1, "the first number is not 1");
        sheet[47] = 2;
        sheet[66] = 0xBE;
        sheet[67] = 0xEF;
        expect(try_save(place, (run){ sheet, sizeof sample }, store, 64).number == 2, "the second number is not 2");
        expect(memcmp(store, twice, 64) == 0, "the example's bytes are others");
        expect(try_save(place, (run){ sheet, sizeof sample }, store, 64).outcome == 33, "a third version has room");
        expect(try_restore(place, at_zero, 0, sheet, sizeof sample, (run){ store, 64 }, 1) == 1, "the first is not restored");
        expect(memcmp(sheet, sample, sizeof sample) == 0, "the restored sheet is not the sample sheet");
        expect(try_restore(place, at_zero, 0, sheet, sizeof sample, (run){ store, 64 }, 3) == 34, "version 3 is kept");
        expect(try_restore(place, at_zero, 1, sheet, sizeof sample, (run){ store, 64 }, 1) == 35, "connection 1 is let in");
        expect(try_remove(place, store, 64, 3) == 34, "version 3 is kept");
        expect(try_remove(place, store, 64, 1) == 1, "the first is not removed");
        expect(memcmp(store, left, 64) == 0, "what is left has other bytes");
        expect(try_save(place, (run){ sheet, sizeof sample }, store, 64).number == 3, "a number is given again");
    }
}

/* Lengths at which a store begins and ends to be one. */
static void test_lengths(void)
{
    static const size_t lengths[] = { 0, 1, 7, 8, 9, 15, 16, MOST_STORE - 1, MOST_STORE };
    memset(store, 0, sizeof store);
    for (size_t i = 0; i < sizeof lengths / sizeof lengths[0]; i++)
        for (enum place place = EXACT; place < PLACES; place++)
            try_check(place, (run){ store, lengths[i] });
    expect(kelindap_store_check(store, MOST_STORE + 1) == 30, "a buffer that is too long is a store");
}

/* Anything, one thing after the other. */
static void test_runs(void)
{
    size_t length = 8, sheet_length = make_sheet(sheet, 1, 40);
    memset(store, 0, 8);
    for (int i = 0; i < ROUNDS; i++) {
        if (any(40) == 0) {
            size_t most = any(4) == 0 ? MOST_STORE - 7 : 900;
            length = 8 + any((uint32_t)most);
            for (size_t k = 0; k < length; k++)
                store[k] = (uint8_t)(k < 8 ? 0 : any(256));
            if (any(3) == 0)
                put_word(store, 2, any(2) ? 65535 - any(4) : any(65536));
        }
        if (any(25) == 0)
            sheet_length = make_sheet(sheet, any(3) == 0 ? any(65) : any(5), any(3) == 0 ? 9000 : 60);
        if (kelindap_check(sheet, sheet_length) != 0)
            give_up("a sheet of this test is not accepted");
        versions v = take_apart(store, length);
        size_t number = v.good && v.count > 0 && any(5) ? v.of[any((uint32_t)v.count)].number : any(3) ? any(10) : SIZE_MAX - any(4);
        let_go(&v);
        switch (any(10)) {
        case 0:
            try_check(any_place(), (run){ store, length });
            break;
        case 1:
        case 2:
            try_save(any_place(), (run){ sheet, sheet_length }, store, length);
            break;
        case 3:
            write_properties(sheet);
            break;
        case 4:
        case 5:
            try_restore(any_place(), any_sessions(), (uint8_t)(any(6) ? any(2) : any(256)), sheet, sheet_length, (run){ store, length },
                        number);
            break;
        case 6:
            try_remove(any_place(), store, length, number);
            break;
        case 7: { /* damage, on copies */
            static uint8_t damaged[MOST_STORE + 1];
            memcpy(damaged, store, length);
            damaged[any((uint32_t)(any(4) ? (length < 80 ? length : 80) : length))] ^= (uint8_t)(1u << any(8));
            try_check(any_place(), (run){ damaged, length });
            memcpy(other, sheet, sheet_length);
            try_restore(any_place(), at_zero, 0, other, sheet_length, (run){ damaged, length }, number);
            if (any(2))
                try_remove(any_place(), damaged, length, number);
            try_save(any_place(), (run){ sheet, sheet_length }, damaged, length);
            break;
        }
        case 8: { /* a sheet that is not accepted, or one with other entries */
            memcpy(other, sheet, sheet_length);
            other[any((uint32_t)sheet_length)] ^= (uint8_t)(1u << any(8));
            try_restore(any_place(), at_zero, 0, other, sheet_length, (run){ store, length }, number);
            break;
        }
        default: /* the sheet as it was in edition 1: old, and after a conversion what it is */
            memcpy(other, sheet, sheet_length);
            other[0] = 1;
            try_save(any_place(), (run){ other, sheet_length }, store, length);
            try_restore(any_place(), at_zero, 0, other, sheet_length, (run){ store, length }, number);
            expect(kelindap_convert(other, sheet_length) == KELINDAP_DONE, "an old sheet is not converted");
            calls++;
            same((run){ other, sheet_length }, sheet, "sheet after a conversion");
        }
    }
}

int main(void)
{
    begin("store_test");
    test_lengths();
    test_example();
    test_runs();
    expect(outcomes[14] > 0, "outcome 14 was never given");
    expect(listed > ROUNDS / 40, "only %u versions were listed", listed);
    for (int r = 30; r <= 37; r++)
        expect(outcomes[r] > 0, "outcome %d was never given", r);
    return tell();
}
