/*
 * Every cut of every save: the host of examples/flash.c saves sheet after sheet, and each save is made again with the power cut after
 * each byte that it erases or programs, and with each pattern of torn bytes. After a cut the unit starts with the sheet before, or with
 * the new one, and with the new one exactly if the mark was set; what stands in the slots is judged as a second reader judges it; then
 * the unit goes on, and what it saves next it starts with. A save into a slot of which a byte takes nothing any more is told as failed.
 * The first save of a new unit is cut in the same way. Some of the torn media are the ones that the next saves are made on.
 *
 *   every SAVES [SEED]
 */
#define FLASH_ROOM 256 /* short, since an erase has a cut for each byte */
#define HOST_SHEET 192
#define HOST_STORE 64
#include "flash.h"

#include <stdio.h>
#include <stdlib.h>
#include <string.h>

#include "medium.h"

#include "flash.c"

void bus_send(const uint8_t *frame, size_t length)
{
    (void)frame, (void)length;
}

static unsigned long saves, cuts, olds, news, starts, fails, save_number;

static _Noreturn void fail(const char *why)
{
    printf("every: save %lu, cut after %llu bytes, pattern %d: %s\n", save_number, (unsigned long long)worked, (int)pattern, why);
    exit(EXIT_FAILURE);
}

/* ---- a second reader: a table's check sum, the fields by hand ---- */

static uint32_t table[256];

static uint32_t sum(const uint8_t *p, size_t n)
{
    uint32_t c = 0xFFFFFFFF;
    while (n-- > 0)
        c = table[(c ^ *p++) & 255] ^ c >> 8;
    return ~c;
}

static uint32_t four(const uint8_t *p)
{
    return (uint32_t)p[0] << 24 | (uint32_t)p[1] << 16 | (uint32_t)p[2] << 8 | p[3];
}

static bool has_mark(unsigned sector)
{
    return memcmp(flash_bytes[sector], "KELIND", 6) == 0;
}

static int read_by_hand(unsigned sector)
{
    const uint8_t *s = flash_bytes[sector];
    if (!has_mark(sector))
        return KELINDAP_SLOT_UNMARKED;
    if (four(s + 40) > 32768 || four(s + 40) > FLASH_ROOM - 64)
        return KELINDAP_SLOT_LENGTH;
    return four(s + 32) == sum(s + 36, 28 + four(s + 40)) ? 0 : KELINDAP_SLOT_SUM;
}

/* The calls, of the whole and in parts of any size, give what it gives. */
static void judged_alike(unsigned sector)
{
    const uint8_t *s = flash_bytes[sector];
    kelindap_slot_state whole = kelindap_slot(s, FLASH_ROOM), parts;
    kelindap_slot_judging j = kelindap_slot_begin(s, 64 + any(3), FLASH_ROOM);
    for (size_t at = 64, n; at < FLASH_ROOM; at += n) {
        n = any(5) == 0 ? any(200) : any(20);
        n = n < FLASH_ROOM - at ? n : FLASH_ROOM - at;
        j = kelindap_slot_more(j, s + at, n);
    }
    parts = kelindap_slot_end(j);
    int due = read_by_hand(sector);
    if (whole.refusal != due || parts.refusal != due)
        fail("a slot is judged otherwise");
    if (whole.number != parts.number || whole.offset != parts.offset || whole.length != parts.length)
        fail("a slot that is judged in parts gives something else");
    if (due == 0 && (whole.number != four(s + 36) || whole.offset != 64 || whole.length != four(s + 40)))
        fail("number, place or length of a slot");
}

/* ---- sheets of any bytes ---- */

typedef struct bytes {
    size_t length;
    uint8_t at[HOST_SHEET];
} bytes;

static void draw(bytes *b)
{
    b->length = any(4) == 0 ? any(HOST_SHEET + 1) : any(70);
    for (size_t i = 0; i < b->length; i++)
        b->at[i] = any(3) == 0 ? 0xFF : (uint8_t)any(256);
}

static bool same(const kept *k, const bytes *b)
{
    return k->length == b->length && memcmp(k->bytes, b->at, b->length) == 0;
}

/* ---- a start, and a save ---- */

static void start(kept *k)
{
    power(true);
    budget = NEVER;
    memset(sheet_bytes, 0xA5, sizeof sheet_bytes); /* memory holds nothing of use after a cut */
    *k = (kept){ .sector = 0, .bytes = sheet_bytes, .most = HOST_SHEET };
    starts++;
    if (load(k) != HOST_KEPT)
        fail("nothing is left to start with");
}

/* Saves with so many bytes until the cut; true if it was finished. */
static bool save_cut(kept *k, const bytes *b, int64_t after)
{
    memcpy(k->bytes, b->at, b->length);
    k->length = b->length;
    budget = after;
    worked = 0;
    unsigned long before_save = erases[0] + erases[1];
    bool finished = save(k);
    if (finished && erases[0] + erases[1] - before_save != (MEDIUM > 0))
        fail("a save does not erase once");
    if (wrong != NULL)
        fail(wrong);
    if (finished && !powered)
        fail("a save is told as finished without power");
    return finished;
}

static uint8_t before[2][FLASH_ROOM];

static void take_back(void)
{
    memcpy(flash_bytes, before, sizeof before);
}

/* One cut, what the unit then starts with, and that it goes on. */
static void cut_at(int64_t after, uint64_t marks, const bytes *old, const bytes *new, const bytes *next)
{
    kept k;
    start(&k);
    unsigned target = k.goal.slot;
    bool finished = save_cut(&k, new, after);
    power(false);
    start(&k);
    judged_alike(0);
    judged_alike(1);
    bool is_new = same(&k, new), is_old = same(&k, old);
    cuts++;
    if (!is_new && !is_old)
        fail("neither the sheet before nor the new one");
    if (finished && !is_new)
        fail("a save that was finished is lost");
    bool marked = (uint64_t)after >= marks && has_mark(target);
    if (!(is_new && is_old) && is_new != marked)
        fail(marked ? "the mark was set, and the sheet before is there" : "the mark was not set, and the new sheet is there");
    *(is_new ? &news : &olds) += 1;
    if (!save_cut(&k, next, NEVER))
        fail("after a cut nothing can be saved");
    start(&k);
    if (!same(&k, next))
        fail("what is saved after a cut is lost");
}

/* A byte of the slot is worn out and takes nothing any more: the save is told as failed, and the sheet before is there, unless the byte
   had the right value already. */
static void worn(const bytes *old, const bytes *new)
{
    kept k;
    for (size_t at = 0; at < 64 + new->length; at++) {
        take_back();
        start(&k);
        stuck = &flash_bytes[k.goal.slot][at];
        bool finished = save_cut(&k, new, NEVER);
        start(&k);
        stuck = NULL;
        if (!same(&k, finished ? new : old))
            fail("on a slot that is worn out");
        fails += !finished;
    }
}

/* The first save of a new unit, whose medium holds anything but a mark: nothing, or the first sheet exactly if its mark was set. */
static void first_cuts(const bytes *first)
{
    static uint8_t fresh[2][FLASH_ROOM];
    kept k;
    for (int filled = 0; filled < 3; filled++) {
        for (size_t i = 0; i < sizeof fresh; i++)
            ((uint8_t *)fresh)[i] = filled == 0 ? 0xFF : filled == 1 || i % FLASH_ROOM < 6 ? 0 : (uint8_t)any(256);
        uint64_t all = 1;
        for (uint64_t after = 0; after <= all; after++)
            for (int p = 0; p < PATTERNS; p++) {
                memcpy(flash_bytes, fresh, sizeof fresh);
                pattern = (enum torn)p;
                power(true);
                k = (kept){ .sector = 0, .bytes = sheet_bytes, .most = HOST_SHEET };
                if (load(&k) != HOST_NEW || k.goal.slot != 0 || k.goal.number != 0)
                    fail("a new unit");
                bool finished = save_cut(&k, first, after == 0 && p == 0 ? NEVER : (int64_t)after);
                all = after == 0 && p == 0 ? worked : all;
                power(true);
                cuts++;
                bool found = load(&k) == HOST_KEPT;
                if (found != has_mark(0) || (finished && !found) || (found && !same(&k, first)))
                    fail("a first save");
                if (!save_cut(&k, first, NEVER))
                    fail("after a first save that was cut nothing can be saved");
                start(&k);
                if (!same(&k, first))
                    fail("what is saved after a first save that was cut is lost");
            }
    }
}

int main(int count, char **words)
{
    static bytes old, new, next;
    unsigned long most = count > 1 ? strtoul(words[1], NULL, 10) : 10;
    chance = count > 2 ? strtoull(words[2], NULL, 10) * 2 + 1 : 88172645463325252u;
    for (uint32_t i = 0; i < 256; i++) {
        table[i] = i;
        for (int k = 0; k < 8; k++)
            table[i] = table[i] & 1 ? table[i] >> 1 ^ 0xEDB88320 : table[i] >> 1;
    }
    if (sum((const uint8_t *)"123456789", 9) != 0xCBF43926)
        fail("the second check sum");
    draw(&old);
    first_cuts(&old);
    memset(flash_bytes, 0xFF, sizeof flash_bytes);
    power(true);
    kept k = { .sector = 0, .bytes = sheet_bytes, .most = HOST_SHEET };
    if (load(&k) != HOST_NEW)
        fail("a new unit");
    k.goal.number = any(2) ? 0xFFFFFFFF - any(5) : any(1000); /* the numbers go round */
    draw(&old);
    if (!save_cut(&k, &old, NEVER))
        fail("the first save");
    for (save_number = 1; save_number <= most; save_number++) {
        draw(&new);
        draw(&next);
        memcpy(before, flash_bytes, sizeof before);
        start(&k);
        if (!same(&k, &old))
            fail("the sheet before is another");
        if (!save_cut(&k, &new, NEVER))
            fail("a save with power");
        uint64_t all = worked, marks = all - 32; /* the mark's unit comes last */
        saves++;
        for (uint64_t after = 0; after <= all; after++)
            for (int p = 0; p < PATTERNS; p++) {
                pattern = (enum torn)p;
                take_back();
                cut_at((int64_t)after, marks, &old, &new, &next);
            }
        worn(&old, &new);
        /* on from the finished save, or from one that was cut somewhere */
        take_back();
        start(&k);
        pattern = (enum torn)any(PATTERNS);
        save_cut(&k, &new, any(3) == 0 ? (int64_t)any((uint32_t)all) : NEVER);
        power(false);
        start(&k);
        old = same(&k, &new) ? new : old;
    }
    printf("every: medium %d, units of %d: %lu saves, %lu cuts, %lu starts; the sheet before %lu times, the new one %lu: 0 lost, 0 half; "
           "%lu times a byte was worn out\n",
           MEDIUM, FLASH_UNIT, saves, cuts, starts, olds, news, fails);
    return EXIT_SUCCESS;
}
