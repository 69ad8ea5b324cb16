/*
 * A host in C that trusts the calls on slots with nothing: slots whole, damaged, unmarked, too short, of every length up to the
 * longest; judged as memory and in parts of any sizes; pairs of every kind; pieces of work with room and without. Each call is held
 * to a plain version of its own, written from kelindap_slots.h alone; and no byte beside its buffers is touched.
 */
#define _DEFAULT_SOURCE
#include "kelindap_names.h"
#include "kelindap_slots.h"
#include "lent.h"

#ifndef ROUNDS
#define ROUNDS 5000
#endif
enum { MOST = KELINDAP_SLOT_FRONT + KELINDAP_SLOT_MOST + 64 };
static const uint8_t mark[6] = { 'K', 'E', 'L', 'I', 'N', 'D' };
static unsigned long refusals[256], splits;

/* ---- plain versions of the calls ---- */

static uint32_t sum_of(const uint8_t *s, size_t length)
{
    uint32_t c = 0xFFFFFFFF;
    for (size_t i = 0; i < length; i++) {
        c ^= s[i];
        for (int k = 0; k < 8; k++)
            c = c & 1 ? c >> 1 ^ 0xEDB88320 : c >> 1;
    }
    return ~c;
}

static uint32_t number_at(const uint8_t *s) { return (uint32_t)s[0] << 24 | (uint32_t)s[1] << 16 | (uint32_t)s[2] << 8 | s[3]; }

static void put_number(uint8_t *s, uint32_t x)
{
    for (int i = 0; i < 4; i++)
        s[i] = (uint8_t)(x >> (24 - 8 * i));
}

static void plain_head(uint8_t *unit, const uint8_t *sheet, size_t length, uint32_t number)
{
    static uint8_t covered[28 + KELINDAP_SLOT_MOST];
    memset(covered, 0, 28);
    put_number(covered, number);
    put_number(covered + 4, (uint32_t)length);
    if (length > 0)
        memcpy(covered + 28, sheet, length);
    put_number(unit, sum_of(covered, 28 + length));
    memcpy(unit + 4, covered, 28);
}

static kelindap_slot_state plain_slot(const uint8_t *s, size_t length)
{
    kelindap_slot_state bad = { 0, 0, 0, 0 };
    if (length < 64)
        bad.refusal = 80;
    else if (memcmp(s, mark, 6) != 0)
        bad.refusal = 81;
    else if (number_at(s + 40) > 32768 || length - 64 < number_at(s + 40))
        bad.refusal = 82;
    else if (number_at(s + 32) != sum_of(s + 36, 28 + number_at(s + 40)))
        bad.refusal = 84;
    else
        return (kelindap_slot_state){ 0, number_at(s + 36), 64, number_at(s + 40) };
    return bad;
}

static uint8_t plain_newer(kelindap_slot_state a, kelindap_slot_state b)
{
    if (a.refusal == 0 && b.refusal == 0)
        return b.number == (uint32_t)(a.number + 1) ? 1 : 0;
    return a.refusal == 0 ? 0 : b.refusal == 0 ? 1 : 2;
}

/* ---- the calls, each held to its plain version ---- */

static bool same_state(kelindap_slot_state a, kelindap_slot_state b)
{
    return a.refusal == b.refusal && a.number == b.number && a.offset == b.offset && a.length == b.length;
}

static kelindap_slot_state try_slot(enum place place, const uint8_t *slot, size_t length)
{
    kelindap_slot_state wanted = plain_slot(slot, length);
    lent b = lend(SHEET, place, slot, length);
    kelindap_slot_state got = kelindap_slot(b.bytes, length);
    take_back_same(&b, slot, "slot");
    expect(same_state(got, wanted), "a slot of %zu bytes: %d, number %lu, %zu bytes at %zu, where it is %d, %lu, %zu, %zu", length, got.refusal,
           (unsigned long)got.number, got.length, got.offset, wanted.refusal, (unsigned long)wanted.number, wanted.length, wanted.offset);
    calls++;
    refusals[got.refusal]++;
    return got;
}

/* In parts: the front alone, or more of it; then parts of 0 bytes and up, until nothing is left or past it. */
static void try_parts(enum place place, const uint8_t *slot, size_t length)
{
    kelindap_slot_state wanted = plain_slot(slot, length);
    size_t front = length < 64 ? length : any(3) ? 64 : 64 + any((uint32_t)(length - 64) + 1), at = 64;
    lent f = lend(SHEET, place, slot, front);
    kelindap_slot_judging j = kelindap_slot_begin(f.bytes, front, length);
    take_back_same(&f, slot, "front");
    expect(j.left == (wanted.refusal == 0 || wanted.refusal == 84 ? number_at(slot + 40) : 0), "left: %lu", (unsigned long)j.left);
    uint32_t most = any(2) ? 40 : 4000;
    while (j.left != 0) {
        kelindap_slot_state early = kelindap_slot_end(j);
        expect(early.refusal == KELINDAP_SLOT_UNREAD && early.length == 0, "a part judged for the whole: %d", early.refusal);
        refusals[early.refusal]++;
        size_t part = any(most);
        /* the last part ends with the sheet, or goes on behind it, as far as the slot */
        if (part >= j.left)
            part = any(2) ? j.left : length - at < part ? length - at : part;
        uint32_t left = j.left;
        lent p = lend(STORE, place, slot + at, part);
        j = kelindap_slot_more(j, p.bytes, part);
        take_back_same(&p, slot + at, "part");
        expect(j.left == (part < left ? left - part : 0), "left after a part: %lu", (unsigned long)j.left);
        at += part;
        calls++;
        splits++;
    }
    kelindap_slot_state got = kelindap_slot_end(j);
    expect(same_state(got, wanted), "in parts: %d, number %lu, %zu bytes at %zu", got.refusal, (unsigned long)got.number, got.length, got.offset);
    calls += 2;
}

static void try_pair(kelindap_slot_state a, kelindap_slot_state b)
{
    uint8_t newer = plain_newer(a, b);
    expect(kelindap_slot_newer(a, b) == newer, "the newer of %d %lu and %d %lu", a.refusal, (unsigned long)a.number, b.refusal, (unsigned long)b.number);
    kelindap_slot_goal goal = kelindap_slot_target(a, b);
    uint32_t number = newer == 0 ? a.number + 1 : newer == 1 ? b.number + 1 : 0;
    expect(goal.slot == (newer == 0) && goal.number == number, "the goal of %d %lu and %d %lu: %d %lu", a.refusal, (unsigned long)a.number,
           b.refusal, (unsigned long)b.number, goal.slot, (unsigned long)goal.number);
    kelindap_slot_goal next = kelindap_slot_next(goal);
    expect(next.slot == 1 - goal.slot && next.number == (uint32_t)(goal.number + 1), "the next goal");
    calls += 2;
}

static kelindap_slot_piece try_work(enum place place, run sheet, uint32_t number, size_t room, uint8_t piece, uint8_t *unit, size_t unit_length)
{
    static const kelindap_slot_piece pieces[] = { { 0, KELINDAP_WORK_WRITE, 0, 32 }, { 0, KELINDAP_WORK_ERASE, 0, 0 }, { 0, KELINDAP_WORK_WRITE, 32, 32 },
                                                  { 0, KELINDAP_WORK_SHEET, 64, 0 }, { 0, KELINDAP_WORK_WRITE, 0, 32 }, { 0, KELINDAP_WORK_NONE, 0, 0 } };
    kelindap_slot_piece wanted = pieces[piece < 5 ? piece : 5];
    uint8_t filled[MOST_ROOM + 8];
    memcpy(filled, unit, unit_length);
    wanted.count = piece == 1 ? room : piece == 3 ? sheet.length : wanted.count;
    if (unit_length < 32)
        wanted = (kelindap_slot_piece){ KELINDAP_SLOT_BUFFER, 0, 0, 0 };
    else if (sheet.length > 32768 || room < 64 + sheet.length)
        wanted = (kelindap_slot_piece){ KELINDAP_SLOT_NO_ROOM, 0, 0, 0 };
    else if (piece == 0)
        memset(filled, 0, 32);
    else if (piece == 2)
        plain_head(filled, sheet.bytes, sheet.length, number);
    else if (piece == 4) {
        memset(filled, 255, 32);
        memcpy(filled, mark, 6);
    }
    lent s = lend(SHEET, place, sheet.bytes, sheet.length), u = lend(ANSWER, place, unit, unit_length);
    kelindap_slot_piece got = kelindap_slot_work(s.bytes, sheet.length, number, room, piece, u.bytes, unit_length);
    take_back_same(&s, sheet.bytes, "sheet");
    take_back(&u, unit, "buffer");
    expect(got.refusal == wanted.refusal && got.work == wanted.work && got.at == wanted.at && got.count == wanted.count,
           "piece %d: %d, work %d, %zu bytes at %zu", piece, got.refusal, got.work, got.count, got.at);
    expect(memcmp(unit, filled, unit_length) == 0, "piece %d: other bytes in the buffer", piece);
    calls++;
    refusals[got.refusal]++;
    return got;
}

/* ---- runs ---- */

static enum place some_place(void) { return (enum place)any(PLACES); }

static void test_runs(void)
{
    static uint8_t slots[2][MOST], sheet[KELINDAP_SLOT_MOST + 2], unit[MOST_ROOM + 8];
    memset(slots, 255, sizeof slots);
    kelindap_slot_state state[2] = { { 0 } };
    uint32_t number = 0xFFFFFFFF - ROUNDS / 40;
    for (unsigned r = 0; r < ROUNDS; r++) {
        size_t length = any(8) ? any(700) : any(200) ? any(9000) : 32760 + any(9), room = any(16) ? 64 + length + any(2) * any(60) : any(64 + (uint32_t)length + 1);
        for (size_t i = 0; i < 8; i++)
            sheet[any((uint32_t)length + 1)] = (uint8_t)any(256);
        uint8_t *slot = slots[r % 2];
        size_t given = any(30) ? 32 + any(2) * any(8) : any(32);
        for (uint8_t k = 0; k <= KELINDAP_SLOT_PIECES; k++) {
            memset(unit, (int)any(256), sizeof unit);
            kelindap_slot_piece piece = try_work(some_place(), (run){ sheet, length }, number, room, k, unit, given);
            if (piece.work == KELINDAP_WORK_WRITE || piece.work == KELINDAP_WORK_SHEET)
                memcpy(slot + piece.at, piece.work == KELINDAP_WORK_SHEET ? sheet : unit, piece.count);
            else if (piece.work == KELINDAP_WORK_ERASE && any(2))
                memset(slot, 255, piece.count);
        }
        try_work(some_place(), (run){ sheet, length }, number, room, (uint8_t)any(256), unit, given);
        number += any(5) ? 1 : any(3) * 65536;
        size_t all = any(8) ? room : any(MOST);
        /* whole, a bit turned somewhere, a byte of the front another, a byte shorter */
        for (int k = 0; k < 3; k++) {
            state[r % 2] = try_slot(some_place(), slot, all);
            try_parts(some_place(), slot, all);
            try_pair(state[0], state[1]);
            try_pair(state[1], state[0]);
            if (k == 0 && all > 0)
                slot[any(2) ? any((uint32_t)all) : any(all < 70 ? (uint32_t)all : 70)] ^= (uint8_t)(1u << any(8));
            if (k == 1 && all > 0)
                all--;
        }
    }
}

/* The worked slot of slots/proofs/promises/Examples.antt: the sheet 1, 2, 3 under number 7. */
static void test_example(void)
{
    uint8_t slot[67], unit[32];
    static const uint8_t sheet[3] = { 1, 2, 3 }, head[8] = { 0x9F, 0xE3, 0xAF, 0xC4, 0, 0, 0, 7 };
    memset(slot, 255, sizeof slot);
    for (uint8_t k = 0; k < KELINDAP_SLOT_PIECES; k++) {
        kelindap_slot_piece piece = try_work(EXACT, (run){ sheet, 3 }, 7, 67, k, unit, 32);
        if (piece.work != KELINDAP_WORK_ERASE)
            memcpy(slot + piece.at, piece.work == KELINDAP_WORK_SHEET ? sheet : unit, piece.count);
    }
    expect(memcmp(slot, mark, 6) == 0 && memcmp(slot + 32, head, 8) == 0 && memcmp(slot + 64, sheet, 3) == 0, "the worked slot has other bytes");
    kelindap_slot_state state = try_slot(EXACT, slot, 67);
    expect(state.refusal == 0 && state.number == 7 && state.offset == 64 && state.length == 3, "the worked slot is not judged as it is");
    /* numbers beside each other, around the last, and as far as they go */
    static const uint32_t numbers[] = { 0, 1, 2, 255, 256, 65535, 65536, 0x7FFFFFFF, 0x80000000, 0xFFFFFFFE, 0xFFFFFFFF };
    for (size_t i = 0; i < sizeof numbers / sizeof *numbers; i++)
        for (size_t k = 0; k < sizeof numbers / sizeof *numbers; k++)
            for (int bad = 0; bad < 4; bad++)
                try_pair((kelindap_slot_state){ bad & 1 ? 81 : 0, numbers[i], 64, 3 }, (kelindap_slot_state){ bad & 2 ? 84 : 0, numbers[k], 64, 70000 });
}

int main(void)
{
    begin("slots_test");
    test_example();
    test_runs();
    for (int r = 80; r <= 86; r++) {
        expect(refusals[r] > 0, "%d was never given", r);
        expect(strcmp(kelindap_outcome_name((uint8_t)r), "no outcome") != 0, "%d has no words", r);
    }
    expect(refusals[0] > ROUNDS && splits > ROUNDS, "only %lu good slots and %lu parts", refusals[0], splits);
    return tell();
}
