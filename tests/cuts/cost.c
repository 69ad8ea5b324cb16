/*
 * What the calls on slots cost: a slot judged whole and in parts of 64 bytes, and all pieces of a save, of sheets of some lengths. On a
 * board instructions are those that the emulator counts; else callgrind counts them between two calls of cost_mark, and this program
 * only says what comes in which order. A row for each: what, the sheet's length, the instructions of TIMES such.
 */
#include "kelindap_slots.h"

#ifdef BOARD
#include "board.h"
#undef kelindap_slot
#undef kelindap_slot_begin
#undef kelindap_slot_more
#undef kelindap_slot_end
#undef kelindap_slot_work
#else
#include <string.h>
#include <unistd.h>
#endif

enum { MOST = 16384, TIMES = 20, PARTS = 64 };
static uint8_t sheet[MOST], slot[KELINDAP_SLOT_FRONT + MOST];
static volatile uint32_t kept; /* so that no call is left out */

static void say(const char *text)
{
    kept += (uint32_t)write(STDOUT_FILENO, text, strlen(text));
}

static void say_number(uint32_t n)
{
    static const uint32_t tens[10] = { 1000000000, 100000000, 10000000, 1000000, 100000, 10000, 1000, 100, 10, 1 };
    char digits[11] = { 0 };
    int at = 0;
    for (int k = 0; k < 10; k++) {
        char digit = '0';
        for (; n >= tens[k]; n -= tens[k]) /* no division on the smallest processor */
            digit++;
        if (at > 0 || digit > '0' || k == 9)
            digits[at++] = digit;
    }
    say(digits);
}

static void save(size_t length)
{
    uint8_t buffer[KELINDAP_SLOT_UNIT];
    for (uint8_t k = 0; k <= KELINDAP_SLOT_PIECES; k++)
        kept += kelindap_slot_work(sheet, length, 7, sizeof slot, k, buffer, sizeof buffer).work;
}

static void judge(size_t length)
{
    kept += kelindap_slot(slot, KELINDAP_SLOT_FRONT + length).refusal;
}

static void judge_in_parts(size_t length)
{
    kelindap_slot_judging j = kelindap_slot_begin(slot, KELINDAP_SLOT_FRONT, KELINDAP_SLOT_FRONT + length);
    for (size_t at = KELINDAP_SLOT_FRONT; j.left > 0; at += PARTS)
        j = kelindap_slot_more(j, slot + at, j.left < PARTS ? j.left : PARTS);
    kept += kelindap_slot_end(j).refusal;
}

static void nothing(size_t length)
{
    kept += (uint32_t)length;
}

#ifndef BOARD
void cost_mark(void);
__attribute__((noinline)) void cost_mark(void)
{
    __asm__ volatile("" ::: "memory");
}
#endif

/* The slot with the sheet in it. */
static void fill(size_t length)
{
    uint8_t buffer[KELINDAP_SLOT_UNIT];
    for (uint8_t k = 0; k < KELINDAP_SLOT_PIECES; k++) {
        kelindap_slot_piece p = kelindap_slot_work(sheet, length, 7, sizeof slot, k, buffer, sizeof buffer);
        if (p.work != KELINDAP_WORK_ERASE)
            memcpy(slot + p.at, p.work == KELINDAP_WORK_SHEET ? sheet : buffer, p.count);
    }
}

static void count(const char *what, void (*volatile act)(size_t), size_t length)
{
    fill(length);
#ifdef BOARD
    uint64_t from = instructions();
#else
    cost_mark();
#endif
    for (int i = 0; i < TIMES; i++)
        act(length);
#ifdef BOARD
    uint32_t taken = (uint32_t)(instructions() - from);
#else
    cost_mark();
    uint32_t taken = 0;
#endif
    say(what);
    say(" ");
    say_number((uint32_t)length);
    say(" ");
    say_number(taken);
    say("\n");
}

int main(void)
{
    static const size_t lengths[] = { 69, 1024, MOST };
    for (size_t i = 0; i < MOST; i++)
        sheet[i] = (uint8_t)(i * 31 + 7);
    for (size_t k = 0; k < sizeof lengths / sizeof lengths[0]; k++) {
        count("nothing", nothing, lengths[k]);
        count("judged", judge, lengths[k]);
        count("parts", judge_in_parts, lengths[k]);
        count("saved", save, lengths[k]);
    }
    return 0;
}
