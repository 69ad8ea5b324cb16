/*
 * What the tests in C share: a tally, and buffers that show what a library does beside them. Every buffer of a call is
 * lent in one of several places:
 *   EXACT        a heap block of just its size, for the address sanitizer
 *   GUARDED      a heap block with guard bytes on both sides, which the address sanitizer is told of
 *   BEFORE_WALL  ending where a page without access begins, with guard bytes below
 *   AFTER_WALL   beginning where a page without access ends, with guard bytes above
 * The archives aren't compiled with the sanitizers, which see only their calls of memcpy and the like; the guard bytes
 * show what they write past a buffer, and the walls stop them if they read or write there.
 */
#ifndef LENT_H
#define LENT_H

#include <signal.h>
#include <stdarg.h>
#include <stdbool.h>
#include <stdint.h>
#include <stdio.h>
#include <stdlib.h>
#include <string.h>
#include <sys/mman.h>
#include <unistd.h>

#if defined(__has_feature)
#if __has_feature(address_sanitizer)
#define ADDRESS_SANITIZER 1
#endif
#elif defined(__SANITIZE_ADDRESS__)
#define ADDRESS_SANITIZER 1
#endif
#ifdef ADDRESS_SANITIZER
#include <sanitizer/asan_interface.h>
#define FORBID(at, n) ASAN_POISON_MEMORY_REGION(at, n)
#define ALLOW(at, n) ASAN_UNPOISON_MEMORY_REGION(at, n)
#else
#define FORBID(at, n) ((void)(at), (void)(n))
#define ALLOW(at, n) ((void)(at), (void)(n))
#endif

/* ---- the tally ---- */

static const char *test_name = "test";
static unsigned long calls, failures;

#if defined(__GNUC__)
__attribute__((format(printf, 2, 3)))
#endif
static void expect(bool holds, const char *format, ...)
{
    if (holds || failures++ >= 20)
        return;
    va_list parts;
    va_start(parts, format);
    printf("%s: ", test_name);
    vprintf(format, parts);
    printf("\n");
    va_end(parts);
}

static _Noreturn void give_up(const char *why)
{
    printf("%s: %s\n", test_name, why);
    exit(2);
}

/* A simple generator of numbers, the same in every run. */
static uint32_t seed = 20240601;

static uint32_t any(uint32_t below)
{
    seed ^= seed << 13;
    seed ^= seed >> 17;
    seed ^= seed << 5;
    return seed % below;
}

/* ---- lent buffers ---- */

enum { GUARD = 64, WALLED = 9 * 4096, MOST_ROOM = 32 };
enum place { EXACT, GUARDED, BEFORE_WALL, AFTER_WALL, PLACES };
enum role { SESSIONS, APDU, SHEET, ANSWER, STORE, MARKS, ROLES };

typedef struct run {
    const uint8_t *bytes;
    size_t length;
} run;

typedef struct lent {
    uint8_t *bytes;
    size_t length;
    uint8_t *below, *above; /* guard bytes, or NULL */
    uint8_t *block;         /* on the heap, or NULL */
} lent;

/* What is in a buffer to be filled, before. */
static uint8_t as_found[MOST_ROOM];

/* A wall was touched: the last thing the test says. */
static void at_wall(int number)
{
    static const char message[] = "memory outside the lent buffers was touched\n";
    (void)number;
    _exit(write(STDOUT_FILENO, message, sizeof message - 1) < 0 ? 3 : 2);
}

/* For each role a stretch of memory between two walls. */
static uint8_t *between_walls[ROLES];

static void build_walls(void)
{
    size_t page = (size_t)sysconf(_SC_PAGESIZE);
    for (int role = 0; role < ROLES; role++) {
        uint8_t *all = mmap(NULL, WALLED + 2 * page, PROT_NONE, MAP_PRIVATE | MAP_ANONYMOUS, -1, 0);
        if (all == MAP_FAILED || mprotect(all + page, WALLED, PROT_READ | PROT_WRITE) != 0)
            give_up("no walls can be built");
        between_walls[role] = all + page;
    }
}

static uint8_t guard_byte(size_t i)
{
    return (uint8_t)(0xB5 + 7 * i);
}

static void set_guard(uint8_t *at)
{
    for (size_t i = 0; at != NULL && i < GUARD; i++)
        at[i] = guard_byte(i);
}

static bool guard_stands(const uint8_t *at)
{
    for (size_t i = 0; at != NULL && i < GUARD; i++)
        if (at[i] != guard_byte(i))
            return false;
    return true;
}

static uint8_t *heap(size_t length)
{
    uint8_t *block = malloc(length);
    if (block == NULL && length > 0)
        give_up("no memory");
    return block;
}

/* Lends the contents; in EXACT an empty run is NULL. */
static lent lend(enum role role, enum place place, const void *contents, size_t length)
{
    lent b = { .length = length };
    switch (place) {
    case EXACT:
        b.bytes = b.block = length == 0 ? NULL : heap(length);
        break;
    case GUARDED:
        b.below = b.block = heap(GUARD + length + GUARD);
        b.bytes = b.below + GUARD;
        b.above = b.bytes + length;
        break;
    case BEFORE_WALL:
        b.bytes = between_walls[role] + WALLED - length;
        b.below = b.bytes - GUARD;
        break;
    default:
        b.bytes = between_walls[role];
        b.above = b.bytes + length;
    }
    set_guard(b.below);
    set_guard(b.above);
    if (length > 0)
        memcpy(b.bytes, contents, length);
    if (place == GUARDED) {
        FORBID(b.below, GUARD);
        FORBID(b.above, GUARD);
    }
    return b;
}

static void allow_guards(const lent *b)
{
    if (b->below != NULL)
        ALLOW(b->below, GUARD);
    if (b->above != NULL)
        ALLOW(b->above, GUARD);
}

/* Takes a buffer back: its guards stand, and `contents` gets what is in it now. */
static void take_back(lent *b, void *contents, const char *name)
{
    allow_guards(b);
    expect(guard_stands(b->below) && guard_stands(b->above), "something was written beside the %s", name);
    if (b->length > 0)
        memcpy(contents, b->bytes, b->length);
    free(b->block);
}

/* Takes back a buffer that was lent for reading only. */
static void take_back_same(lent *b, const void *contents, const char *name)
{
    expect(b->length == 0 || memcmp(b->bytes, contents, b->length) == 0, "the %s was changed", name);
    uint8_t *now = heap(b->length + 1);
    take_back(b, now, name);
    free(now);
}

/* ---- the guards themselves ---- */

/* A guard byte that is changed is seen: else all of the above says little. */
static void test_guards(void)
{
    unsigned long before = failures;
    uint8_t contents[5] = { 1, 2, 3, 4, 5 };
    for (enum place place = GUARDED; place < PLACES; place++)
        for (size_t i = 0; i < GUARD; i++) {
            lent b = lend(SHEET, place, contents, sizeof contents);
            uint8_t *guard = b.above != NULL ? b.above : b.below;
            allow_guards(&b);
            guard[i] ^= 1;
            if (guard_stands(b.below) && guard_stands(b.above))
                give_up("a changed guard byte is not seen");
            guard[i] ^= 1;
            take_back(&b, contents, "trial");
        }
    if (failures != before)
        give_up("a guard does not stand by itself");
}

/* Sets all up for a test. */
static void begin(const char *name)
{
    test_name = name;
    for (size_t i = 0; i < MOST_ROOM; i++)
        as_found[i] = (uint8_t)(0xE1 - 3 * i);
#ifndef ADDRESS_SANITIZER /* which tells more */
    signal(SIGSEGV, at_wall);
    signal(SIGBUS, at_wall);
#else
    (void)at_wall;
#endif
    setvbuf(stdout, NULL, _IOLBF, 0);
    build_walls();
    test_guards();
}

/* The last line of a test, and its exit status. */
static int tell(void)
{
#ifdef ADDRESS_SANITIZER
    const char *watch = "address sanitizer, guard bytes, walls";
#else
    const char *watch = "guard bytes, walls; no address sanitizer here";
#endif
    printf("%s: %lu calls, %lu failures (%s)\n", test_name, calls, failures, watch);
    return failures == 0 ? EXIT_SUCCESS : EXIT_FAILURE;
}

/* ---- what a request, or a frame, says that it stored ---- */

#ifdef KELINDAP_H
/* Both parts lie in the sheet, every byte outside them is as found, and a refusal has none. */
static inline void expect_named(uint8_t outcome, const kelindap_part p[KELINDAP_CHANGED], const uint8_t *before,
                                const uint8_t *after, size_t length)
{
    bool none = p[0].offset + p[0].length + p[1].offset + p[1].length == 0;
    expect(outcome <= KELINDAP_DONE || none, "outcome %d names a part", outcome);
    for (int k = 0; k < KELINDAP_CHANGED; k++)
        expect(p[k].offset + p[k].length <= length, "part %d runs past the sheet", k);
    if (length == 0 || memcmp(before, after, length) == 0)
        return;
    for (size_t i = 0; i < length; i++)
        expect(i - p[0].offset < p[0].length || i - p[1].offset < p[1].length || after[i] == before[i],
               "byte %d changed, which no part has", (int)i);
}
#endif

#endif
