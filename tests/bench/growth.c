/*
 * What grows with what: instructions of each call by the size of its work, counted by callgrind between two marks
 * (tests/bench/growth.sh). Every call is made once before it is counted.
 */
#include "kelindap.h"
#include "kelindap_store.h"
#include "kelindap_trace.h"

#include <stdio.h>
#include <stdlib.h>
#include <string.h>

static const uint8_t sample[] = {
#include "sample_sheet.inc"
};
static uint8_t sheet[16384], store[32768], kept[32768], trace[16384], log_[18 * 512];
static size_t length;
static kelindap_sessions sessions;

/* callgrind writes its count when this is entered */
__attribute__((noinline)) void growth_mark(void) { __asm__ volatile("nop" ::: "memory"); }

#define COUNTED(call, ...) \
    do { \
        growth_mark(); \
        call; \
        growth_mark(); \
        printf(__VA_ARGS__); \
        putchar('\n'); \
    } while (0)

static void must(bool fine, const char *what)
{
    if (!fine) {
        fprintf(stderr, "growth: %s\n", what);
        exit(1);
    }
}

static void put(uint8_t *at, size_t n)
{
    at[0] = (uint8_t)(n >> 8);
    at[1] = (uint8_t)n;
}

/* r regions of 16 bytes, n properties of m elements of two bytes, n groups of two bytes; programming mode and verify on */
static void fill_in(size_t r, size_t n, size_t m)
{
    uint8_t *e = sheet + 32;
    size_t body = 32 + 8 * r + 20 * n;
    memset(sheet, 0, sizeof sheet);
    memcpy(sheet, sample, 32);
    sheet[1] = (uint8_t)r, sheet[2] = sheet[3] = (uint8_t)n, sheet[14] = 3;
    for (size_t k = 0; k < r; k++, e += 8, body += 16)
        put(e, 4096 * k), put(e + 2, 16), put(e + 4, body), e[6] = 0x32;
    for (size_t k = 0; k < n; k++, e += 12, body += 2 * m) {
        e[0] = (uint8_t)(1 + k / 16), e[1] = (uint8_t)(1 + k % 16), e[2] = 0x84, e[3] = 2, e[10] = 0x31;
        put(e + 4, m), put(e + 6, m), put(e + 8, body);
    }
    for (size_t k = 0; k < n; k++, e += 8, body += 2)
        put(e, 0x0801 + k), e[2] = 2, e[3] = 7, put(e + 4, body);
    length = body;
    put(sheet + 4, length);
    must(kelindap_check(sheet, length) == 0, "a sheet is not accepted");
    sessions = kelindap_fresh();
    kelindap_connect(&sessions, 0);
    sessions.of[0].level = 0;
}

/* reads of the last property and of the last region, writes of the last property as a trace of n events */
static void requests(size_t n)
{
    uint8_t answer[16];
    const uint8_t read[] = { 3, 0xD5, (uint8_t)(1 + (n - 1) / 16), (uint8_t)(1 + (n - 1) % 16), 0x10, 1 };
    kelindap_reply r = { 0 };
    for (int k = 0; k < 2; k++)
        if (k == 0)
            r = kelindap_request(&sessions, sheet, length, 3, 0, 0, read, sizeof read, answer, sizeof answer);
        else
            COUNTED(r = kelindap_request(&sessions, sheet, length, 3, 0, 0, read, sizeof read, answer, sizeof answer),
                    "a read of the last property, entries %zu", 16 + 2 * n);
    must(r.outcome == 0, "a property is not read");
}

static void traces(size_t n, const char *which)
{
    size_t at = 2 + 8 * n, last = sheet[2] - 1;
    kelindap_played played = { 0 };
    put(trace, n);
    for (size_t k = 0; k < n; k++, at += 8) {
        const uint8_t write[] = { 3, 0xD7, (uint8_t)(1 + last / 16), (uint8_t)(1 + last % 16), 0x10, 1, 0, (uint8_t)k };
        uint8_t *e = trace + 2 + 8 * k;
        e[0] = 0, e[1] = 3, put(e + 2, 0), put(e + 4, at), e[6] = sizeof write, e[7] = 0;
        memcpy(trace + at, write, sizeof write);
    }
    must(kelindap_trace_check(trace, at) == 0, "a trace is refused");
    COUNTED(played = kelindap_play(&sessions, sheet, length, trace, at, 0, n, log_, sizeof log_), "a trace played, %s sheet, events %zu",
            which, n);
    must(played.refusal == 0 && played.handled == n, "a trace is not played");
}

static void versions(size_t n, size_t m)
{
    uint8_t outcome = 0;
    kelindap_saved saved = { 0 };
    fill_in(1, n, m);
    memset(store, 0, sizeof store);
    must(kelindap_save(sheet, length, store, sizeof store).outcome == 0, "nothing is saved");
    COUNTED(saved = kelindap_save(sheet, length, store, sizeof store), "save, properties %zu of %zu bytes", n, 2 * m);
    COUNTED(outcome = kelindap_restore(sessions, 0, sheet, length, store, sizeof store, 1), "restore, properties %zu of %zu bytes", n, 2 * m);
    must(saved.outcome == 0 && outcome == 1, "nothing is restored");
    memcpy(kept, store, sizeof store);
    COUNTED(outcome = kelindap_remove(store, sizeof store, 1), "remove, properties %zu of %zu bytes", n, 2 * m);
    must(outcome == 1, "nothing is removed");
}

int main(void)
{
    uint8_t rule = 0;
    for (size_t n = 1; n <= 64; n *= 2) {
        fill_in(16, n, 2);
        COUNTED(rule = kelindap_check(sheet, length), "check, entries %zu", 16 + 2 * n);
        must(rule == 0, "a sheet is not accepted");
        requests(n);
    }
    for (size_t m = 2; m <= 64; m *= 4) {
        fill_in(16, 64, m);
        COUNTED(rule = kelindap_check(sheet, length), "check, entries 144, bytes %zu", length);
    }
    for (size_t n = 1; n <= 64; n *= 4)
        versions(n, 2);
    for (size_t m = 8; m <= 2048; m *= 4)
        versions(1, m);
    for (size_t n = 1; n <= 512; n *= 8) {
        fill_in(16, 64, 2);
        traces(n, "full");
    }
    return 0;
}
