/*
 * The calls of the benchmark (`bench --cases`, on standard input) one by one, each made once and then once more between two marks,
 * for tests/bench/emulated.sh to count; and between them a call that does nothing, to be taken off.
 */
#include "kelindap.h"

#include <stdio.h>
#include <stdlib.h>
#include <string.h>

static uint8_t sheet[16384], found[16384], apdu[256], answer[16];
static char text[sizeof sheet * 2 + 1], request[513];

__attribute__((noinline)) void emulated_from(void) { __asm__ volatile("" ::: "memory"); }
__attribute__((noinline)) void emulated_to(void) { __asm__ volatile("" ::: "memory"); }

__attribute__((noinline)) static kelindap_reply nothing(kelindap_sessions *q, uint8_t *s, size_t l, uint8_t mode, uint8_t c, uint16_t g,
                                                       const uint8_t *a, size_t n, uint8_t *o, size_t m)
{
    __asm__ volatile("" : : "r"(s), "r"(a), "r"(o) : "memory");
    return (kelindap_reply){ .outcome = (uint8_t)(mode + c + g + l + n + m), .count = q->of[0].level };
}

__attribute__((noinline)) static kelindap_part no_part(const uint8_t *s, size_t l)
{
    __asm__ volatile("" : : "r"(s) : "memory");
    return (kelindap_part){ l, 0 };
}

static unsigned digit(char c) { return (unsigned)(c <= '9' ? c - '0' : c - 'a' + 10); }

static size_t bytes_of(const char *hex, uint8_t *to)
{
    size_t n = 0;
    for (; hex[0] != '\0' && hex[1] != '\0'; hex += 2)
        to[n++] = (uint8_t)(digit(hex[0]) << 4 | digit(hex[1]));
    return n;
}

#define BETWEEN(call) (emulated_from(), call, emulated_to())

int main(void)
{
    char kind;
    unsigned number, group;
    while (scanf(" %c %u %u %512s %32768s%*[^\n]", &kind, &number, &group, request, text) == 5) {
        size_t length = bytes_of(text, found), n = bytes_of(request, apdu);
        volatile size_t sink = 0;
        for (int round = 0; round < 3; round++) { /* to be warm, then counted, and then with nothing done */
            kelindap_sessions q = kelindap_fresh();
            kelindap_reply r = { 0 };
            kelindap_part p = { 0 };
            uint8_t mode = (uint8_t)number, rule = 0;
            kelindap_connect(&q, 0);
            q.of[0].level = 0;
            memcpy(sheet, found, length);
            if (kind == 'r' && round < 2)
                BETWEEN(r = kelindap_request(&q, sheet, length, mode, 0, (uint16_t)group, apdu, n, answer, sizeof answer));
            else if (kind == 'r')
                BETWEEN(r = nothing(&q, sheet, length, mode, 0, (uint16_t)group, apdu, n, answer, sizeof answer));
            else if (kind == 'c' && round < 2)
                BETWEEN(rule = kelindap_check(sheet, length));
            else if (kind == 'p' && round < 2)
                BETWEEN(p = kelindap_property(sheet, length, (uint8_t)(number >> 8), mode));
            else if (kind == 'g' && round < 2)
                BETWEEN(p = kelindap_group(sheet, length, (uint16_t)number));
            else
                BETWEEN(p = no_part(sheet, length));
            sink += r.outcome + p.length + rule;
        }
    }
    return 0;
}
