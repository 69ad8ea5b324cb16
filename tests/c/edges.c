/*
 * edges SOCKET WORD: what stands at the edges of the example host, by partners on the bus of examples/bus.h.
 *
 *   number    15 right after a connect, and 0: how each is acknowledged
 *   zero      a packet of four bytes that begins with 0, then one that asks for a version without a connection: what comes back
 *   silence   two silent partners, and a third that is turned away until they have gone: when each hears what
 *   repeat    an answer that is not acknowledged: when it comes, and when the connection ends
 *   lines     twenty lines at once, more than the host has descriptors for, and then a request: how many are turned away
 */
#define _POSIX_C_SOURCE 200809L
#include "bus.h"

#include <poll.h>
#include <signal.h>
#include <stdbool.h>
#include <stdio.h>
#include <time.h>

static const char *name;

static double now(void)
{
    struct timespec t;
    clock_gettime(CLOCK_MONOTONIC, &t);
    return (double)t.tv_sec + (double)t.tv_nsec / 1e9;
}

/* Whole seconds since then; a machine that is busy may be late. */
static int after(double start)
{
    return (int)(now() - start + 0.15);
}

static int line_to(void)
{
    struct sockaddr_un at;
    int bus = bus_socket(name, &at);
    return bus >= 0 && connect(bus, (struct sockaddr *)&at, sizeof at) == 0 ? bus : -1;
}

static bool put(int bus, uint8_t source, const uint8_t *tpdu, uint8_t length)
{
    uint8_t frame[32] = { 0x29, 0, 0xB0, 0x60, 0x11, source, 0x11, 0x05, (uint8_t)(length - 1) };
    memcpy(frame + 9, tpdu, length);
    return send(bus, frame, 9u + length, 0) == 9 + length;
}

/* The first octet of the TPDU that comes within so many milliseconds; 0 if none does, 1 if the line ends. */
static int hear(int bus, int wait)
{
    uint8_t frame[BUS_PACKET];
    struct pollfd at = { .fd = bus, .events = POLLIN };
    if (poll(&at, 1, wait) <= 0)
        return 0;
    ssize_t n = recv(bus, frame, sizeof frame, 0);
    return n <= 0 ? 1 : n == BUS_VERSION ? frame[0] : frame[9];
}

static const uint8_t opens[] = { T_CONNECT };
static const uint8_t first[] = { 0x43, 0x00 }, before_first[] = { 0x7F, 0x00 }; /* the descriptor is read, with numbers 0 and 15 */

static void number(void)
{
    int bus = line_to();
    put(bus, 0xE1, opens, 1), put(bus, 0xE1, before_first, 2);
    printf("15: %02x", (unsigned)hear(bus, 2000));
    put(bus, 0xE1, first, 2);
    unsigned acknowledged = (unsigned)hear(bus, 2000), answered = (unsigned)hear(bus, 2000);
    printf(", 0: %02x %02x\n", acknowledged, answered);
}

static void zero(void)
{
    int bus = line_to();
    const uint8_t none[BUS_VERSION] = { 0, 0, 0, 1 }, removes[BUS_VERSION] = { BUS_REMOVE, 0, 0, 1 };
    send(bus, none, sizeof none, 0);
    printf("0: %d", hear(bus, 300));
    send(bus, removes, sizeof removes, 0);
    printf(", remove: %d\n", hear(bus, 2000));
}

/* Whether the host has taken what was sent on a line before: it answers one who asks for a version, by 11 to who may not. */
static bool taken(int bus)
{
    const uint8_t removes[BUS_VERSION] = { BUS_REMOVE, 0, 0, 1 };
    return send(bus, removes, sizeof removes, 0) == BUS_VERSION && hear(bus, 2000) == 11;
}

static void silence(void)
{
    int two[2] = { line_to(), line_to() }, third = line_to();
    double start = now();
    for (int i = 0; i < 2; i++)
        put(two[i], (uint8_t)(0xE1 + i), opens, 1);
    if (!taken(two[0]) || !taken(two[1])) /* of lines that wait at once the host takes the third first */
        printf("two: not taken, ");
    put(third, 0xE3, opens, 1);
    printf("third: %02x, ", (unsigned)hear(third, 2000));
    unsigned a = (unsigned)hear(two[0], 9000), b = (unsigned)hear(two[1], 9000);
    printf("two: %02x %02x after %d s, ", a, b, after(start));
    put(third, 0xE3, opens, 1), put(third, 0xE3, first, 2);
    printf("third: %02x\n", (unsigned)hear(third, 2000));
}

static void repeat(void)
{
    int bus = line_to(), octet;
    double start = now();
    put(bus, 0xE4, opens, 1), put(bus, 0xE4, first, 2);
    do
        octet = hear(bus, 5000), printf("%02x at %d s, ", (unsigned)octet, after(start));
    while (octet != T_DISCONNECT && octet > 1);
    puts("end");
}

static void lines(void)
{
    int all[20], away = 0, kept = -1;
    for (int i = 0; i < 20; i++)
        all[i] = line_to();
    for (int i = 0; i < 20; i++) { /* who has no line hears its end, and who has one is answered */
        static const uint8_t asks[] = { 0x03, 0x00 };
        bool sent = put(all[i], (uint8_t)(0xC0 + i), asks, 2);
        int heard = sent ? hear(all[i], kept < 0 ? 2000 : 100) : 1;
        away += heard == 1;
        kept = heard == 3 ? i : kept;
    }
    printf("%s, %s\n", kept >= 0 ? "served" : "nobody is served", away > 0 ? "others turned away" : "nobody turned away");
}

int main(int count, char **words)
{
    static const struct { const char *word; void (*does)(void); } all[] = {
        { "number", number }, { "zero", zero }, { "silence", silence }, { "repeat", repeat }, { "lines", lines },
    };
    signal(SIGPIPE, SIG_IGN);
    name = count == 3 ? words[1] : "";
    for (size_t i = 0; i < sizeof all / sizeof *all; i++)
        if (count == 3 && strcmp(words[2], all[i].word) == 0) {
            all[i].does();
            return 0;
        }
    return 2;
}
