/*
 * The tunnel by a clock of the test's own, with a device that does as it is told: channels and their addresses, numbers, who hears
 * what, what could not be saved, 120 s, acknowledgements, limits.
 */
#include "log.h"
#include "tunnel.h"

#include <stdio.h>
#include <stdlib.h>
#include <string.h>

static int checks;
#define CHECK(what) ((what) ? (void)checks++ : (printf("tunnel: line %d: %s\n", __LINE__, #what), exit(1)))

static struct {
    uint8_t last[TUNNEL_DATAGRAM];
    size_t length, sent, taken, lost;
    endpoint where;
} seen;
static uint8_t sheet[32] = { [16] = 0x11, [17] = 0x05 };
static bool saves = true;
static tunnel t;

void log_line(const char *form, ...) { (void)form; }

static void note(void *to, endpoint where, const uint8_t *d, size_t n)
{
    (void)to;
    memcpy(seen.last, d, n);
    seen.length = n, seen.where = where, seen.sent++;
}
static bool take(void *to, const uint8_t *f, size_t n, uint64_t now)
{
    (void)to, (void)f, (void)n, (void)now;
    seen.taken += saves;
    return saves;
}
static void lost(void *to, uint16_t a) { (void)to, (void)a, seen.lost++; }
static const uint8_t *the_sheet(void *to) { (void)to; return sheet; }

static void start(uint16_t first)
{
    memset(&seen, 0, sizeof seen);
    memset(&t, 0, sizeof t);
    t.host = (tunnel_host){ NULL, note, take, lost, the_sheet };
    t.own = (endpoint){ 2, 3 };
    t.first_address = first;
}

static void datagram(uint16_t port, uint16_t service, const uint8_t *body, size_t n, uint64_t now)
{
    uint8_t d[TUNNEL_DATAGRAM] = { 6, 0x10, (uint8_t)(service >> 8), (uint8_t)service, 0, (uint8_t)(6 + n) };
    memcpy(d + 6, body, n);
    tunnel_take(&t, (endpoint){ 1, port }, d, 6 + n, now);
    tunnel_tick(&t, now);
}

static const uint8_t wish[20] = { 8, 1, 0, 0, 0, 0, 0, 0, 8, 1, 0, 0, 0, 0, 0, 0, 4, 4, 2, 0 };

static uint8_t connect_at(uint16_t port, uint64_t now)
{
    datagram(port, 0x0205, wish, sizeof wish, now);
    return seen.last[6];
}

/* A group write of one byte by a channel, with a number. */
static void group_write(uint16_t port, uint8_t c, uint8_t number, uint64_t now)
{
    datagram(port, 0x0420, (const uint8_t[16]){ 4, c, number, 0, 0x11, 0, 0xBC, 0xE0, 0, 0, 8, 1, 2, 0, 0x80, 7 }, 16, now);
}

static void acknowledge(uint16_t port, uint8_t c, uint8_t number, uint64_t now)
{
    datagram(port, 0x0421, (const uint8_t[4]){ 4, c, number, 0 }, 4, now);
}

static void channels(void)
{
    start(0x1103);
    for (uint16_t i = 0; i < 7; i++) { /* 1.1.5 is the device's: that channel is passed over */
        connect_at(100 + i, 0);
        CHECK(seen.length == 20 && seen.last[6] == i + 1 && seen.last[7] == 0 && seen.last[19] == (i < 2 ? 3 : 4) + i);
    }
    connect_at(200, 0);
    CHECK(seen.length == 8 && seen.last[6] == 0 && seen.last[7] == 0x24 && t.counts.refused == 1);
    /* 120 s: the second is asked for at 100 s, the others end */
    datagram(101, 0x0207, (const uint8_t[10]){ 2, 0, 8, 1 }, 10, 100000);
    CHECK(seen.last[3] == 8 && seen.last[7] == 0 && tunnel_due(&t) == 120000);
    seen.sent = 0;
    tunnel_tick(&t, 119999);
    CHECK(seen.sent == 0);
    tunnel_tick(&t, 120000);
    CHECK(seen.sent == 6 && seen.last[3] == 9 && seen.lost == 6 && tunnel_due(&t) == 220000);
    CHECK(connect_at(100, 120001) == 8); /* numbers go round: a late datagram for channel 1 finds none */
}

static void numbers(void)
{
    start(0x11F0);
    uint8_t c = connect_at(101, 0);
    seen.sent = 0;
    group_write(101, c, 255, 0);
    CHECK(seen.sent == 0 && seen.taken == 0); /* nothing was before the first */
    uint64_t now = 0;
    for (int i = 0; i < 600; i++) { /* numbers go round; each has its confirmation, which is acknowledged */
        uint8_t n = (uint8_t)i;
        now += 10;
        seen.sent = 0;
        group_write(101, c, n, now);
        CHECK(seen.sent == 2 && seen.last[10] == 0x2E && seen.last[8] == n && seen.taken == (size_t)i + 1);
        acknowledge(101, c, n, now);
        if (i % 100 == 0) {
            seen.sent = 0;
            group_write(101, c, n, now); /* once more: acknowledged, not taken */
            CHECK(seen.sent == 1 && seen.last[3] == 0x21 && seen.last[9] == 0 && seen.taken == (size_t)i + 1);
            group_write(101, c, (uint8_t)(n + 2), now);
            group_write(102, c, (uint8_t)(n + 1), now); /* from another endpoint: no such channel */
            CHECK(seen.sent == 2 && seen.last[9] == 0x21 && seen.taken == (size_t)i + 1);
        }
    }
    CHECK(t.counts.requests == 600 && t.counts.again == 6 && t.counts.limited == 0);
}

/* A frame that is not acknowledged: again after a second, the end after two. */
static void unacknowledged(void)
{
    start(0x11F0);
    uint8_t c = connect_at(101, 139000);
    tunnel_put(&t, (const uint8_t[11]){ 0x11, 0, 0xBC, 0xE0, 0x11, 5, 8, 1, 1, 0, 0 }, 11);
    seen.sent = 0;
    tunnel_tick(&t, 140000);
    CHECK(seen.sent == 1 && seen.last[10] == 0x29 && tunnel_due(&t) == 141000);
    acknowledge(101, c, 7, 140500); /* of another number */
    tunnel_tick(&t, 140999);
    CHECK(seen.sent == 1);
    tunnel_tick(&t, 141000);
    CHECK(seen.sent == 2 && seen.last[3] == 0x20);
    tunnel_tick(&t, 142000);
    CHECK(seen.sent == 3 && seen.last[3] == 0x09 && tunnel_due(&t) == UINT64_MAX && seen.lost == 1);
}

/* Who hears what; an address of two channels; the device's own. */
static void hearing(void)
{
    start(0x11F0);
    uint8_t a = connect_at(101, 0), b = connect_at(102, 0);
    const uint8_t told[10] = { 0x11, 0, 0xB0, 0x60, 0x11, 5, 0x11, 0xF1, 0, 0x81 };
    tunnel_put(&t, told, sizeof told);
    CHECK(t.channels[0].count == 0 && t.channels[1].count == 1); /* 1.1.241 is b's */
    tunnel_tick(&t, 0);
    acknowledge(102, b, 0, 0);
    /* a speaks under 1.2.3 to the device: the address is a's from then on, and b may not */
    uint8_t opens[14] = { 4, a, 0, 0, 0x11, 0, 0xB0, 0x60, 0x12, 3, 0x11, 5, 0, 0x80 };
    datagram(101, 0x0420, opens, sizeof opens, 0);
    CHECK(seen.taken == 1 && seen.last[10] == 0x2E && (seen.last[12] & 1) == 0);
    acknowledge(101, a, 0, 0);
    opens[1] = b;
    datagram(102, 0x0420, opens, sizeof opens, 0);
    CHECK(seen.taken == 1 && seen.last[10] == 0x2E && (seen.last[12] & 1) == 1); /* confirmed as not sent */
    acknowledge(102, b, 1, 0);
    /* the device gets b's address: b hears nothing that goes there, and sends nothing under it */
    sheet[17] = 0xF1;
    tunnel_put(&t, told, sizeof told);
    CHECK(t.channels[1].count == 0);
    opens[2] = 1, opens[8] = 0x11, opens[9] = 0xF1, opens[10] = 0x11, opens[11] = 0xF1;
    datagram(102, 0x0420, opens, sizeof opens, 0);
    CHECK(seen.taken == 1 && (seen.last[12] & 1) == 1);
    sheet[17] = 5;
}

/* What the device could not save was not taken, and nobody has heard it. */
static void unsaved(void)
{
    start(0x11F0);
    uint8_t a = connect_at(101, 0);
    connect_at(102, 0);
    saves = false;
    seen.sent = 0;
    group_write(101, a, 0, 0);
    CHECK(seen.sent == 0 && t.channels[0].count == 0 && t.channels[1].count == 0 && t.channels[0].in == 0);
    saves = true;
    group_write(101, a, 0, 1);
    CHECK(seen.taken == 1 && seen.sent == 3 && t.channels[0].count == 1 && t.channels[1].count == 1 && t.channels[0].in == 1);
}

static void limits(void)
{
    start(0x11F0);
    uint8_t a = connect_at(101, 0);
    size_t taken = 0;
    for (uint8_t n = 0, i = 0; i < 250; i++) {
        group_write(101, a, n, 0);
        if (seen.taken == taken)
            break;
        taken = seen.taken;
        acknowledge(101, a, n++, 0);
    }
    CHECK(taken == CLIENT_MOST && t.counts.limited == 1 && t.channels[0].limited == 1);
    uint8_t next = (uint8_t)taken;
    group_write(101, a, next, 9);
    CHECK(seen.taken == taken);
    group_write(101, a, next, 10); /* a hundredth of a second: one more */
    CHECK(seen.taken == taken + 1);
    uint8_t other = connect_at(102, 10);
    group_write(102, other, 0, 10);
    CHECK(seen.taken == taken + 2); /* another is not held back */
    /* without a channel: each address has its own */
    start(0x11F0);
    const uint8_t where[8] = { 8, 1 };
    for (int i = 0; i < 200; i++)
        datagram(101, 0x0203, where, sizeof where, 0);
    CHECK(seen.sent == GUEST_MOST && t.counts.limited == 100);
    uint8_t d[14] = { 6, 0x10, 2, 3, 0, 14, 8, 1 };
    tunnel_take(&t, (endpoint){ 9, 101 }, d, sizeof d, 0);
    CHECK(seen.sent == GUEST_MOST + 1);
    datagram(101, 0x0203, where, sizeof where, 50);
    CHECK(seen.sent == GUEST_MOST + 2); /* twenty a second */
    for (uint32_t i = 100; i < 100 + 3 * TUNNEL_GUESTS; i++) { /* strangers come and go; who was heard lately is remembered */
        tunnel_take(&t, (endpoint){ i, 101 }, d, sizeof d, 51 + i);
        tunnel_take(&t, (endpoint){ 1, 101 }, d, sizeof d, 51 + i);
    }
    CHECK(t.counts.limited > 100);
}

/* Of the group of all servers a search alone is taken; and it is answered to the HPAI. */
static void searches(void)
{
    start(0x11F0);
    uint8_t d[26] = { 6, 0x10, 2, 1, 0, 14, 8, 1, 0, 0, 0, 77, 0, 88 };
    tunnel_take_search(&t, (endpoint){ 1, 101 }, d, 14, 0);
    CHECK(seen.sent == 1 && seen.where.address == 77 && seen.where.port == 88);
    d[3] = 3;
    tunnel_take_search(&t, (endpoint){ 1, 101 }, d, 14, 0);
    memcpy(d, (const uint8_t[]){ 6, 0x10, 2, 5, 0, 26 }, 6), memcpy(d + 6, wish, sizeof wish);
    tunnel_take_search(&t, (endpoint){ 1, 101 }, d, 26, 0);
    CHECK(seen.sent == 1 && t.counts.opened == 0 && t.counts.unread == 2);
    tunnel_take(&t, (endpoint){ 1, 101 }, (const uint8_t[14]){ 6, 0x10, 2, 3, 0, 14, 8, 1, 0, 0, 0, 77, 0, 88 }, 14, 0);
    CHECK(seen.sent == 2 && seen.where.address == 1 && seen.where.port == 101); /* all else to the sender */
}

int main(void)
{
    channels();
    numbers();
    unacknowledged();
    hearing();
    unsaved();
    limits();
    searches();
    printf("tunnel: %d checks\n", checks);
}
