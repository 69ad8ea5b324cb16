/*
 * fuzz_parts N SEED: N datagrams, right, mutated and random, and leaps of time, to tunnel and device with the library behind them,
 * without sockets. Some saves fail. After each: line and addresses within bounds; no address of two channels; an open session is of
 * an address that a channel has, and transport is open with it; the sheet is accepted; no datagram leaves while a change is not
 * saved, or after a save that failed; a frame to an individual address leaves to the channel that has it alone; no log line has a
 * key in it. With an even seed no right key is offered, and what stands below level 3 stays; with an odd one keys are offered and
 * written.
 */
#include "device.h"
#include "log.h"
#include "tunnel.h"

#include <errno.h>
#include <stdarg.h>
#include <stdio.h>
#include <stdlib.h>
#include <string.h>

static uint64_t state;
static uint32_t some(uint32_t n)
{
    state ^= state << 13, state ^= state >> 7, state ^= state << 17;
    return (uint32_t)(state >> 20) % n;
}

static const uint8_t SAMPLE[69] = {
#include "sample_sheet.inc"
};
static device d;
static tunnel t;
static uint8_t first[sizeof SAMPLE];
static size_t saves, unsaved, sent, taken, connects, levels, lines, high;
static bool failed, keyed;
enum { CLIENTS = 12, OFFERED = 64 };
static struct { uint8_t channel, out, pending, number; bool owes, manages; } clients[CLIENTS];
static uint8_t offered[OFFERED][4]; /* keys that were offered or written lately */
static size_t offers;

#define MUST(what) ((what) ? (void)0 : (fprintf(stderr, "fuzz: %s, after %zu datagrams\n", #what, taken), abort()))

/* ---- what the parts need, in place of files and standard error ---- */

const char files_program[] = "fuzz";
_Noreturn void files_give_up(const char *name, const char *what) { printf("%s %s\n", name, what); abort(); }
void files_lock(const char *path, const char *given) { (void)path, (void)given; }
bool files_load(kept *k, const char *path, const char *ending, const char *given) { (void)k, (void)path, (void)ending, (void)given; return false; }
void files_back(kept *k) { memcpy(k->bytes, k->saved, sizeof k->bytes); }

bool files_save(kept *k)
{
    failed = some(20) == 0;
    if (failed) {
        errno = ENOSPC;
        unsaved++;
        return false;
    }
    memcpy(k->saved, k->bytes, sizeof k->saved);
    saves++;
    return true;
}

static void no_key(const char *line, const uint8_t key[4])
{
    char digits[16], spaced[16];
    sprintf(digits, "%02x%02x%02x%02x", key[0], key[1], key[2], key[3]);
    sprintf(spaced, "%02x %02x %02x %02x", key[0], key[1], key[2], key[3]);
    MUST(strstr(line, digits) == NULL);
    MUST(strstr(line, spaced) == NULL);
}

void log_line(const char *form, ...)
{
    char line[LOG_LINE];
    va_list more;
    va_start(more, form);
    int n = vsnprintf(line, sizeof line, form, more);
    va_end(more);
    MUST(n > 0 && (size_t)n < sizeof line && strchr(line, '\n') == NULL);
    lines++;
    for (size_t i = 0; i < 3; i++)
        no_key(line, d.sheet.bytes + 18 + 4 * i);
    for (size_t i = 0; i < OFFERED && i < offers; i++)
        no_key(line, offered[i]);
}

static bool has(const channel *c, uint16_t a);

static void leave(void *to, endpoint where, const uint8_t *b, size_t n)
{
    (void)to;
    sent++;
    MUST(!failed);
    MUST(memcmp(d.sheet.saved, d.sheet.bytes, sizeof SAMPLE) == 0);
    MUST(n >= 8 && b[0] == 6 && b[1] == 0x10 && (size_t)(b[4] << 8 | b[5]) == n);
    if (b[2] == 4 && b[3] == 0x20 && b[10] == 0x29 && b[13] < 0x80) { /* to one address: to the channel that has it */
        const channel *of = NULL;
        for (size_t i = 0; i < TUNNEL_CHANNELS; i++)
            of = t.channels[i].number == b[7] ? &t.channels[i] : of;
        MUST(of != NULL && of->data.port == where.port && has(of, (uint16_t)(b[16] << 8 | b[17])));
    }
    unsigned c = where.port - 1000u;
    if (c >= CLIENTS)
        return;
    if (b[2] == 2 && b[3] == 6 && b[7] == 0)
        clients[c].channel = b[6], clients[c].out = 0, clients[c].manages = n == 18, connects++;
    if ((b[2] == 4 && b[3] == 0x21) || (b[2] == 3 && b[3] == 0x11)) {
        if (b[9] == 0 && b[7] == clients[c].channel)
            clients[c].out = (uint8_t)(b[8] + 1);
    }
    if ((b[2] == 4 && b[3] == 0x20) || (b[2] == 3 && b[3] == 0x10))
        clients[c].owes = true, clients[c].pending = b[7], clients[c].number = b[8];
}
static bool take(void *to, const uint8_t *f, size_t n, uint64_t now) { (void)to; return device_take(&d, f, n, now); }
static void lost(void *to, uint16_t a) { (void)to; device_lost(&d, a); }
static const uint8_t *sheet(void *to) { (void)to; return d.sheet.bytes; }
static void bus(void *to, const uint8_t *f, size_t n) { (void)to; tunnel_put(&t, f, n); }

static bool has(const channel *c, uint16_t a)
{
    for (size_t i = 0; c->number != 0 && i < c->address_count; i++)
        if (c->addresses[i] == a)
            return true;
    return false;
}

static void look(void)
{
    for (size_t i = 0; i < TUNNEL_CHANNELS; i++) {
        const channel *c = &t.channels[i];
        MUST(c->count <= TUNNEL_LINE && c->first < TUNNEL_LINE && c->address_count <= TUNNEL_ADDRESSES);
        for (size_t k = 0; k < i; k++)
            for (size_t a = 0; a < c->address_count; a++)
                MUST(c->number == 0 || !has(&t.channels[k], c->addresses[a]));
    }
    for (size_t s = 0; s < KELINDAP_CONNECTIONS; s++) {
        bool found = false;
        for (size_t i = 0; i < TUNNEL_CHANNELS; i++)
            found = found || has(&t.channels[i], d.link.address[s]);
        MUST(!d.link.sessions.of[s].open || found);
        MUST(d.link.sessions.of[s].open == d.transport[s].open);
        MUST(d.transport[s].count <= TRANSPORT_LINE && d.transport[s].first < TRANSPORT_LINE);
        levels += d.link.sessions.of[s].open;
        high += d.link.sessions.of[s].open && d.link.sessions.of[s].level < 3;
    }
    MUST(memcmp(d.sheet.saved, d.sheet.bytes, sizeof SAMPLE) == 0);
    const uint8_t *now = d.sheet.bytes; /* keys and contents, and the property at level 1; the memory is open to all here */
    MUST(keyed || (memcmp(first + 18, now + 18, 42) == 0 && memcmp(first + 64, now + 64, 4) == 0));
}

static size_t put_apdu(uint8_t *out)
{
    static const uint8_t known[][8] = { { 3, 0xD5, 1, 0x33, 0x10, 1 }, { 3, 0xD7, 1, 0x33, 0x10, 1, 9, 9 }, { 2, 0x82, 1, 0, 7, 7 },
                                        { 2, 4, 1, 0 }, { 0, 0x80, 5 }, { 0, 0 }, { 3, 0 }, { 3, 0x80 }, { 1, 0 }, { 0, 0xC0, 0x11, 7 },
                                        { 3, 0xD1, 0, 1, 2, 3, 4 } };
    static const uint8_t lengths[] = { 6, 8, 6, 4, 3, 2, 2, 2, 2, 4, 7 };
    uint32_t k = some(14);
    size_t n = k < 11 ? lengths[k] : 1 + some(16);
    for (size_t i = 0; i < n; i++)
        out[i] = k < 11 ? known[k][i] : (uint8_t)some(256);
    out[0] &= 3;
    if (k == 2 || k == 4)
        out[n - 1] = (uint8_t)some(256);
    if (keyed && k >= 9 && some(2) == 0) { /* a key of the sheet offered, or a new one written */
        bool writes = some(4) == 0;
        memcpy(out, (const uint8_t[]){ 3, writes ? 0xD3 : 0xD1, (uint8_t)some(writes ? 4 : 1) }, 3);
        for (size_t i = 0; i < 4; i++)
            out[3 + i] = (uint8_t)(1 + some(255));
        if (!writes)
            memcpy(out + 3, d.sheet.bytes + 18 + 4 * some(3), 4);
        memcpy(offered[offers++ % OFFERED], out + 3, 4);
        n = 7;
    }
    return n;
}

static size_t put_cemi(uint8_t *o, size_t c)
{
    size_t n = 0, info = some(12) == 0 ? some(60) : 0;
    uint16_t device_is = (uint16_t)(d.sheet.bytes[16] << 8 | d.sheet.bytes[17]);
    bool group = some(4) == 0;
    uint16_t source = (uint16_t)(some(3) != 0 ? 0 : some(5) == 0 ? some(65536) : 0x1200 + some(80));
    uint16_t to = group ? (some(3) != 0 ? 0x0801 : some(2) * some(65536)) : (some(8) != 0 ? device_is : (uint16_t)some(65536));
    o[n++] = some(15) == 0 ? (uint8_t)some(256) : 0x11;
    o[n++] = (uint8_t)info;
    for (size_t i = 0; i < info; i++)
        o[n++] = (uint8_t)some(256);
    o[n++] = some(20) == 0 ? (uint8_t)some(256) : 0xBC;
    o[n++] = (uint8_t)((group ? 0x80 : 0) | 0x60);
    o[n++] = (uint8_t)(source >> 8), o[n++] = (uint8_t)source, o[n++] = (uint8_t)(to >> 8), o[n++] = (uint8_t)to;
    size_t at = n++;
    size_t length = put_apdu(o + n);
    if (group && some(2) == 0)
        memcpy(o + n, (const uint8_t[]){ 0, 0x80, (uint8_t)some(256) }, 3), length = 3;
    uint32_t k = some(20);
    if (!group && k < 4)
        o[n] = 0x80, length = 1;
    else if (!group && k < 5)
        o[n] = 0x81, length = 1;
    else if (!group && k < 9) {
        const transport *x = &d.transport[some(2)];
        o[n] = (uint8_t)(0xC2 | (some(4) == 0) | (some(3) != 0 ? (x->out - x->count) & 15 : some(16)) << 2), length = 1;
    } else if (!group && k < 18)
        o[n] |= (uint8_t)(0x40 | (some(4) != 0 ? d.transport[some(2)].in : some(16)) << 2);
    o[at] = (uint8_t)(length - 1);
    (void)c;
    return n + length;
}

static size_t put_datagram(uint8_t *o, size_t c)
{
    uint8_t *b = o + 6;
    size_t n = 0;
    const uint8_t hpai[8] = { 8, 1, 0, 0, 0, (uint8_t)(some(4) != 0 ? 1 + c : 0), (uint8_t)((1000 + c) >> 8), (uint8_t)(1000 + c) };
    uint32_t k = some(200);
    uint16_t service;
    if (k < 2) {
        service = 0x0201 + 2 * (uint16_t)some(2);
        memcpy(b, hpai, 8), n = 8;
    } else if (k < 5) {
        service = 0x0205;
        memcpy(b, hpai, 8), memcpy(b + 8, hpai, 8), n = 16;
        if (some(8) == 0)
            memcpy(b + n, (const uint8_t[]){ 2, 3 }, 2), n += 2;
        else
            memcpy(b + n, (const uint8_t[]){ 4, 4, 2, 0 }, 4), n += 4;
    } else if (k < 8) {
        service = k < 7 ? 0x0207 : 0x0209;
        b[0] = clients[c].channel, b[1] = 0;
        memcpy(b + 2, hpai, 8), n = 10;
    } else if (k < 12) {
        service = 0x0421;
        memcpy(b, (const uint8_t[]){ 4, clients[c].channel, (uint8_t)some(256), 0 }, 4), n = 4;
    } else {
        service = (some(20) == 0) != clients[c].manages ? 0x0310 : 0x0420;
        memcpy(b, (const uint8_t[]){ 4, clients[c].channel, clients[c].out, 0 }, 4);
        n = 4 + put_cemi(b + 4, c);
        if (service == 0x0310)
            b[4] = some(2) ? 0xFC : 0xF6, n = some(4) == 0 ? 4 + some(12) : n;
    }
    memcpy(o, (const uint8_t[]){ 6, 0x10, (uint8_t)(service >> 8), (uint8_t)service, (uint8_t)((n + 6) >> 8), (uint8_t)(n + 6) }, 6);
    return n + 6;
}

static size_t mutate(uint8_t *o, size_t n)
{
    for (uint32_t i = 1 + some(3); i > 0; i--)
        switch (some(4)) {
        case 0: case 1: if (n > 0) o[some((uint32_t)n)] = (uint8_t)some(256); break;
        case 2: n = n > 0 ? some((uint32_t)n) : 0; break;
        default: for (uint32_t k = some(40); k > 0 && n < TUNNEL_DATAGRAM; k--) o[n++] = (uint8_t)some(256);
        }
    if (some(2) && n >= 6)
        o[4] = (uint8_t)(n >> 8), o[5] = (uint8_t)n;
    return n;
}

int main(int count, char **words)
{
    size_t many = count > 1 ? strtoul(words[1], NULL, 10) : 100000;
    unsigned long seed = count > 2 ? strtoul(words[2], NULL, 10) : 0;
    state = 88172645463325252u + seed * 7919;
    keyed = seed % 2 == 1;
    memcpy(first, SAMPLE, sizeof first);
    for (size_t i = 18; i < 30; i++)
        first[i] = (uint8_t)(1 + some(255));
    first[38] = 0x33; /* memory at level 3: so that connected data stores too */
    memcpy(d.sheet.bytes, first, sizeof first), memcpy(d.sheet.saved, first, sizeof first);
    d.sheet.length = sizeof SAMPLE;
    d.link.sessions = kelindap_fresh();
    d.send = bus;
    t = (tunnel){ .host = { NULL, leave, take, lost, sheet }, .own = { 2, 3671 }, .first_address = 0x11F0 };
    uint64_t now = 1000;
    for (taken = 0; taken < many; taken++) {
        size_t c = some(CLIENTS);
        if (some(2000) == 0)
            device_button(&d, some(2));
        failed = false;
        now += some(500) == 0 ? some(4000) : some(4);
        uint8_t big[2 * TUNNEL_DATAGRAM];
        size_t n = put_datagram(big, c);
        for (size_t i = 0, all = some(10) == 0 ? n : 0; i < all; i++)
            big[i] = (uint8_t)some(256);
        if (clients[c].owes && some(10) != 0) {
            clients[c].owes = false;
            uint8_t ack[10] = { 6, 0x10, 4, 0x21, 0, 10, 4, clients[c].pending, clients[c].number, 0 };
            tunnel_take(&t, (endpoint){ 1 + (uint32_t)c, (uint16_t)(1000 + c) }, ack, 10, now);
            ack[2] = 3, ack[3] = 0x11;
            tunnel_take(&t, (endpoint){ 1 + (uint32_t)c, (uint16_t)(1000 + c) }, ack, 10, now);
            tunnel_tick(&t, now);
        }
        if (some(3) == 0)
            n = mutate(big, n);
        uint8_t *exact = malloc(n + !n); /* on the heap, so that a read past its end is seen */
        memcpy(exact, big, n);
        tunnel_take(&t, (endpoint){ 1 + (uint32_t)c, (uint16_t)(1000 + c) }, exact, n, now);
        free(exact);
        failed = false;
        device_tick(&d, now);
        tunnel_tick(&t, now);
        look();
        if (taken % 64 == 0)
            MUST(kelindap_check(d.sheet.bytes, d.sheet.length) == KELINDAP_ACCEPTED);
    }
    MUST(many < 10000 || (saves > 0 && unsaved > 0 && connects > 0 && levels > 0 && lines > 0 && (high > 0) == keyed));
    printf("fuzz: seed %lu: %zu datagrams in, %zu out, %zu channels opened, %zu frames served, %zu saves and %zu that failed, a session open in %zu "
           "looks, at a level below 3 in %zu, %zu lines\n",
           seed, taken, sent, connects, (size_t)d.counts.frames, saves, unsaved, levels, high, lines);
}
