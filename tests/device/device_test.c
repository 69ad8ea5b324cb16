/*
 * The device with the library behind it, files and bus being the test's own: what could not be saved has not happened, on a connection,
 * without one and at the control socket; what a Restart cuts off; whose silence ends what; and the words of the log.
 */
#include "device.h"
#include "log.h"

#include <errno.h>
#include <stdarg.h>
#include <stdio.h>
#include <stdlib.h>
#include <string.h>

static int checks;
#define CHECK(what) ((what) ? (void)checks++ : (printf("device: line %d: %s\n", __LINE__, #what), exit(1)))

static const uint8_t SAMPLE[69] = {
#include "sample_sheet.inc"
};
static device d;
static bool fails;
static uint8_t frames[16][25];
static size_t sent;
static char said[4096];

const char files_program[] = "device_test";
_Noreturn void files_give_up(const char *name, const char *what) { printf("%s %s\n", name, what); abort(); }
void files_lock(const char *path, const char *given) { (void)path, (void)given; }
bool files_load(kept *k, const char *path, const char *ending, const char *given) { (void)k, (void)path, (void)ending, (void)given; return false; }
void files_back(kept *k) { memcpy(k->bytes, k->saved, sizeof k->bytes); }
bool files_save(kept *k)
{
    errno = ENOSPC;
    if (!fails)
        memcpy(k->saved, k->bytes, sizeof k->saved);
    return !fails;
}
void log_line(const char *form, ...)
{
    va_list more;
    va_start(more, form);
    vsnprintf(said, sizeof said, form, more);
    va_end(more);
}
static void collect(void *to, const uint8_t *frame, size_t length)
{
    (void)to;
    memcpy(frames[sent++ % 16], frame, length);
}

static void start(void)
{
    memset(&d, 0, sizeof d);
    memcpy(d.sheet.bytes, SAMPLE, sizeof SAMPLE), memcpy(d.sheet.saved, SAMPLE, sizeof SAMPLE);
    d.sheet.length = sizeof SAMPLE;
    d.store.length = 4096;
    d.link.sessions = kelindap_fresh();
    d.send = collect;
    fails = false;
}

/* A frame of a partner to the device, from octet 6 on; nothing is kept of those that were sent before. */
static bool put(uint16_t source, const uint8_t *tpdu, size_t length, uint64_t now)
{
    uint8_t frame[32] = { 0x29, 0, 0xB0, 0x60, (uint8_t)(source >> 8), (uint8_t)source, 0x11, 5, (uint8_t)(length - 1) };
    memcpy(frame + 9, tpdu, length);
    sent = 0;
    return device_take(&d, frame, 9 + length, now);
}

#define PUT(source, now, ...) put(source, (const uint8_t[]){ __VA_ARGS__ }, sizeof(const uint8_t[]){ __VA_ARGS__ }, now)

/* A partner at level 1; its next number is 1. */
static void authorized(uint16_t source, uint64_t now)
{
    CHECK(PUT(source, now, T_CONNECT) && sent == 0);
    CHECK(PUT(source, now, 0x43, 0xD1, 0, 0x22, 0x22, 0x22, 0x22) && sent == 2 && frames[0][9] == T_ACK && frames[1][11] == 1);
    CHECK(PUT(source, now, T_ACK));
}

static void unsaved(void)
{
    start();
    authorized(0x1201, 0);
    fails = true;
    device before = d;
    CHECK(!PUT(0x1201, 1, 0x47, 0xD7, 1, 0x33, 0x10, 1, 0x04, 0xE2) && sent == 0);
    CHECK(memcmp(&before.link, &d.link, sizeof d.link) == 0 && memcmp(before.transport, d.transport, sizeof d.transport) == 0);
    CHECK(memcmp(before.sheet.bytes, d.sheet.bytes, sizeof SAMPLE) == 0 && d.counts.unsaved == 1 && d.trouble == ENOSPC);
    CHECK(strstr(said, "can't be saved") != NULL && strstr(said, "No space left") != NULL);
    CHECK(PUT(0x1201, 2, 0x47, 0xD5, 1, 0x33, 0x10, 1) && sent == 2 && frames[1][15] == 0x03); /* a read with the same number is answered */
    CHECK(PUT(0x1201, 2, T_ACK | 1 << 2));
    CHECK(!PUT(0x1201, 3, 0x4B, 0xD7, 1, 0x33, 0x10, 1, 0x04, 0xE2) && sent == 0);
    fails = false;
    CHECK(PUT(0x1201, 4, 0x4B, 0xD7, 1, 0x33, 0x10, 1, 0x04, 0xE2) && sent == 2 && frames[0][9] == (T_ACK | 2 << 2));
    CHECK(d.sheet.saved[64] == 0x04 && d.sheet.saved[65] == 0xE2 && d.trouble == 0 && d.counts.saves == 1);
    CHECK(strcmp(said, "1.2.1 on connection 0 at level 1 writes property 1/51 element 1: 1000 -> 1250") == 0);
    fails = true; /* the same value again: nothing is another, so nothing need be saved */
    CHECK(PUT(0x1201, 5, T_ACK | 2 << 2) && PUT(0x1201, 5, 0x4F, 0xD7, 1, 0x33, 0x10, 1, 0x04, 0xE2) && sent == 2 && d.counts.saves == 1);
    CHECK(device_button(&d, true) == DEVICE_UNSAVED && (d.sheet.bytes[14] & 1) == 0);
    CHECK(device_save(&d).outcome == DEVICE_UNSAVED && device_version(&d, 0) == 0);
    fails = false;
    CHECK(device_button(&d, true) == KELINDAP_DONE && strcmp(said, "the control socket writes programming mode: off -> on") == 0);
    CHECK(device_save(&d).number == 1 && device_version(&d, 0) == 1 && device_version(&d, 1) == 0);
    fails = true; /* a Restart switches programming mode off: what can't be saved cuts nobody off */
    CHECK(!PUT(0x1201, 6, 0x53, 0x80) && sent == 0 && d.link.sessions.of[0].open && d.transport[0].open);
    CHECK(device_remove(&d, 1) == DEVICE_UNSAVED && device_version(&d, 0) == 1);
    fails = false;
    CHECK(PUT(0x1201, 7, 0x53, 0x80) && sent == 2 && frames[1][9] == T_DISCONNECT && !d.link.sessions.of[0].open && !d.transport[0].open);
}

static void connections(void)
{
    start();
    authorized(0x1201, 0);
    CHECK(PUT(0x1202, 0, T_CONNECT) && sent == 0);
    CHECK(PUT(0x1203, 0, T_CONNECT) && sent == 1 && frames[0][9] == T_DISCONNECT && frames[0][7] == 3 && d.counts.turned_away == 1);
    CHECK(PUT(0x1203, 0, 0x43, 0x00) && sent == 1 && frames[0][9] == T_DISCONNECT);
    CHECK(PUT(0x1203, 0, T_DISCONNECT) && sent == 0 && PUT(0x1203, 0, T_ACK) && sent == 0);
    CHECK(PUT(0x1202, 0, 0x7F, 0x00) && sent == 1 && frames[0][9] == (T_NAK | 15 << 2)); /* 15 right after a connect */
    CHECK(PUT(0x1202, 0, 0x43, 0x00) && sent == 2 && PUT(0x1202, 0, 0x43, 0x00) && sent == 1 && frames[0][9] == T_ACK);
    CHECK(device_due(&d) == 3000);
    sent = 0;
    device_tick(&d, 3000);
    CHECK(sent == 1 && frames[0][10] == 0x40); /* the answer again */
    device_tick(&d, 6000);
    CHECK(sent == 3 && !d.link.sessions.of[0].open && d.link.sessions.of[1].open && d.counts.silent == 1);
    CHECK(PUT(0x1203, 6001, T_CONNECT) && sent == 0 && d.link.sessions.of[0].open); /* its place is free */
    device_tick(&d, 9000);
    device_tick(&d, 12000);
    CHECK(!d.link.sessions.of[1].open && d.link.address[0] == 0x1203 && device_due(&d) == 12001);
    device_lost(&d, 0x1203);
    CHECK(!d.link.sessions.of[0].open && device_due(&d) == UINT64_MAX);
}

static void restores(void)
{
    start();
    authorized(0x1201, 0);
    CHECK(device_save(&d).number == 1);
    CHECK(PUT(0x1201, 0, 0x47, 0xD7, 1, 0x33, 0x10, 1, 0x23, 0x28) && d.sheet.bytes[64] == 0x23);
    CHECK(PUT(0x1201, 0, T_ACK | 1 << 2));
    CHECK(device_restore(&d, 1) == KELINDAP_STORE_NOT_AT_ZERO && d.sheet.bytes[64] == 0x23);
    CHECK(PUT(0x1201, 0, 0x4B, 0xD1, 0, 0x11, 0x11, 0x11, 0x11) && d.link.sessions.of[0].level == 0);
    fails = true;
    CHECK(device_restore(&d, 1) == DEVICE_UNSAVED && d.sheet.bytes[64] == 0x23);
    fails = false;
    CHECK(device_restore(&d, 1) == KELINDAP_DONE && d.sheet.bytes[64] == 0x03 && d.sheet.saved[64] == 0x03);
    CHECK(device_restore(&d, 7) == KELINDAP_STORE_NOT_KEPT && device_remove(&d, 1) == KELINDAP_DONE && device_version(&d, 0) == 0);
}

int main(void)
{
    unsaved();
    connections();
    restores();
    printf("device: %d checks\n", checks);
}
