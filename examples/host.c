/*
 * A small host: one device whose sheet is kept in a file, and beside it in SHEET.store the versions of its settings, on the
 * bus of bus.h. What a frame is, who has which connection and who is turned away is the library's to say (kelindap_link.h);
 * sequence numbers, acknowledgements and time limits are transport's (hosts/device/transport.h), files and lock are those of
 * hosts/device/files.h, and its socket is that of hosts/device/local.h: the host on a real bus, kelindap-device, has the same
 * three. Versions are saved and removed for a partner at level 0 or 1, which is this host's rule; restoring needs level 0, which
 * is the library's.
 *
 *   host SHEET SOCKET
 *
 * An old sheet, of edition 1, is converted at the first start: saved before anybody is served, and told on standard error, since
 * whoever has a copy of the file should know that it is old too.
 *
 * Take this one on a system with files, where a new file renamed over the old one keeps the old sheet or the new one, whole.
 * examples/flash.c is for a microcontroller that has none: it keeps the sheet in two sectors of flash.
 *
 * It may be killed at any moment, or lose its power: each file holds the sheet, or the store, before a change or after it,
 * whole, and what was acknowledged or answered is in it. For that what was changed is saved before acknowledgement and answer
 * are sent: a write that is not answered has the acknowledgement alone. tests/examples.sh kills it to see. Whether anything was
 * changed the calls tell. A host that can't save stops: what it then starts with is what the file has.
 */
#define _POSIX_C_SOURCE 200809L
#include "bus.h"
#include "files.h"
#include "kelindap_frame.h"
#include "kelindap_link.h"
#include "kelindap_store.h"
#include "local.h"

#include <errno.h>
#include <poll.h>
#include <signal.h>
#include <stdio.h>
#include <stdlib.h>
#include <time.h>

enum { NEW_STORE = 4096, MOST_LINES = 8, NOBODY = -1 };
const char files_program[] = "host";

/* A line: its socket, or NOBODY, and the address that speaks on it. */
typedef struct line {
    int socket;
    bool speaks;
    uint16_t address;
} line;

typedef struct host {
    kept sheet, store;
    kelindap_link link;
    transport transport[KELINDAP_CONNECTIONS];
    line lines[MOST_LINES];
} host;

static void hang_up(host *h, int i);

static uint64_t clock_now(void)
{
    struct timespec t;
    clock_gettime(CLOCK_MONOTONIC, &t);
    return (uint64_t)t.tv_sec * 1000 + (uint64_t)t.tv_nsec / 1000000;
}

/* ---- sheet and store ---- */

static void save(kept *k)
{
    if (!files_save(k))
        files_give_up(k->name, "can't be saved");
}

static void load_sheet(kept *sheet, const char *path, const char *given)
{
    if (!files_load(sheet, path, "", given))
        files_give_up(given, "can't be read");
    if (kelindap_check(sheet->bytes, sheet->length) == KELINDAP_OLD && kelindap_convert(sheet->bytes, sheet->length) == KELINDAP_DONE) {
        save(sheet);
        fprintf(stderr, "host: %s was of edition 1: it is converted, its first byte is 2 and all else as it was\n", given);
    }
    uint8_t rule = kelindap_check(sheet->bytes, sheet->length);
    if (rule != KELINDAP_ACCEPTED) {
        fprintf(stderr, "host: %s breaks S%d: \"sheet check\" tells more\n", given, rule);
        exit(EXIT_FAILURE);
    }
    if (sheet->bytes[14] % 2 == 1) { /* programming mode is not to survive a start */
        kelindap_button(sheet->bytes, sheet->length, false);
        save(sheet);
    }
}

/* The store, or an empty one at the first start. */
static void load_store(kept *store, const char *path, const char *given)
{
    if (!files_load(store, path, ".store", given)) {
        store->length = NEW_STORE; /* and zeroed */
        save(store);
    }
    if (kelindap_store_check(store->bytes, store->length) != 0) {
        fprintf(stderr, "host: %s is no good store: \"sheet versions\" tells more\n", store->name);
        exit(EXIT_FAILURE);
    }
}

/* ---- the bus ---- */

/* Sends a packet on a line. It doesn't wait for who reads nothing: such a one is dropped, and the others go on. */
static void send_on(host *h, int i, const uint8_t *packet, size_t length)
{
    if (send(h->lines[i].socket, packet, length, MSG_DONTWAIT) < 0)
        hang_up(h, i);
}

/* Whether a line hears a frame of the device: if it goes to a group or to all, every line does; else the one on which its
   destination speaks. */
static bool hears(const line *l, const uint8_t *frame)
{
    uint16_t destination = (uint16_t)(frame[6] << 8 | frame[7]);
    return l->socket != NOBODY && (frame[3] >= 0x80 || (l->speaks && l->address == destination));
}

/* Sends a frame without additional information, as all of the device's are. */
static void send_frame(host *h, const uint8_t *frame, size_t length)
{
    for (int i = 0; i < MOST_LINES; i++)
        if (hears(&h->lines[i], frame))
            send_on(h, i, frame, length);
}

/* Sends an octet of transport's own: an acknowledgement, a disconnect. */
static void send_control(host *h, uint16_t address, uint8_t octet)
{
    uint8_t own[2] = { h->sheet.bytes[16], h->sheet.bytes[17] };
    uint8_t frame[10] = { 0x11, 0, 0xB0, 0x60, own[0], own[1], (uint8_t)(address >> 8), (uint8_t)address, 0, octet };
    send_frame(h, frame, sizeof frame);
}

/* The connection of which an address is the partner. */
static uint8_t connection_of(const host *h, uint16_t address)
{
    for (uint8_t c = 0; c < KELINDAP_CONNECTIONS; c++)
        if (h->link.sessions.of[c].open && h->link.address[c] == address)
            return c;
    return KELINDAP_LINK_NOBODY;
}

static void end_connection(host *h, uint8_t c)
{
    kelindap_disconnect(&h->link.sessions, c);
    transport_close(&h->transport[c]);
}

/* A line that is gone, or is dropped: whoever spoke on it is disconnected. */
static void hang_up(host *h, int i)
{
    uint8_t c = h->lines[i].speaks ? connection_of(h, h->lines[i].address) : KELINDAP_LINK_NOBODY;
    if (c != KELINDAP_LINK_NOBODY)
        end_connection(h, c);
    close(h->lines[i].socket);
    h->lines[i] = (line){ .socket = NOBODY };
}

/* A version saved, restored or removed for whoever speaks on the line: outcome and number go back. */
static void take_version(host *h, int i, const uint8_t packet[BUS_VERSION])
{
    kept *sheet = &h->sheet, *store = &h->store;
    uint16_t number = (uint16_t)(packet[2] << 8 | packet[3]);
    uint8_t c = h->lines[i].speaks ? connection_of(h, h->lines[i].address) : KELINDAP_LINK_NOBODY;
    bool may = c != KELINDAP_LINK_NOBODY && h->link.sessions.of[c].level <= 1;
    kelindap_saved saved = { KELINDAP_DENIED, 0 };
    if (c != KELINDAP_LINK_NOBODY)
        transport_alive(&h->transport[c], clock_now());
    if (packet[0] == BUS_RESTORE) {
        saved = (kelindap_saved){ kelindap_restore(h->link.sessions, c, sheet->bytes, sheet->length, store->bytes,
                                                   store->length, number), number };
        if (saved.outcome == KELINDAP_DONE)
            save(sheet);
    } else if (may && packet[0] == BUS_SAVE) {
        saved = kelindap_save(sheet->bytes, sheet->length, store->bytes, store->length);
        if (saved.outcome == KELINDAP_OK)
            save(store);
    } else if (may && packet[0] == BUS_REMOVE) {
        saved = (kelindap_saved){ kelindap_remove(store->bytes, store->length, number), number };
        if (saved.outcome == KELINDAP_DONE)
            save(store);
    }
    uint8_t answer[BUS_VERSION] = { saved.outcome, 0, (uint8_t)(saved.number >> 8), (uint8_t)saved.number };
    send_on(h, i, answer, sizeof answer);
}

/* What transport says is to be done on a connection; `number` is of the data that came. True if the data is to be served. */
static bool carry_out(host *h, uint8_t c, transport_todo todo, uint8_t number)
{
    const transport_frame *f = transport_first(&h->transport[c]);
    uint16_t partner = h->link.address[c];
    if (todo == TRANSPORT_ACKNOWLEDGE)
        send_control(h, partner, (uint8_t)(T_ACK | number << 2));
    else if (todo == TRANSPORT_REFUSE)
        send_control(h, partner, (uint8_t)(T_NAK | number << 2));
    else if (todo == TRANSPORT_SEND)
        send_frame(h, f->bytes, f->length);
    else if (todo == TRANSPORT_END) {
        end_connection(h, c);
        send_control(h, partner, T_DISCONNECT);
    }
    return todo == TRANSPORT_TAKE;
}

/* Serves a frame: saved, then acknowledged, then answered. */
static void serve(host *h, kelindap_arrival a, const uint8_t *frame, size_t length, uint64_t now)
{
    bool placed = a.connection != KELINDAP_LINK_NOBODY;
    kelindap_link before = h->link;
    uint8_t answer[KELINDAP_LINK_ROOM];
    kelindap_served s = kelindap_serve(&h->link, h->sheet.bytes, h->sheet.length, frame, length, answer, sizeof answer,
                                       placed ? h->transport[a.connection].out : 0);
    if (s.changed[0].length != 0 || s.changed[1].length != 0)
        save(&h->sheet);
    if (a.event == KELINDAP_EVENT_CONNECTED && placed)
        carry_out(h, a.connection, TRANSPORT_ACKNOWLEDGE, a.sequence);
    if (a.event == KELINDAP_EVENT_CONNECT && placed)
        transport_open(&h->transport[a.connection], now);
    if (s.count > 0 && placed)
        carry_out(h, a.connection, transport_put(&h->transport[a.connection], answer, s.count, now), 0);
    else if (s.count > 0)
        send_frame(h, answer, s.count);
    if (s.number == KELINDAP_LINK_STRANGER || s.number == KELINDAP_LINK_NO_PLACE)
        send_control(h, a.source, T_DISCONNECT);
    for (uint8_t c = 0; c < KELINDAP_CONNECTIONS; c++)
        if (before.sessions.of[c].open && !h->link.sessions.of[c].open) {
            transport_close(&h->transport[c]);
            if (a.event != KELINDAP_EVENT_DISCONNECT) /* a Restart has cut it off */
                send_control(h, before.address[c], T_DISCONNECT);
        }
}

/* A frame from the bus. Connected data is served if it is next, and an acknowledgement is transport's alone. */
static void take_frame(host *h, const uint8_t *frame, size_t length, uint64_t now)
{
    kelindap_arrival a = kelindap_heard(h->link, h->sheet.bytes, h->sheet.length, frame, length);
    uint8_t octet = (uint8_t)((a.negative ? T_NAK : T_ACK) | a.sequence << 2);
    transport *t = a.connection != KELINDAP_LINK_NOBODY ? &h->transport[a.connection] : NULL;
    if (t != NULL && a.event == KELINDAP_EVENT_ACKNOWLEDGED)
        carry_out(h, a.connection, transport_acknowledged(t, octet, now), 0);
    else if (t == NULL || a.event != KELINDAP_EVENT_CONNECTED || carry_out(h, a.connection, transport_data(t, a.sequence, now), a.sequence))
        serve(h, a, frame, length, now);
}

/* Whether an address is spoken under on another line. */
static bool is_anothers(const host *h, int i, uint16_t address)
{
    for (int k = 0; k < MOST_LINES; k++)
        if (k != i && h->lines[k].speaks && h->lines[k].address == address)
            return true;
    return false;
}

/* A packet on a line, or its end. A line speaks under the first address that it sends, and under no other. */
static void take(host *h, int i)
{
    uint8_t packet[BUS_PACKET];
    ssize_t length = recv(h->lines[i].socket, packet, sizeof packet, MSG_DONTWAIT);
    if (length <= 0)
        hang_up(h, i);
    else if (length == BUS_VERSION && packet[0] >= BUS_SAVE && packet[0] <= BUS_REMOVE)
        take_version(h, i, packet);
    else if (length >= 10 && length >= 10 + packet[1]) {
        uint16_t source = (uint16_t)(packet[4 + packet[1]] << 8 | packet[5 + packet[1]]);
        if (!h->lines[i].speaks && !is_anothers(h, i, source))
            h->lines[i].speaks = true, h->lines[i].address = source;
        if (h->lines[i].speaks && h->lines[i].address == source)
            take_frame(h, packet, (size_t)length, clock_now());
    }
}

/* Until something is due on a connection, in milliseconds; -1 if nothing is. */
static int wait_for(const host *h, uint64_t now)
{
    uint64_t due = UINT64_MAX;
    for (uint8_t c = 0; c < KELINDAP_CONNECTIONS; c++)
        due = transport_due(&h->transport[c]) < due ? transport_due(&h->transport[c]) : due;
    return due == UINT64_MAX ? -1 : due <= now ? 0 : (int)(due - now);
}

/* Waits until somebody wants something or a time limit has come, and sees to it. */
static void wait_and_serve(host *h, local *bus)
{
    struct pollfd at[MOST_LINES + 1];
    int free_line = NOBODY;
    for (int i = 0; i < MOST_LINES; i++) {
        at[i] = (struct pollfd){ .fd = h->lines[i].socket, .events = POLLIN }; /* nobody is passed over */
        free_line = h->lines[i].socket == NOBODY ? i : free_line;
    }
    at[MOST_LINES] = (struct pollfd){ .fd = free_line == NOBODY ? NOBODY : bus->socket, .events = POLLIN };
    if (poll(at, MOST_LINES + 1, wait_for(h, clock_now())) < 0 && errno != EINTR)
        files_give_up("poll", "fails");
    for (int i = 0; i < MOST_LINES; i++)
        if (at[i].revents != 0 && h->lines[i].socket != NOBODY) /* one before may have been the end of it */
            take(h, i);
    if (at[MOST_LINES].revents != 0)
        h->lines[free_line].socket = local_accept(bus);
    for (uint8_t c = 0; c < KELINDAP_CONNECTIONS; c++)
        carry_out(h, c, transport_tick(&h->transport[c], clock_now()), 0);
}

int main(int count, char **words)
{
    static host h;
    static local bus;
    char path[FILES_NAME];
    if (count != 3) {
        fputs("usage: host SHEET SOCKET\n", stderr);
        return EXIT_FAILURE;
    }
    signal(SIGPIPE, SIG_IGN);
    if (!files_find(path, words[1]))
        files_give_up(words[1], "can't be read");
    files_lock(path, words[1]);
    load_sheet(&h.sheet, path, words[1]);
    load_store(&h.store, path, words[1]);
    h.link.sessions = kelindap_fresh();
    for (int i = 0; i < MOST_LINES; i++)
        h.lines[i].socket = NOBODY;
    local_open(&bus, words[2], SOCK_SEQPACKET, 077);
    puts("ready");
    fflush(stdout);
    for (;;)
        wait_and_serve(&h, &bus);
}
