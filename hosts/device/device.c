/* The device on the bus, as device.h tells. */
#include "device.h"
#include "kelindap_frame.h"
#include "kelindap_names.h"
#include "kelindap_pdu.h"
#include "log.h"
#include "meaning.h"

#include <errno.h>
#include <stdio.h>
#include <string.h>

_Static_assert((int)TRANSPORT_FRAME == (int)KELINDAP_LINK_ROOM, "transport has room for the longest answer");
_Static_assert((int)FILES_MOST == (int)KELINDAP_STORE_MOST, "a file has room for the longest store");

/* ---- the start ---- */

static void must_save(kept *k)
{
    if (!files_save(k))
        files_give_up(k->name, "can't be saved");
}

static void open_sheet(kept *sheet)
{
    if (kelindap_check(sheet->bytes, sheet->length) == KELINDAP_OLD && kelindap_convert(sheet->bytes, sheet->length) == KELINDAP_DONE) {
        must_save(sheet);
        log_line("%s was of edition 1: it is converted, its first byte is 2 and all else as it was", sheet->name);
    }
    uint8_t rule = kelindap_check(sheet->bytes, sheet->length);
    if (rule != KELINDAP_ACCEPTED) {
        char why[160];
        snprintf(why, sizeof why, "is no sheet that is accepted: S%d, %s (kelindap-sheet check tells more)", rule,
                 kelindap_rule_name(rule));
        errno = 0;
        files_give_up(sheet->name, why);
    }
    if ((sheet->bytes[14] & 1) != 0 && kelindap_button(sheet->bytes, sheet->length, false) == KELINDAP_DONE)
        must_save(sheet);
}

void device_open(device *d, const char *path, const char *given)
{
    files_lock(path, given);
    if (!files_load(&d->sheet, path, "", given))
        files_give_up(given, "can't be read");
    open_sheet(&d->sheet);
    if (!files_load(&d->store, path, ".store", given)) {
        d->store.length = DEVICE_NEW_STORE; /* and zeroed */
        must_save(&d->store);
    }
    errno = 0;
    if (kelindap_store_check(d->store.bytes, d->store.length) != KELINDAP_OK)
        files_give_up(d->store.name, "is no good store (kelindap-sheet versions tells more)");
    d->link.sessions = kelindap_fresh();
}

/* ---- saving ---- */

/* Saves what is another than the file's, or takes it back and tells. */
static bool keep(device *d, kept *k)
{
    if (memcmp(k->bytes, k->saved, k->length) == 0)
        return true;
    if (files_save(k)) {
        d->counts.saves++;
        if (d->trouble != 0)
            log_line("%s is saved again", k->name);
        d->trouble = 0;
        return true;
    }
    d->trouble = errno;
    d->counts.unsaved++;
    files_back(k);
    log_line("%s can't be saved: %s; what was asked for is not done, and not acknowledged", k->name, strerror(d->trouble));
    return false;
}

/* ---- frames out ---- */

uint16_t device_address(const device *d)
{
    return (uint16_t)(d->sheet.bytes[16] << 8 | d->sheet.bytes[17]);
}

/* An octet of transport's own: an acknowledgement, a disconnect. */
static void send_octet(device *d, uint16_t to, uint8_t octet)
{
    uint16_t own = device_address(d);
    uint8_t frame[10] = { KELINDAP_L_DATA_REQ, 0, 0xB0, 0x60, (uint8_t)(own >> 8), (uint8_t)own, (uint8_t)(to >> 8), (uint8_t)to,
                          0, octet };
    d->send(d->bus, frame, sizeof frame);
}

static void send_first(device *d, uint8_t c)
{
    const transport_frame *f = transport_first(&d->transport[c]);
    d->send(d->bus, f->bytes, f->length);
}

/* What transport says is to be done on connection c; `number` is of the data that came. True if the data is to be served. */
static bool carry_out(device *d, uint8_t c, transport_todo todo, uint8_t number)
{
    char name[MEANING_ADDRESS];
    uint16_t partner = d->link.address[c];
    switch (todo) {
    case TRANSPORT_NOTHING:
        break;
    case TRANSPORT_TAKE:
        return true;
    case TRANSPORT_ACKNOWLEDGE:
        send_octet(d, partner, (uint8_t)(T_ACK | number << 2));
        break;
    case TRANSPORT_REFUSE:
        send_octet(d, partner, (uint8_t)(T_NAK | number << 2));
        break;
    case TRANSPORT_SEND:
        send_first(d, c);
        break;
    case TRANSPORT_END:
        log_line("%s on connection %d is disconnected: %s", meaning_address(name, partner), c,
                 d->transport[c].count > 0 ? "it acknowledges no answer" : "it is silent");
        d->counts.silent++;
        send_octet(d, partner, T_DISCONNECT);
        kelindap_disconnect(&d->link.sessions, c);
        transport_close(&d->transport[c]);
        break;
    }
    return false;
}

/* ---- frames in ---- */

/* A frame that was heard, and what it is. */
typedef struct taken {
    kelindap_arrival is;
    const uint8_t *frame;
    size_t length;
} taken;

static taken hear(const device *d, const uint8_t *frame, size_t length)
{
    return (taken){ kelindap_heard(d->link, d->sheet.bytes, d->sheet.length, frame, length), frame, length };
}

static bool has_connection(const taken *t)
{
    return t->is.connection < KELINDAP_CONNECTIONS;
}

/* Who sent it, on which connection and at which level. */
static void name_sender(char out[64], const taken *t, kelindap_sessions before)
{
    char name[MEANING_ADDRESS];
    if (t->is.event == KELINDAP_EVENT_CONNECTED && has_connection(t))
        snprintf(out, 64, "%s on connection %d at level %d", meaning_address(name, t->is.source), t->is.connection,
                 before.of[t->is.connection].level);
    else
        snprintf(out, 64, "%s", meaning_address(name, t->is.source));
}

static void log_write(void *sender, const char *line)
{
    log_line("%s writes %s", (const char *)sender, line);
}

/* Data that was served. */
static void log_data(const device *d, const taken *t, kelindap_served s, kelindap_sessions before)
{
    char sender[64], request[MEANING_LINE];
    const uint8_t *apdu = t->frame + 9 + t->frame[1];
    size_t length = t->length - 9 - t->frame[1];
    bool stored = s.changed[0].length != 0 || s.changed[1].length != 0;
    uint8_t c = t->is.connection;
    name_sender(sender, t, before);
    meaning_request(request, apdu, length, t->is.group);
    if (stored && meaning_changes(d->before, d->sheet.bytes, d->sheet.length, log_write, sender) == 0)
        log_line("%s writes what is there already: %s", sender, request);
    if (s.outcome > KELINDAP_NOT_FOR_US && t->is.event >= KELINDAP_EVENT_CONNECTIONLESS)
        log_line("%s is refused: %s: %s", sender, request, kelindap_outcome_name(s.outcome));
    if (s.outcome <= KELINDAP_DONE && kelindap_read(apdu, length).kind == KELINDAP_AUTHORIZE_REQUEST && has_connection(t))
        log_line("%s offers a key, and has level %d%s", sender, d->link.sessions.of[c].level,
                 d->link.sessions.of[c].level == 3 ? ": it is no level's key" : "");
    if (s.outcome <= KELINDAP_DONE && kelindap_read(apdu, length).kind == KELINDAP_RESTART)
        log_line("%s restarts the device: every connection ends", sender);
}

static void log_served(const device *d, const taken *t, kelindap_served s, kelindap_sessions before)
{
    char name[MEANING_ADDRESS];
    meaning_address(name, t->is.source);
    if (s.number == KELINDAP_LINK_STRANGER || s.number == KELINDAP_LINK_NO_PLACE)
        log_line("%s is turned away: %s", name, kelindap_outcome_name(s.number));
    else if (s.number == 0 && t->is.event == KELINDAP_EVENT_CONNECT)
        log_line("%s connects: connection %d", name, t->is.connection);
    else if (s.number == 0 && t->is.event == KELINDAP_EVENT_DISCONNECT)
        log_line("%s disconnects: connection %d", name, t->is.connection);
    else if (s.number == 0)
        log_data(d, t, s, before);
}

static void count(device *d, const taken *t, kelindap_served s)
{
    d->counts.frames += s.number == 0;
    d->counts.turned_away += s.number == KELINDAP_LINK_STRANGER || s.number == KELINDAP_LINK_NO_PLACE;
    if (s.number == 0 && t->is.event <= KELINDAP_EVENT_CONNECTED) {
        d->counts.carried_out += s.outcome <= KELINDAP_DONE;
        d->counts.refused += s.outcome > KELINDAP_NOT_FOR_US;
    }
}

/* After a frame was served: who was connected is, and whoever a Restart cut off is told. */
static void follow(device *d, const taken *t, kelindap_sessions before, uint64_t now)
{
    if (t->is.event == KELINDAP_EVENT_CONNECT)
        transport_open(&d->transport[t->is.connection], now);
    for (uint8_t c = 0; c < KELINDAP_CONNECTIONS; c++)
        if (before.of[c].open && !d->link.sessions.of[c].open) {
            transport_close(&d->transport[c]);
            if (t->is.event != KELINDAP_EVENT_DISCONNECT)
                send_octet(d, d->link.address[c], T_DISCONNECT);
        }
}

/* The answer on a connection, or to nobody's. */
static void send_answer(device *d, const taken *t, const uint8_t *answer, size_t length, uint64_t now)
{
    if (has_connection(t))
        carry_out(d, t->is.connection, transport_put(&d->transport[t->is.connection], answer, length, now), 0);
    else
        d->send(d->bus, answer, length);
}

static bool serve(device *d, const taken *t, uint64_t now)
{
    uint8_t answer[KELINDAP_LINK_ROOM];
    kelindap_link before = d->link;
    uint8_t out = has_connection(t) ? d->transport[t->is.connection].out : 0;
    memcpy(d->before, d->sheet.bytes, d->sheet.length);
    kelindap_served s = kelindap_serve(&d->link, d->sheet.bytes, d->sheet.length, t->frame, t->length, answer, sizeof answer, out);
    if (!keep(d, &d->sheet)) {
        d->link = before;
        return false;
    }
    count(d, t, s);
    log_served(d, t, s, before.sessions);
    if (t->is.event == KELINDAP_EVENT_CONNECTED)
        send_octet(d, before.address[t->is.connection], (uint8_t)(T_ACK | t->is.sequence << 2));
    if (s.count > 0)
        send_answer(d, t, answer, s.count, now);
    if (s.number == KELINDAP_LINK_STRANGER || s.number == KELINDAP_LINK_NO_PLACE)
        send_octet(d, t->is.source, T_DISCONNECT);
    follow(d, t, before.sessions, now);
    return true;
}

bool device_take(device *d, const uint8_t *frame, size_t length, uint64_t now)
{
    taken t = hear(d, frame, length);
    if (!has_connection(&t))
        return serve(d, &t, now);
    uint8_t c = t.is.connection;
    transport before = d->transport[c];
    if (t.is.event == KELINDAP_EVENT_ACKNOWLEDGED)
        carry_out(d, c, transport_acknowledged(&d->transport[c], (uint8_t)((t.is.negative ? T_NAK : T_ACK) | t.is.sequence << 2), now), 0);
    else if (t.is.event != KELINDAP_EVENT_CONNECTED)
        return serve(d, &t, now);
    else if (carry_out(d, c, transport_data(&d->transport[c], t.is.sequence, now), t.is.sequence) && !serve(d, &t, now)) {
        d->transport[c] = before;
        return false;
    }
    return true;
}

void device_lost(device *d, uint16_t address)
{
    char name[MEANING_ADDRESS];
    for (uint8_t c = 0; c < KELINDAP_CONNECTIONS; c++)
        if (d->link.sessions.of[c].open && d->link.address[c] == address) {
            log_line("%s is gone: connection %d ends", meaning_address(name, address), c);
            kelindap_disconnect(&d->link.sessions, c);
            transport_close(&d->transport[c]);
        }
}

/* ---- time ---- */

void device_tick(device *d, uint64_t now)
{
    for (uint8_t c = 0; c < KELINDAP_CONNECTIONS; c++)
        carry_out(d, c, transport_tick(&d->transport[c], now), 0);
}

uint64_t device_due(const device *d)
{
    uint64_t due = UINT64_MAX;
    for (uint8_t c = 0; c < KELINDAP_CONNECTIONS; c++)
        due = transport_due(&d->transport[c]) < due ? transport_due(&d->transport[c]) : due;
    return due;
}

/* ---- whoever runs the host ---- */

/* A change of the sheet at the control socket: saved and told, or taken back. */
static uint8_t keep_sheet(device *d, uint8_t outcome)
{
    if (!keep(d, &d->sheet))
        return DEVICE_UNSAVED;
    meaning_changes(d->before, d->sheet.bytes, d->sheet.length, log_write, "the control socket");
    return outcome;
}

uint8_t device_button(device *d, bool on)
{
    memcpy(d->before, d->sheet.bytes, d->sheet.length);
    return keep_sheet(d, kelindap_button(d->sheet.bytes, d->sheet.length, on));
}

kelindap_saved device_save(device *d)
{
    kelindap_saved saved = kelindap_save(d->sheet.bytes, d->sheet.length, d->store.bytes, d->store.length);
    if (!keep(d, &d->store))
        return (kelindap_saved){ DEVICE_UNSAVED, 0 };
    if (saved.outcome == KELINDAP_OK)
        log_line("version %d is kept", saved.number);
    return saved;
}

/* For the first connection of which the library says that it may; else with what it said of the last. */
uint8_t device_restore(device *d, size_t number)
{
    uint8_t outcome = KELINDAP_STORE_NOT_AT_ZERO;
    memcpy(d->before, d->sheet.bytes, d->sheet.length);
    for (uint8_t c = 0; c < KELINDAP_CONNECTIONS && outcome == KELINDAP_STORE_NOT_AT_ZERO; c++)
        outcome = kelindap_restore(d->link.sessions, c, d->sheet.bytes, d->sheet.length, d->store.bytes, d->store.length, number);
    outcome = keep_sheet(d, outcome);
    if (outcome == KELINDAP_DONE)
        log_line("version %zu is restored", number);
    return outcome;
}

uint8_t device_remove(device *d, size_t number)
{
    uint8_t outcome = kelindap_remove(d->store.bytes, d->store.length, number);
    if (!keep(d, &d->store))
        return DEVICE_UNSAVED;
    if (outcome == KELINDAP_DONE)
        log_line("version %zu is removed", number);
    return outcome;
}

uint16_t device_version(const device *d, size_t k)
{
    return kelindap_kept(d->store.bytes, d->store.length, k).number;
}
