/* A KNXnet/IP server, as tunnel.h tells. docs/BUS.md has the datagrams. */
#include "tunnel.h"
#include "kelindap_common.h"
#include "kelindap_frame.h"
#include "log.h"
#include "meaning.h"

#include <string.h>

enum { LINK_LAYER = 2 };

/* Message codes of cEMI beside L_Data.req and .ind; and why a property is not read or written. */
enum { L_DATA_CON = 0x2E, PROPERTY_READ = 0xFC, PROPERTY_READ_CON = 0xFB, PROPERTY_WRITE = 0xF6, PROPERTY_WRITE_CON = 0xF5,
       NO_SUCH_PROPERTY = 7 };

/* ---- datagrams ---- */

static void send_datagram(const tunnel *t, endpoint to, uint16_t service, const uint8_t *body, size_t length)
{
    uint8_t datagram[HEADER + HPAI + DESCRIBED];
    datagram_header(datagram, service, length);
    memcpy(datagram + HEADER, body, length);
    t->host.send(t->host.to, to, datagram, HEADER + length);
}

static void send_status(const tunnel *t, endpoint to, uint16_t service, uint8_t number, uint8_t status)
{
    send_datagram(t, to, service, (const uint8_t[]){ number, status }, 2);
}

/* ---- limits ---- */

/* What an address that has no channel may ask; one that is not known takes the place of whom was heard longest ago. */
static limit *guest(tunnel *t, uint32_t address, uint64_t now)
{
    tunnel_guest *oldest = &t->guests[0];
    for (size_t i = 0; i < TUNNEL_GUESTS; i++) {
        tunnel_guest *g = &t->guests[i];
        if (g->address == address)
            return &g->asks;
        if (oldest->address != 0 && (g->address == 0 || g->asks.at < oldest->asks.at))
            oldest = g;
    }
    *oldest = (tunnel_guest){ address, limit_full(GUEST_MOST, now) };
    return &oldest->asks;
}

static bool within(tunnel *t, endpoint from, uint64_t now)
{
    bool may = limit_take(guest(t, from.address, now), GUEST_MOST, GUEST_A_SECOND, now);
    t->counts.limited += !may;
    return may;
}

/* The same of a client and its channel. */
static bool within_channel(tunnel *t, channel *c, uint64_t now)
{
    bool may = limit_take(&c->requests, CLIENT_MOST, CLIENT_A_SECOND, now);
    t->counts.limited += !may;
    c->limited += !may;
    return may;
}

/* ---- channels and their addresses ---- */

static channel *find(tunnel *t, uint8_t number)
{
    for (size_t i = 0; i < TUNNEL_CHANNELS; i++)
        if (number != 0 && t->channels[i].number == number)
            return &t->channels[i];
    return NULL;
}

/* A number that no channel has, and that was not given for as long as possible: what is late for an old one finds none. */
static uint8_t new_number(tunnel *t)
{
    do
        t->last = (uint8_t)(t->last % 255 + 1);
    while (find(t, t->last) != NULL);
    return t->last;
}

static void end(tunnel *t, channel *c, const char *why)
{
    char where[DATAGRAM_ENDPOINT];
    log_line("channel %d of %s ends: %s", c->number, datagram_endpoint(where, c->control), why);
    for (size_t i = 0; i < c->address_count; i++)
        t->host.lost(t->host.to, c->addresses[i]);
    *c = (channel){ .number = 0 };
}

/* Ends a channel, and tells its client. */
static void hang_up(tunnel *t, channel *c, const char *why)
{
    uint8_t body[2 + HPAI] = { c->number, 0 };
    datagram_hpai(body + 2, t->own);
    send_datagram(t, c->control, DISCONNECT, body, sizeof body);
    end(t, c, why);
}

static bool has(const channel *c, uint16_t address)
{
    for (size_t i = 0; c->number != 0 && i < c->address_count; i++)
        if (c->addresses[i] == address)
            return true;
    return false;
}

static uint16_t device_is(const tunnel *t)
{
    const uint8_t *sheet = t->host.sheet(t->host.to);
    return (uint16_t)(sheet[16] << 8 | sheet[17]);
}

/*
 * Whether a channel may send a frame under an address. To a group it may under any but the device's: there an address gives no
 * right. Else under its own, one that it sent under before, or one that is nobody's, which then is its own too.
 */
static bool may_send(tunnel *t, channel *c, uint16_t address, bool group)
{
    if (address == device_is(t))
        return false;
    if (group || has(c, address))
        return true;
    for (size_t i = 0; i < TUNNEL_CHANNELS; i++)
        if (has(&t->channels[i], address) || t->first_address + i == address)
            return false;
    if (c->address_count == TUNNEL_ADDRESSES)
        return false;
    c->addresses[c->address_count++] = address;
    return true;
}

/* ---- the bus ---- */

static bool to_group(const uint8_t *frame)
{
    return frame[3] >= 0x80;
}

/* An address that is the device's is no channel's, also if a channel had it before the device got it. */
static bool hears(const tunnel *t, const channel *c, const uint8_t *frame)
{
    uint16_t destination = (uint16_t)(frame[6] << 8 | frame[7]);
    return c->number != 0 && c->kind == TUNNEL_TUNNELLING &&
           (to_group(frame) || (destination != device_is(t) && has(c, destination)));
}

/* A frame in the line of a channel, its message code being this; NULL if there is no room. */
static uint8_t *put(tunnel *t, channel *c, uint8_t code, const uint8_t *frame, size_t length)
{
    if (c->count == TUNNEL_LINE) {
        c->lost++;
        t->counts.lost++;
        return NULL;
    }
    tunnel_frame *f = &c->line[(c->first + c->count++) % TUNNEL_LINE];
    memcpy(f->bytes, frame, length);
    f->bytes[0] = code;
    f->length = (uint8_t)length;
    return f->bytes;
}

/* A frame to whoever hears it, but for the channel that sent it; true if somebody does. An indication was not repeated. */
static bool spread(tunnel *t, const channel *from, const uint8_t *frame, size_t length)
{
    bool heard = to_group(frame);
    for (size_t i = 0; i < TUNNEL_CHANNELS; i++)
        if (&t->channels[i] != from && hears(t, &t->channels[i], frame)) {
            uint8_t *f = put(t, &t->channels[i], KELINDAP_L_DATA_IND, frame, length);
            if (f != NULL)
                f[2] = (uint8_t)(0xA0 | (frame[2] & 0x1C));
            heard = true;
        }
    return heard;
}

void tunnel_put(tunnel *t, const uint8_t *frame, size_t length)
{
    if (length >= 10 && length <= TUNNEL_FRAME)
        spread(t, NULL, frame, length);
}

/* How many frames wait for each client, to take back what was put there. */
typedef struct lines {
    uint8_t count[TUNNEL_CHANNELS];
} lines;

static lines lines_of(const tunnel *t)
{
    lines all;
    for (size_t i = 0; i < TUNNEL_CHANNELS; i++)
        all.count[i] = t->channels[i].count;
    return all;
}

static void take_back(tunnel *t, lines before)
{
    for (size_t i = 0; i < TUNNEL_CHANNELS; i++)
        t->channels[i].count = before.count[i];
}

/*
 * A frame of a client: confirmed, and given to whoever hears it. Additional information goes no further. False: the device could not
 * save what it changed, and nobody has heard it.
 */
static bool take_frame(tunnel *t, channel *c, const uint8_t *cemi, size_t length, uint64_t now)
{
    kelindap_frame f = kelindap_frame_read(cemi, length);
    if (f.outcome != KELINDAP_OK || f.code != KELINDAP_L_DATA_REQ) {
        t->counts.unfit++;
        return true;
    }
    uint8_t frame[TUNNEL_FRAME];
    size_t long_is = length - f.info_length;
    uint16_t source = f.source != 0 ? f.source : c->addresses[0];
    frame[0] = KELINDAP_L_DATA_IND;
    frame[1] = 0;
    memcpy(frame + 2, cemi + 2 + f.info_length, long_is - 2);
    frame[4] = (uint8_t)(source >> 8);
    frame[5] = (uint8_t)source;
    lines before = lines_of(t);
    bool may = may_send(t, c, source, to_group(frame));
    bool ours = may && (to_group(frame) || f.destination == device_is(t));
    uint8_t *confirmation = put(t, c, L_DATA_CON, frame, long_is); /* it goes before whatever the device says to the frame */
    bool heard = may && spread(t, c, frame, long_is);
    if (confirmation != NULL)
        confirmation[2] = (uint8_t)((f.control1 & 0xFE) | (!ours && !heard));
    if (!ours || t->host.take(t->host.to, frame, long_is, now))
        return true;
    take_back(t, before);
    return false;
}

/* A request of management: a property that is not there. */
static void take_management(tunnel *t, channel *c, const uint8_t *cemi, size_t length)
{
    if (length < 7 || (cemi[0] != PROPERTY_READ && cemi[0] != PROPERTY_WRITE))
        return;
    uint8_t answer[8] = { [7] = NO_SUCH_PROPERTY };
    memcpy(answer, cemi, 7);
    answer[5] &= 0x0F; /* no elements */
    put(t, c, cemi[0] == PROPERTY_READ ? PROPERTY_READ_CON : PROPERTY_WRITE_CON, answer, sizeof answer);
}

/* ---- services ---- */

static void take_search(tunnel *t, endpoint from, const uint8_t *b, size_t length)
{
    uint8_t body[HPAI + DESCRIBED];
    if (length < HPAI || !datagram_is_udp(b))
        return;
    datagram_hpai(body, t->own);
    datagram_describe(body + HPAI, t->host.sheet(t->host.to), t->name);
    send_datagram(t, datagram_found_to(b, from), FOUND, body, sizeof body);
}

static void take_describe(tunnel *t, endpoint from, const uint8_t *b, size_t length)
{
    uint8_t body[DESCRIBED];
    if (length < HPAI || !datagram_is_udp(b))
        return;
    datagram_describe(body, t->host.sheet(t->host.to), t->name);
    send_datagram(t, datagram_answer_to(b, from), DESCRIPTION, body, sizeof body);
}

/* Why a connect is refused, or OK and a free channel. */
static uint8_t judge_connect(tunnel *t, const uint8_t *b, size_t length, channel **free_one)
{
    const uint8_t *wish = b + 2 * HPAI;
    if (!datagram_is_udp(b) || !datagram_is_udp(b + HPAI))
        return NOT_UDP;
    if (wish[1] != TUNNEL_TUNNELLING && wish[1] != TUNNEL_MANAGEMENT)
        return NOT_THIS_TYPE;
    if (wish[0] != (wish[1] == TUNNEL_TUNNELLING ? 4 : 2) || length != 2 * HPAI + (size_t)wish[0])
        return NOT_THIS_OPTION;
    if (wish[1] == TUNNEL_TUNNELLING && wish[2] != LINK_LAYER)
        return NOT_THIS_LAYER;
    for (size_t i = 0; i < TUNNEL_CHANNELS; i++)
        if (t->channels[i].number == 0 && t->first_address + i != device_is(t)) {
            *free_one = &t->channels[i];
            return OK;
        }
    return NO_MORE;
}

static void take_connect(tunnel *t, endpoint from, const uint8_t *b, size_t length, uint64_t now)
{
    channel *c = NULL;
    if (length < 2 * HPAI + 2)
        return;
    uint8_t status = judge_connect(t, b, length, &c);
    endpoint control = datagram_is_udp(b) ? datagram_answer_to(b, from) : from;
    char where[DATAGRAM_ENDPOINT], address[MEANING_ADDRESS];
    datagram_endpoint(where, control);
    if (status != OK) {
        t->counts.refused++;
        log_line("%s gets no channel: %s", where, datagram_why_not(status));
        send_status(t, control, CONNECTED, 0, status);
        return;
    }
    uint8_t kind = b[2 * HPAI + 1], long_is = kind == TUNNEL_TUNNELLING ? 4 : 2;
    uint16_t own = (uint16_t)(t->first_address + (c - t->channels));
    *c = (channel){ .number = new_number(t), .kind = kind, .control = control, .data = datagram_answer_to(b + HPAI, from),
                    .silent = now + TUNNEL_SILENCE, .addresses = { own }, .address_count = kind == TUNNEL_TUNNELLING,
                    .requests = limit_full(CLIENT_MOST, now) };
    t->counts.opened++;
    log_line("channel %d is opened by %s: %s", c->number, where, kind == TUNNEL_TUNNELLING ? meaning_address(address, own) : "management");
    uint8_t body[2 + HPAI + 4] = { c->number, OK };
    datagram_hpai(body + 2, t->own);
    memcpy(body + 2 + HPAI, (const uint8_t[]){ long_is, kind, (uint8_t)(own >> 8), (uint8_t)own }, long_is);
    send_datagram(t, control, CONNECTED, body, 2 + HPAI + (size_t)long_is);
}

/* A question after a channel, or its end: by its own client alone. */
static void take_control(tunnel *t, endpoint from, const uint8_t *b, size_t length, uint64_t now, bool ends)
{
    if (length < 2 + HPAI || !datagram_is_udp(b + 2))
        return;
    channel *c = find(t, b[0]);
    if (c != NULL && !datagram_same(c->control, from))
        c = NULL;
    if (!(c != NULL ? within_channel(t, c, now) : within(t, from, now)))
        return;
    send_status(t, datagram_answer_to(b + 2, from), ends ? DISCONNECTED : STATE_IS, b[0], c != NULL ? OK : NO_CHANNEL);
    if (c != NULL && ends)
        end(t, c, "its client closes it");
    else if (c != NULL)
        c->silent = now + TUNNEL_SILENCE;
}

static void acknowledge(const tunnel *t, endpoint to, uint8_t kind, const uint8_t *b, uint8_t status)
{
    send_datagram(t, to, kind == TUNNEL_TUNNELLING ? ACKNOWLEDGE : MANAGE_ACKNOWLEDGE, (const uint8_t[]){ 4, b[1], b[2], status }, 4);
}

/* The channel of this kind that a request or acknowledgement of its own client names, or NULL. */
static channel *named(tunnel *t, endpoint from, uint8_t kind, const uint8_t *b)
{
    channel *c = find(t, b[1]);
    return c != NULL && c->kind == kind && datagram_same(c->data, from) ? c : NULL;
}

/* A request that is not taken is not acknowledged either: its client sends it again. That is so of one for whose answers there is no
   room, of one above the limit, and of one that could not be saved. */
static void take_request(tunnel *t, endpoint from, uint8_t kind, const uint8_t *b, size_t length, uint64_t now)
{
    enum { ROOM = 8 };
    if (length < 4 || b[0] != 4)
        return;
    channel *c = named(t, from, kind, b);
    if (c == NULL) {
        if (within(t, from, now))
            acknowledge(t, from, kind, b, NO_CHANNEL);
        return;
    }
    bool before = c->taken && b[2] == (uint8_t)(c->in - 1);
    if ((!before && (b[2] != c->in || c->count > TUNNEL_LINE - ROOM)) || !within_channel(t, c, now))
        return;
    if (!before) {
        if (kind == TUNNEL_MANAGEMENT)
            take_management(t, c, b + 4, length - 4);
        else if (!take_frame(t, c, b + 4, length - 4, now))
            return;
        c->in++;
        c->taken = true;
        c->taken_requests++;
    }
    t->counts.requests += !before;
    t->counts.again += before;
    acknowledge(t, from, kind, b, OK);
}

static void take_acknowledgement(tunnel *t, endpoint from, uint8_t kind, const uint8_t *b, size_t length)
{
    channel *c = length >= 4 && b[0] == 4 ? named(t, from, kind, b) : NULL;
    if (c == NULL || c->sent == 0 || b[2] != c->out || b[3] != OK)
        return;
    c->out++;
    c->sent = 0;
    c->first = (uint8_t)((c->first + 1) % TUNNEL_LINE);
    c->count--;
}

/* What needs no channel. */
static void take_open(tunnel *t, uint16_t service, endpoint from, const uint8_t *b, size_t length, uint64_t now)
{
    if (!within(t, from, now))
        return;
    if (service == SEARCH)
        take_search(t, from, b, length);
    else if (service == DESCRIBE)
        take_describe(t, from, b, length);
    else
        take_connect(t, from, b, length, now);
}

void tunnel_take(tunnel *t, endpoint from, const uint8_t *datagram, size_t length, uint64_t now)
{
    t->counts.datagrams++;
    if (!datagram_is(datagram, length)) {
        t->counts.unread++;
        return;
    }
    uint16_t service = datagram_service(datagram);
    const uint8_t *b = datagram + HEADER;
    length -= HEADER;
    switch (service) {
    case SEARCH:
    case DESCRIBE:
    case CONNECT:
        take_open(t, service, from, b, length, now);
        break;
    case STATE:
        take_control(t, from, b, length, now, false);
        break;
    case DISCONNECT:
        take_control(t, from, b, length, now, true);
        break;
    case REQUEST:
        take_request(t, from, TUNNEL_TUNNELLING, b, length, now);
        break;
    case MANAGE:
        take_request(t, from, TUNNEL_MANAGEMENT, b, length, now);
        break;
    case ACKNOWLEDGE:
        take_acknowledgement(t, from, TUNNEL_TUNNELLING, b, length);
        break;
    case MANAGE_ACKNOWLEDGE:
        take_acknowledgement(t, from, TUNNEL_MANAGEMENT, b, length);
        break;
    case DISCONNECTED: /* to a disconnect of ours */
        break;
    default:
        t->counts.unread++;
    }
}

void tunnel_take_search(tunnel *t, endpoint from, const uint8_t *datagram, size_t length, uint64_t now)
{
    t->counts.datagrams++;
    if (datagram_is(datagram, length) && datagram_service(datagram) == SEARCH)
        take_open(t, SEARCH, from, datagram + HEADER, length - HEADER, now);
    else
        t->counts.unread++;
}

/* ---- time ---- */

static void send_first(const tunnel *t, channel *c, uint64_t now)
{
    const tunnel_frame *f = &c->line[c->first];
    uint8_t body[4 + TUNNEL_FRAME] = { 4, c->number, c->out, 0 };
    memcpy(body + 4, f->bytes, f->length);
    bool tunnels = c->kind == TUNNEL_TUNNELLING;
    send_datagram(t, c->data, tunnels ? REQUEST : MANAGE, body, 4 + (size_t)f->length);
    c->sent++;
    c->again = now + (tunnels ? TUNNEL_WAIT : MANAGEMENT_WAIT);
}

static void tick(tunnel *t, channel *c, uint64_t now)
{
    bool late = c->sent > 0 && now >= c->again;
    if (now >= c->silent)
        hang_up(t, c, "its client has not asked for its state");
    else if (late && c->sent == (c->kind == TUNNEL_TUNNELLING ? TUNNEL_SENDS : MANAGEMENT_SENDS))
        hang_up(t, c, "its client does not acknowledge");
    else if (late || (c->count > 0 && c->sent == 0))
        send_first(t, c, now);
}

void tunnel_tick(tunnel *t, uint64_t now)
{
    for (size_t i = 0; i < TUNNEL_CHANNELS; i++)
        if (t->channels[i].number != 0)
            tick(t, &t->channels[i], now);
}

uint64_t tunnel_due(const tunnel *t)
{
    uint64_t due = UINT64_MAX;
    for (size_t i = 0; i < TUNNEL_CHANNELS; i++) {
        const channel *c = &t->channels[i];
        uint64_t own = c->sent > 0 && c->again < c->silent ? c->again : c->silent;
        if (c->number != 0 && own < due)
            due = own;
    }
    return due;
}

void tunnel_close(tunnel *t)
{
    for (size_t i = 0; i < TUNNEL_CHANNELS; i++)
        if (t->channels[i].number != 0)
            hang_up(t, &t->channels[i], "the host ends");
}
