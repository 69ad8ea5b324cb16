/*
 * A KNXnet/IP server, version 1, over UDP: search, description, tunnelling at the link layer, and device management, without
 * which no server is complete: there each property is answered as not there. It keeps the bus that its clients and the device
 * share. It opens no socket and looks at no clock: datagrams come by tunnel_take and go by `send`, `now` is a count of
 * milliseconds that does not go back.
 *
 * A channel has an individual address of its own, which goes into frames without a source. A client may be a line with more
 * participants (knxd is): a frame with a source is sent under that source. If it goes to an individual address, its source
 * belongs to the channel from then on, and no other channel sends to an individual address under it. Nobody sends under the
 * device's address. What is not sent is confirmed as not sent.
 *
 * A frame to a group or to all is heard by every channel but the one that sent it, and by the device; one to an individual
 * address by whom it belongs to, and by nobody else. When a channel ends, all its addresses are free, and the device is told of
 * each, before anybody else can have it.
 *
 * A datagram counts for a channel only from that channel's endpoint. A tunnelling request is acknowledged after the device has
 * served its frame and saved what was changed; what could not be saved was not taken, and the client sends it again.
 *
 * Each client has so many requests a second, and so has each address for what is of no channel; what is above is dropped, which a
 * right client repeats.
 */
#ifndef TUNNEL_H
#define TUNNEL_H

#include "datagram.h"
#include "limit.h"

enum {
    TUNNEL_CHANNELS = 8,
    TUNNEL_LINE = 64,        /* frames that wait for a client */
    TUNNEL_ADDRESSES = 64,   /* of a channel, its own included */
    TUNNEL_FRAME = 25,       /* bytes of the longest: a standard frame without additional information */
    TUNNEL_DATAGRAM = 512,   /* no datagram of ours, or of a right client, is as long */
    TUNNEL_WAIT = 1000,      /* ms for an acknowledgement */
    TUNNEL_SENDS = 2,        /* of a request; then the channel ends */
    MANAGEMENT_WAIT = 10000, /* the same of management */
    MANAGEMENT_SENDS = 4,
    TUNNEL_SILENCE = 120000, /* ms without a connection state request, after which a channel ends */
    CLIENT_MOST = 200, CLIENT_A_SECOND = 100, /* requests of a channel; a line of twisted pair carries some 50 frames a second */
    GUEST_MOST = 100, GUEST_A_SECOND = 20,    /* of an address, without a channel */
    TUNNEL_GUESTS = 16                        /* addresses that are remembered for that */
};

enum tunnel_kind { TUNNEL_MANAGEMENT = 3, TUNNEL_TUNNELLING = 4 };

typedef struct tunnel_frame {
    uint8_t bytes[TUNNEL_FRAME];
    uint8_t length;
} tunnel_frame;

typedef struct channel {
    uint8_t number; /* 0: there is none */
    uint8_t kind;   /* enum tunnel_kind */
    endpoint control, data;
    bool taken;            /* a request since the connect: before that no number is the one before */
    uint8_t in, out;       /* the number expected of the client, and that of our next request */
    uint8_t sent;          /* how often the first of the line was sent */
    uint8_t first, count;  /* the line: where its first frame stands, and how many there are */
    uint64_t again, silent;
    uint16_t addresses[TUNNEL_ADDRESSES]; /* the first is its own; of management there are none */
    uint8_t address_count;
    limit requests;
    uint64_t taken_requests, limited;
    uint64_t lost; /* frames for which there was no room in the line */
    tunnel_frame line[TUNNEL_LINE];
} channel;

/* What the tunnel needs of the device, and of the network. */
typedef struct tunnel_host {
    void *to;
    void (*send)(void *to, endpoint where, const uint8_t *datagram, size_t length);
    bool (*take)(void *to, const uint8_t *frame, size_t length, uint64_t now); /* a frame that the device hears; false: not saved */
    void (*lost)(void *to, uint16_t address);                                  /* nobody has this address any more */
    const uint8_t *(*sheet)(void *to);                                         /* its first 32 bytes */
} tunnel_host;

/* What was seen since the start. */
typedef struct tunnel_counts {
    uint64_t datagrams, unread; /* all, and those that are no datagram of KNXnet/IP or of no service that is served */
    uint64_t opened, refused;   /* channels */
    uint64_t requests, again;   /* taken; and sent once more by their client */
    uint64_t limited;           /* dropped, being above a limit */
    uint64_t unfit;             /* frames that are no standard frame to be sent */
    uint64_t lost;              /* frames for a client that doesn't read */
} tunnel_counts;

typedef struct tunnel_guest {
    uint32_t address; /* 0: nobody */
    limit asks;
} tunnel_guest;

typedef struct tunnel {
    tunnel_host host;
    endpoint own;
    uint16_t first_address; /* of the first channel; the others follow */
    char name[DATAGRAM_NAME];
    uint8_t last; /* the number given last */
    tunnel_counts counts;
    tunnel_guest guests[TUNNEL_GUESTS];
    channel channels[TUNNEL_CHANNELS];
} tunnel;

/* A datagram; and one to the group of all servers, of which a search alone is taken. */
void tunnel_take(tunnel *t, endpoint from, const uint8_t *datagram, size_t length, uint64_t now);
void tunnel_take_search(tunnel *t, endpoint from, const uint8_t *datagram, size_t length, uint64_t now);

/* A frame of the device: an L_Data.req without additional information. It waits until tunnel_tick. */
void tunnel_put(tunnel *t, const uint8_t *frame, size_t length);

/* Sends what is due, ends what has to end. To be called after each of the above, and when tunnel_due has come. */
void tunnel_tick(tunnel *t, uint64_t now);
uint64_t tunnel_due(const tunnel *t);

/* Ends every channel. */
void tunnel_close(tunnel *t);

#endif
