/*
 * Transport on a connection: sequence numbers, acknowledgements, repetitions and time limits. Each function changes the state that
 * it is given and tells what to do; none sends, and none looks at a clock: `now` is a count of milliseconds that does not go
 * back. It knows no address and no device: a host takes it as it is (kelindap-device and examples/host.c do).
 *
 * One frame of ours waits for its acknowledgement at a time; those after it stand in line. Data for whose answer there is no room
 * in the line is neither taken nor acknowledged: the partner sends it again.
 *
 * tests/device/transport_test.c has a row for every event in every state.
 */
#ifndef TRANSPORT_H
#define TRANSPORT_H

#include <stdbool.h>
#include <stddef.h>
#include <stdint.h>

enum {
    TRANSPORT_SILENCE = 6000, /* ms without a frame of the partner or data of ours, after which the connection ends */
    TRANSPORT_WAIT = 3000,    /* ms for an acknowledgement */
    TRANSPORT_REPEATS = 3,    /* so often a frame is sent again */
    TRANSPORT_LINE = 4,       /* frames of ours: one under way, and those after it */
    TRANSPORT_FRAME = 25      /* bytes of the longest */
};

/* The octets of transport that are no data; and the bits that make data connected. A sequence number stands at bit 2. */
enum { T_CONNECT = 0x80, T_DISCONNECT = 0x81, T_ACK = 0xC2, T_NAK = 0xC3, T_DATA = 0x40 };

typedef struct transport_frame {
    uint8_t bytes[TRANSPORT_FRAME];
    uint8_t length;
} transport_frame;

typedef struct transport {
    bool open;
    bool taken;             /* something since the connect: before that no number is the one before */
    uint8_t in, out;        /* the number expected of the partner, and that of our next new frame */
    uint8_t first, count;   /* our line: where its first frame stands in `line`, and how many there are */
    uint8_t repeats;        /* how often the first was sent again */
    uint64_t again, silent; /* when it is sent again, and when the connection ends */
    transport_frame line[TRANSPORT_LINE];
} transport;

/* What is to be done. */
typedef enum transport_todo {
    TRANSPORT_NOTHING,
    TRANSPORT_TAKE,        /* the data is new: serve it, save, acknowledge its number */
    TRANSPORT_ACKNOWLEDGE, /* it was taken before: acknowledge its number again */
    TRANSPORT_REFUSE,      /* T_NAK with its number */
    TRANSPORT_SEND,        /* send transport_first, maybe again */
    TRANSPORT_END          /* disconnect the partner, and close */
} transport_todo;

/* A connect, a second one too: numbers 0, nothing in line. */
void transport_open(transport *t, uint64_t now);
void transport_close(transport *t);

/* Data of the partner with a number. */
transport_todo transport_data(transport *t, uint8_t number, uint64_t now);

/* A T_ACK or T_NAK of the partner, by its octet. */
transport_todo transport_acknowledged(transport *t, uint8_t octet, uint64_t now);

/* A new frame of ours, which has number `out`: it goes now, or waits in line. */
transport_todo transport_put(transport *t, const uint8_t *frame, size_t length, uint64_t now);

/* A sign of life of the partner that is no frame of transport. */
void transport_alive(transport *t, uint64_t now);

/* The time has come on. */
transport_todo transport_tick(transport *t, uint64_t now);

/* When transport_tick has something to do; UINT64_MAX if never. */
uint64_t transport_due(const transport *t);

/* The frame that waits for its acknowledgement. */
const transport_frame *transport_first(const transport *t);

#endif
