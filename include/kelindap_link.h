/*
 * From the frame to the event: which partner has which connection, what is for this device, who is turned away, and the frame
 * that answers. Link with libkelindap_device.a; what kelindap.h says of it, of the sheet and of saving holds here too. With these
 * calls a host keeps no table of its partners: a kelindap_link is the sessions and, for each connection, the address that
 * connected last on it, and the partner of a connection is that address while its session is open. So what closes a session, a
 * disconnect, a time-out or a Restart, frees its place.
 *
 * The host's duties, which no proof covers:
 *  - it begins with the sessions from kelindap_fresh, whatever the addresses are, which count only while a session is open.
 *    Nothing but these calls, kelindap_button, kelindap_restore and, for time-outs, kelindap_disconnect on link.sessions changes
 *    link and sheet. It never calls kelindap_connect on link.sessions: that would open a place for whoever had it last;
 *  - sequence numbers and acknowledgements. A partner whose acknowledgement was lost sends its frame again, and a second bit
 *    write undoes the first. So for connected data the host asks kelindap_heard first, holds the sequence number that it tells
 *    against the one that is next on that connection, and calls kelindap_serve only with a new one, which it acknowledges after
 *    the call, when what was stored is saved: a write that is not answered has the acknowledgement alone. The one that it
 *    took last on this connection it acknowledges once more. It hands over the number with which its own next frame on that
 *    connection goes out, and counts it on if a frame was sent there. A connect, a second one too, sets both to 0;
 *  - 255 in `connection` (KELINDAP_LINK_NOBODY) is no connection, and never an index: data without a connection, frames for
 *    others and all that is a stranger's have it. A host that keeps its numbers in an array of two asks for it before it looks
 *    there;
 *  - 45, an acknowledgement, tells by its connection whose it is, by `sequence` of which frame, and by `negative` that this one
 *    is asked for again; 61 and 62 are a stranger's, to whose address (`source`) transport sends a disconnect; 63 is a
 *    stranger's disconnect, which nothing answers. 65 came from this device's own address to itself: its own frame that came
 *    back, as from a router that loops, or another device with the same address. Nothing is sent to it; a host may tell the
 *    operator. What goes to a group or to all is heard from whatever source, so a host that gets back what it sent itself
 *    leaves that out before the call;
 *  - transport's time limits. A partner of which nothing is heard for 6 s is disconnected: kelindap_disconnect with its number,
 *    and a T_Disconnect is due to it on the bus, so that it knows; its place is then free. An answer that is not acknowledged
 *    within 3 s is sent again, three times at 3 s, and then the connection ends in the same way. Without these limits
 *    two silent partners shut every other one out;
 *  - a session that was open before a call of kelindap_serve and is closed after it, though the frame was no disconnect of that
 *    partner, was closed by a Restart: a disconnect is then due to that partner on the bus.
 *
 * What no proof gives: addresses on the bus are not authenticated. Whoever sends under a partner's address acts at the level of
 * that partner, ends its connection, or sets it back to level 3 by a second connect. A stranger can take both places, again and
 * again, and whoever has none is then turned away. If the sheet names rules 1, anybody who reaches this device restarts it,
 * and that ends both connections.
 *
 * What holds, if the host keeps these duties and begins with an accepted sheet and closed sessions: a frame changes no byte whose
 * write level is at most l, which is 0, 1 or 2, unless its sender, by the address in it, has offered in a frame of its own what
 * was then a key of a level up to l, whatever others have offered (without-key in docs/PROMISES.md). And against forged addresses,
 * since it counts every sender: as long as no frame that is heard as a request offers a key of a level up to l, as the first
 * sheet has it, no such byte changes at all (keyless-heard).
 *
 * Stack: serving takes more than the request in it, since the answer's buffer and the parts that were stored come on top; the
 * table "Stack" of docs/SPEED.md has both for each processor.
 */
#ifndef KELINDAP_LINK_H
#define KELINDAP_LINK_H

#include "kelindap.h"
#include "kelindap_frame.h"

#ifdef __cplusplus
extern "C" {
#endif

/* The sessions of connections 0 and 1, and the address that connected last on each. */
typedef struct kelindap_link {
    kelindap_sessions sessions;
    uint16_t address[KELINDAP_CONNECTIONS];
} kelindap_link;

/*
 * Why a frame is no event, beside 40 to 43 of kelindap_common.h and 44 and 45 of enum kelindap_event, in this order: 64, 40 to
 * 43, 60, 65, 44 or 45, and 61, 62 or 63. Each changes nothing and fills nothing.
 */
enum kelindap_link_outcome {
    KELINDAP_LINK_FOR_ANOTHER = 60, /* to one device, and not to this one */
    KELINDAP_LINK_STRANGER = 61,    /* connected data from nobody's partner */
    KELINDAP_LINK_NO_PLACE = 62,    /* a connect with both places taken by others */
    KELINDAP_LINK_NO_PARTNER = 63,  /* a disconnect from nobody's partner */
    KELINDAP_LINK_NO_ROOM = 64,     /* serving: the buffer has under KELINDAP_LINK_ROOM bytes */
    KELINDAP_LINK_ITSELF = 65       /* to this device alone, from its own address */
};

enum {
    KELINDAP_LINK_ROOM = 25,   /* bytes of the longest frame that answers */
    KELINDAP_LINK_NOBODY = 255 /* no connection; never an index */
};

/*
 * What a frame is to this device. event: 0 to 3 data in that mode, 4 a connect, 5 a disconnect, as enum kelindap_event has them,
 * or the number of why there is none. connection: of connected data, a connect and a disconnect; of 44 and 45 that of the partner
 * who sent it; else KELINDAP_LINK_NOBODY, 255, which is never an index. group: the destination of data, else 0.
 * Of every frame that reads, whatever it is to this device: source, the address that sent it; sequence, the low four bits of
 * transport's six, which are the sequence number of connected data and of an acknowledgement, and 0 of a connect, a disconnect
 * and data without connection; negative, that octet 6 is that of T_NAK, which counts of 45 alone. Of 40 to 43 all three are 0.
 */
typedef struct kelindap_arrival {
    uint8_t event;
    uint8_t connection;
    uint16_t group;
    uint16_t source;
    uint8_t sequence;
    bool negative;
} kelindap_arrival;

/*
 * What serving a frame gave. number: 0 if it is an event, and then outcome is the event's, 1 of a connect and a disconnect; else
 * why there is none, and outcome is 0. connection as in kelindap_arrival: 255 is never an index. count: bytes of the frame that
 * answers, at the front of the buffer, 0 if there is none; the rest stays. changed: the parts of the sheet that were stored, as
 * in kelindap_reply; every byte outside them is as it was. Only data stores: what is no event, a connect, a disconnect and an
 * outcome from 2 on have 0 and 0.
 */
typedef struct kelindap_served {
    uint8_t number;
    uint8_t outcome;
    uint8_t connection;
    uint8_t count;
    kelindap_part changed[KELINDAP_CHANGED];
} kelindap_served;

/* What a frame is to the device with this sheet, whose address is the sheet's as it stands. Nothing changes. */
kelindap_arrival kelindap_heard(kelindap_link link, const uint8_t *sheet, size_t sheet_length,
                                const uint8_t *frame, size_t frame_length);

/*
 * A frame in, at most one frame out. A connect goes to the connection that its source has already, which is then open at level 3
 * again, or to the first that is closed. The frame that answers is an L_Data.req without additional information and with hop
 * count 6, of the request's priority; from the device's address as it was when the frame came; to the group if a group was asked,
 * else to who asked; of connected data it has the sequence number given, of which the low four bits count.
 */
kelindap_served kelindap_serve(kelindap_link *link, uint8_t *sheet, size_t sheet_length,
                               const uint8_t *frame, size_t frame_length,
                               uint8_t *out, size_t out_length, uint8_t sequence);

#ifdef __cplusplus
}
#endif
#endif
