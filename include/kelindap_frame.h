/*
 * The reader and writer of cEMI frames, L_Data.req and L_Data.ind of KNX 3/6/3, as a USB interface hands them up.
 *
 * Link with libkelindap_pdu.a; kelindap_pdu.h says what that needs and what the host's duties are. Standard frames only:
 *
 *  bytes       what
 *
 *  1           message code: 11h L_Data.req, 29h L_Data.ind
 *  1           length of the additional information, 0 to 255
 *  that many   additional information
 *  1           control 1, bit 7 set: a standard frame
 *  1           control 2: bit 7 says that the destination is a group, bits 6 to 4 any, bits 3 to 0 clear
 *  2           source
 *  2           destination
 *  1           one less than the bytes that follow, 0 to 15
 *  1 to 16     the TPDU, from octet 6 on; the top six bits of its first byte are transport's
 *
 * So a frame has 10 to 280 bytes. The TPDU of a data frame is the APDU that kelindap_request and kelindap_read take: they
 * ignore transport's bits.
 */
#ifndef KELINDAP_FRAME_H
#define KELINDAP_FRAME_H

#include <stddef.h>
#include <stdint.h>

#ifdef __cplusplus
extern "C" {
#endif

enum kelindap_message {
    KELINDAP_L_DATA_REQ = 0x11,
    KELINDAP_L_DATA_IND = 0x29
};

/*
 * What a frame means. Up to 3 it is data, and the number is the mode of kelindap_request.
 *  - MULTICAST and BROADCAST: to a group, transport 0; group 0 is broadcast.
 *  - CONNECTIONLESS, CONNECTED: to an individual address, transport 0, or 16 to 31, of which the low four bits are the
 *    sequence number.
 *  - CONNECT, DISCONNECT: to an individual address, the single octet 80h or 81h.
 *  - ACKNOWLEDGED: to an individual address, a single octet with transport 48 to 63 and low bits 10 or 11.
 *  - OTHER: anything else.
 * Sequence numbers, source and destination are not judged: whether a frame is meant for this device, and from its partner, the
 * calls of kelindap_link.h say.
 */
enum kelindap_event {
    KELINDAP_EVENT_MULTICAST = 0,
    KELINDAP_EVENT_BROADCAST = 1,
    KELINDAP_EVENT_CONNECTIONLESS = 2,
    KELINDAP_EVENT_CONNECTED = 3,
    KELINDAP_EVENT_CONNECT = 4,
    KELINDAP_EVENT_DISCONNECT = 5,
    KELINDAP_EVENT_OTHER = 44,
    KELINDAP_EVENT_ACKNOWLEDGED = 45,
    KELINDAP_NO_EVENT = 255 /* no frame: the event of what was refused on reading */
};

/*
 * A frame laid flat.
 * On reading, outcome is 0, or the first of: 40 (under 2 bytes, or under 10 and the additional information), 41 (another
 * message code), 42 (no standard frame), 43 (the length byte above 15, or not one less than the bytes from octet 6 on); and
 * then the event is KELINDAP_NO_EVENT and every other field is 0. The offsets and lengths say where additional information and TPDU stand in the frame read.
 * On writing, outcome, event, offsets and lengths are not looked at.
 */
typedef struct kelindap_frame {
    uint16_t source;
    uint16_t destination;
    uint8_t outcome;
    uint8_t event;
    uint8_t code;
    uint8_t control1;
    uint8_t control2;
    uint8_t transport;
    size_t info_offset;
    size_t info_length;
    size_t tpdu_offset;
    size_t tpdu_length;
} kelindap_frame;

/*
 * What writing a frame gave: 0 and the count of bytes filled, the rest of the buffer as it was; or 47 (a field that no frame
 * that reads can have, more than 255 bytes of additional information, an APDU of none or more than 16 bytes), else 46 (the
 * buffer is shorter than the frame), count 0, and the buffer as it was.
 */
typedef struct kelindap_framed {
    uint16_t count;
    uint8_t outcome;
} kelindap_framed;

/* The frame in the bytes. */
kelindap_frame kelindap_frame_read(const uint8_t *frame, size_t length);

/* A frame with its additional information and an APDU, whose top six bits become transport, written to the front of out. */
kelindap_framed kelindap_frame_write(kelindap_frame fields, const uint8_t *info, size_t info_length, const uint8_t *apdu,
                                     size_t apdu_length, uint8_t *out, size_t out_length);

#ifdef __cplusplus
}
#endif
#endif
