/*
 * The reader and writer of the PDUs, for the commissioning tool.
 *
 * Link with libkelindap_pdu.a. On x86-64 it needs nothing from outside today. A freestanding host should provide memcpy,
 * memset, memmove and memcmp: compiled code may call any of the four.
 *
 * An APDU is the part of a frame from octet 6 on: 2 to 16 bytes, of which the first, b0, is octet 6. The six high bits of b0
 * are transport's: ignored on reading, 0 on writing, so that the tool's transport sets them when it sends.
 *
 * The host's duties: the buffers of one call do not overlap; a pointer has as many readable (for out, writable) bytes as
 * its length says; NULL with length 0 is an empty run.
 */
#ifndef KELINDAP_PDU_H
#define KELINDAP_PDU_H

#include "kelindap_common.h"

#ifdef __cplusplus
extern "C" {
#endif

/* The PDUs: 0 to 16, 25 and 27 are requests to a device, 17 to 24 and 26 answers of one. GROUP_RESPONSE is both. */
enum kelindap_kind {
    KELINDAP_GROUP_READ = 0,
    KELINDAP_GROUP_RESPONSE = 1,
    KELINDAP_GROUP_WRITE = 2,
    KELINDAP_ADDRESS_WRITE = 3,
    KELINDAP_ADDRESS_READ = 4,
    KELINDAP_SERIAL_READ = 5,
    KELINDAP_SERIAL_WRITE = 6,
    KELINDAP_DESCRIPTOR_READ = 7,
    KELINDAP_PROPERTY_READ = 8,
    KELINDAP_PROPERTY_WRITE = 9,
    KELINDAP_DESCRIPTION_READ = 10,
    KELINDAP_MEMORY_READ = 11,
    KELINDAP_MEMORY_WRITE = 12,
    KELINDAP_MEMORY_BIT_WRITE = 13,
    KELINDAP_AUTHORIZE_REQUEST = 14,
    KELINDAP_KEY_WRITE = 15,
    KELINDAP_RESTART = 16,
    KELINDAP_ADDRESS_RESPONSE = 17,
    KELINDAP_SERIAL_RESPONSE = 18,
    KELINDAP_DESCRIPTOR_RESPONSE = 19,
    KELINDAP_PROPERTY_RESPONSE = 20,
    KELINDAP_DESCRIPTION_RESPONSE = 21,
    KELINDAP_MEMORY_RESPONSE = 22,
    KELINDAP_AUTHORIZE_RESPONSE = 23,
    KELINDAP_KEY_RESPONSE = 24,
    KELINDAP_USER_MEMORY_READ = 25,
    KELINDAP_USER_MEMORY_RESPONSE = 26,
    KELINDAP_USER_MEMORY_WRITE = 27,
    KELINDAP_NO_KIND = 255 /* no PDU: the kind of what was refused on reading; writing refuses it */
};

/*
 * What each kind has: the service code, the fields in order, the data after them, and the length of the APDU.
 *
 *  kind                  code      fields                          data bytes    bytes in all
 *
 *  GROUP_READ            000h      -                               none          2
 *  GROUP_RESPONSE        040h + v  v 0..63                         0 to 14       2 + data; with data, v must be 0
 *  GROUP_WRITE           080h + v  v 0..63                         0 to 14       2 + data; with data, v must be 0
 *  ADDRESS_WRITE         0C0h      address                         none          4
 *  ADDRESS_READ          100h      -                               none          2
 *  SERIAL_READ           3DCh      serial                          none          8
 *  SERIAL_WRITE          3DEh      serial, address                 none          14, the last 4 ignored
 *  DESCRIPTOR_READ       300h + t  t 0..63                         none          2
 *  PROPERTY_READ         3D5h      object, id, n 0..15, s 0..4095  none          6
 *  PROPERTY_WRITE        3D7h      object, id, n 0..15, s 0..4095  1 to 10       6 + data
 *  DESCRIPTION_READ      3D8h      object, id, index               none          5
 *  MEMORY_READ           200h + n  n 0..15, address                none          4
 *  MEMORY_WRITE          280h + n  n 0..12, address                n             4 + n
 *  MEMORY_BIT_WRITE      3D0h      n 0..5, address                 n AND, n XOR  5 + 2n
 *  AUTHORIZE_REQUEST     3D1h      key                             none          7, the third ignored
 *  KEY_WRITE             3D3h      level, key                      none          7
 *  RESTART               380h      -                               none          2
 *  ADDRESS_RESPONSE      140h      -                               none          2
 *  SERIAL_RESPONSE       3DDh      serial, domain                  none          12, the last 2 ignored
 *  DESCRIPTOR_RESPONSE   340h + t  t 0..63                         0 to 14       2 + data
 *  PROPERTY_RESPONSE     3D6h      object, id, n 0..15, s 0..4095  0 to 10       6 + data
 *  DESCRIPTION_RESPONSE  3D9h      object, id, index, type,        none          9
 *                                  maximum 0..4095, access
 *  MEMORY_RESPONSE       240h + n  n 0..12, address                n             4 + n
 *  AUTHORIZE_RESPONSE    3D2h      level                           none          3
 *  KEY_RESPONSE          3D4h      level                           none          3
 *  USER_MEMORY_READ      2C0h      n, address                      none          5
 *  USER_MEMORY_RESPONSE  2C1h      n 0..11, address                n             5 + n
 *  USER_MEMORY_WRITE     2C2h      n 0..11, address                n             5 + n
 *
 * A field without a range may have any value of its type; serial has six bytes, so it is below 2^48. Numbers stand in the
 * APDU high byte first, n and s of a property in two bytes: four bits n, twelve bits s.
 *  - In a memory write or response, user memory's too, n is the number of data bytes, in a bit write half of it: first the
 *    n AND bytes, then the n XOR bytes. In a read of memory n is what is asked for. In the property kinds n counts elements,
 *    and is not compared with the data.
 *  - A group value has up to six bits in v and no data, or v = 0 and its bytes as data.
 *  - Ignored bytes are no fields: any value is read, 0 is written.
 * Whatever is against this table, in a field or in the length, reads as 10 and is not written: 13.
 */

/*
 * A PDU laid flat. On reading, the fields that its kind does not have are 0; on writing they are not looked at, nor are
 * outcome, data_offset and data_length.
 * outcome is of reading alone: 0 (KELINDAP_OK), or 5 (length not 2 to 16), 8 (no kind has the code), 10 (against the table
 * above), and then the kind is KELINDAP_NO_KIND and every other field is 0. data_offset and data_length say where the data stands in the APDU that was read.
 */
typedef struct kelindap_pdu {
    uint64_t serial;
    uint32_t key;
    uint16_t address;
    uint16_t domain;
    uint16_t s;
    uint16_t maximum;
    uint8_t outcome;
    uint8_t kind;
    uint8_t v;
    uint8_t t;
    uint8_t object;
    uint8_t id;
    uint8_t n;
    uint8_t index;
    uint8_t type;
    uint8_t access;
    uint8_t level;
    size_t data_offset;
    size_t data_length;
} kelindap_pdu;

/*
 * What writing gave: 0 and the count of bytes filled, the rest of the buffer as it was; or 3 (the buffer has under 16 bytes),
 * else 13 (an unknown kind, or anything against the table above), count 0, and the buffer as it was.
 */
typedef struct kelindap_written {
    uint8_t outcome;
    uint8_t count;
} kelindap_written;

/* The version of the library, in the form of KELINDAP_VERSION. */
uint32_t kelindap_pdu_version(void);

/* The PDU in an APDU. */
kelindap_pdu kelindap_read(const uint8_t *apdu, size_t apdu_length);

/* A PDU with its data, written to the front of out; of a bit write the data is the AND bytes and then the XOR bytes. */
kelindap_written kelindap_write(kelindap_pdu pdu, const uint8_t *data, size_t data_length, uint8_t *out, size_t out_length);

/*
 * A group value as a person reads it, by its datapoint type: 1 a switch and 5 a byte, in value; 9 a signed count of
 * hundredths; 14 a float, by the bits of an IEEE single. A type 1 value is 0 or 1, and goes into a PDU as v; the others go
 * as data, of 1, 2 and 4 bytes.
 * outcome is of reading alone: 0, and the fields that the type does not have are 0; or a refusal, and all else is 0.
 * The refusals of both calls: 25 no such type; 20 wrong number of bytes, on writing a part not exactly as long as the value;
 * 21 a type 1 value above 1; 22 the code 7FFFh of type 9; 23 hundredths below -67,108,864 or above 67,043,328; 24 an infinity
 * or NaN. 25 is tested first, then 20.
 */
typedef struct kelindap_point {
    int32_t hundredths;
    uint32_t bits;
    uint8_t type;
    uint8_t value;
    uint8_t outcome;
} kelindap_point;

/* The value of a type in its bytes. */
kelindap_point kelindap_point_read(uint8_t type, const uint8_t *bytes, size_t length);

/*
 * A value into the whole of out: 0, or a refusal, and out is as it was. Of type 9 the code's result is as near as that of any
 * valid code; of two equally near ones it has the one nearer zero; of codes with one result the smallest exponent.
 */
uint8_t kelindap_point_write(kelindap_point point, uint8_t *out, size_t out_length);

#ifdef __cplusplus
}
#endif
#endif
