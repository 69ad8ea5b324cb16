/*
 * The datagrams of KNXnet/IP, version 1: header, services, statuses, and the parts that several of them have. docs/BUS.md has them in
 * a table. Numbers have their high byte first.
 */
#ifndef DATAGRAM_H
#define DATAGRAM_H

#include <stdbool.h>
#include <stddef.h>
#include <stdint.h>

enum service {
    SEARCH = 0x0201,
    FOUND = 0x0202,
    DESCRIBE = 0x0203,
    DESCRIPTION = 0x0204,
    CONNECT = 0x0205,
    CONNECTED = 0x0206,
    STATE = 0x0207,
    STATE_IS = 0x0208,
    DISCONNECT = 0x0209,
    DISCONNECTED = 0x020A,
    MANAGE = 0x0310,
    MANAGE_ACKNOWLEDGE = 0x0311,
    REQUEST = 0x0420,
    ACKNOWLEDGE = 0x0421
};

enum status {
    OK = 0,
    NOT_UDP = 0x01,
    NO_CHANNEL = 0x21,
    NOT_THIS_TYPE = 0x22,
    NOT_THIS_OPTION = 0x23,
    NO_MORE = 0x24,
    NOT_THIS_LAYER = 0x29
};

/* Why a connect was refused, in words. */
const char *datagram_why_not(uint8_t status);

enum { HEADER = 6, HPAI = 8, DESCRIBED = 54 + 8, DATAGRAM_NAME = 30, DATAGRAM_ENDPOINT = 24 };

/* Where a datagram comes from or goes to, in the host's order. */
typedef struct endpoint {
    uint32_t address;
    uint16_t port;
} endpoint;

bool datagram_same(endpoint a, endpoint b);

/* In words: 127.0.0.1:3671. */
const char *datagram_endpoint(char out[DATAGRAM_ENDPOINT], endpoint e);

/* Whether these bytes are a datagram, by their header, and its service. */
bool datagram_is(const uint8_t *datagram, size_t length);
uint16_t datagram_service(const uint8_t *datagram);

/* The header of a datagram with a body of so many bytes. */
void datagram_header(uint8_t out[HEADER], uint16_t service, size_t body);

/* An endpoint in a datagram; whether these bytes are one of UDP. */
void datagram_hpai(uint8_t out[HPAI], endpoint e);
bool datagram_is_udp(const uint8_t hpai[HPAI]);

/*
 * Where an answer goes: to the port that a HPAI names, if it names the address that the datagram came from; else to where it
 * came from. That is right behind address translation too, and nobody is sent what another one asked for.
 */
endpoint datagram_answer_to(const uint8_t hpai[HPAI], endpoint from);

/* Where a search is answered: to what the HPAI names, since a search by multicast may leave a client by another address. */
endpoint datagram_found_to(const uint8_t hpai[HPAI], endpoint from);

/* What the server is: the device, by the first 32 bytes of its sheet and a name, and the services core, management, tunnelling. */
void datagram_describe(uint8_t out[DESCRIBED], const uint8_t *sheet, const char name[DATAGRAM_NAME]);

#endif
