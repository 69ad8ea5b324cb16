/* The datagrams of KNXnet/IP, as datagram.h tells. */
#include "datagram.h"

#include <stdio.h>
#include <string.h>

enum { DEVICE_DIB = 54, SERVICES_DIB = 8, TWISTED_PAIR = 2 };

const char *datagram_why_not(uint8_t status)
{
    switch (status) {
    case NOT_UDP:
        return "it asks for another protocol than UDP";
    case NOT_THIS_TYPE:
        return "it asks for what is neither tunnelling nor management";
    case NOT_THIS_OPTION:
        return "it asks for options that are not served";
    case NOT_THIS_LAYER:
        return "it asks for another layer than the link layer";
    default:
        return "all are taken";
    }
}

bool datagram_same(endpoint a, endpoint b)
{
    return a.address == b.address && a.port == b.port;
}

const char *datagram_endpoint(char out[DATAGRAM_ENDPOINT], endpoint e)
{
    snprintf(out, DATAGRAM_ENDPOINT, "%u.%u.%u.%u:%u", e.address >> 24 & 255, e.address >> 16 & 255, e.address >> 8 & 255,
             e.address & 255, e.port);
    return out;
}

bool datagram_is(const uint8_t *d, size_t length)
{
    return length >= HEADER && d[0] == HEADER && d[1] == 0x10 && (size_t)(d[4] << 8 | d[5]) == length;
}

uint16_t datagram_service(const uint8_t *d)
{
    return (uint16_t)(d[2] << 8 | d[3]);
}

void datagram_header(uint8_t out[HEADER], uint16_t service, size_t body)
{
    size_t all = HEADER + body;
    memcpy(out, (const uint8_t[]){ HEADER, 0x10, (uint8_t)(service >> 8), (uint8_t)service, (uint8_t)(all >> 8), (uint8_t)all }, HEADER);
}

void datagram_hpai(uint8_t out[HPAI], endpoint e)
{
    const uint8_t hpai[HPAI] = { 8, 1, (uint8_t)(e.address >> 24), (uint8_t)(e.address >> 16), (uint8_t)(e.address >> 8),
                                 (uint8_t)e.address, (uint8_t)(e.port >> 8), (uint8_t)e.port };
    memcpy(out, hpai, HPAI);
}

bool datagram_is_udp(const uint8_t hpai[HPAI])
{
    return hpai[0] == HPAI && hpai[1] == 1;
}

static endpoint read_hpai(const uint8_t hpai[HPAI])
{
    uint32_t address = (uint32_t)hpai[2] << 24 | (uint32_t)hpai[3] << 16 | (uint32_t)hpai[4] << 8 | hpai[5];
    return (endpoint){ address, (uint16_t)(hpai[6] << 8 | hpai[7]) };
}

endpoint datagram_answer_to(const uint8_t hpai[HPAI], endpoint from)
{
    endpoint named = read_hpai(hpai);
    return named.address == from.address && named.port != 0 ? named : from;
}

endpoint datagram_found_to(const uint8_t hpai[HPAI], endpoint from)
{
    endpoint named = read_hpai(hpai);
    return named.address != 0 && named.port != 0 ? named : from;
}

void datagram_describe(uint8_t out[DESCRIBED], const uint8_t *sheet, const char name[DATAGRAM_NAME])
{
    static const uint8_t services[SERVICES_DIB] = { SERVICES_DIB, 2, 2, 1, 3, 1, 4, 1 }; /* version 1 of each */
    memset(out, 0, DEVICE_DIB);
    out[0] = DEVICE_DIB;
    out[1] = 1;
    out[2] = TWISTED_PAIR;
    out[3] = sheet[14] & 1;        /* programming mode */
    memcpy(out + 4, sheet + 16, 2); /* individual address */
    memcpy(out + 8, sheet + 6, 6);  /* serial number */
    memcpy(out + 24, name, DATAGRAM_NAME);
    memcpy(out + DEVICE_DIB, services, SERVICES_DIB);
}
