/*
 * twice SOCKET: a partner on the bus of examples/bus.h that offers key 0, sends a bit write, and sends the same frame again, as if
 * its acknowledgement had been lost; then it asks for the height. Tells how often the bit write was acknowledged, and what the
 * sequence numbers of the answers are.
 */
#define _POSIX_C_SOURCE 200809L
#include "bus.h"

#include <stdbool.h>
#include <stdio.h>

/* A frame of the partner 11FDh to the device 1105h, from octet 6 on; false if it can't be sent. */
static bool put(int bus, const uint8_t *tpdu, uint8_t length)
{
    uint8_t frame[32] = { 0x29, 0, 0xB0, 0x60, 0x11, 0xFD, 0x11, 0x05, (uint8_t)(length - 1) };
    memcpy(frame + 9, tpdu, length);
    return send(bus, frame, 9u + length, 0) == 9 + length;
}

int main(int count, char **words)
{
    static const uint8_t opens[] = { T_CONNECT }, closes[] = { T_DISCONNECT };
    static const uint8_t key[] = { 0x43, 0xD1, 0x00, 0x11, 0x11, 0x11, 0x11 };  /* number 0 */
    static const uint8_t bits[] = { 0x47, 0xD0, 0x01, 0x01, 0x00, 0xFF, 0x0F }; /* number 1: at 0100h, AND FFh, XOR 0Fh */
    static const uint8_t height[] = { 0x4B, 0xD5, 0x01, 0x33, 0x10, 0x01 };     /* number 2 */
    struct sockaddr_un at;
    int bus = count == 2 ? bus_socket(words[1], &at) : -1;
    if (bus < 0 || connect(bus, (struct sockaddr *)&at, sizeof at) != 0)
        return 2;
    if (!put(bus, opens, sizeof opens) || !put(bus, key, sizeof key) || !put(bus, bits, sizeof bits) ||
        !put(bus, bits, sizeof bits) || !put(bus, height, sizeof height))
        return 2;
    uint8_t frame[BUS_PACKET] = { 0 };
    int acknowledged = 0;
    printf("answers");
    do {
        if (recv(bus, frame, sizeof frame, 0) < 10)
            return 2;
        acknowledged += frame[9] == (T_ACK | 1 << 2);
        if ((frame[9] & 0xC0) == T_DATA) {
            uint8_t number = frame[9] >> 2 & 15, acknowledges[] = { (uint8_t)(T_ACK | number << 2) };
            printf(" %d", number);
            if (!put(bus, acknowledges, sizeof acknowledges))
                return 2;
        }
    } while ((frame[9] & 3) != 3 || frame[10] != 0xD6); /* the height is told */
    printf(", acknowledged %d times\n", acknowledged);
    return put(bus, closes, sizeof closes) ? 0 : 2;
}
