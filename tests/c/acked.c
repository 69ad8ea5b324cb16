/*
 * acked SOCKET: a partner on the bus of examples/bus.h that offers key 0 and writes 0, 1, 2 .. to the byte at 0100h, each when the
 * one before is acknowledged, until the device is gone; shows each number once its write is acknowledged. A device that is not in
 * verify mode answers none of these writes, so the acknowledgement is all that the partner gets.
 */
#define _POSIX_C_SOURCE 200809L
#include "bus.h"

#include <signal.h>
#include <stdbool.h>
#include <stdio.h>

/* The answer to the key is acknowledged, and no more. */
static bool pass_over(int bus, const uint8_t *got)
{
    const uint8_t acknowledges[] = { 0x29, 0, 0xB0, 0x60, 0x11, 0xFC, 0x11, 0x05, 0, (uint8_t)(T_ACK | (got[9] & 0x3C)) };
    return (got[9] & 0xC0) != T_DATA || send(bus, acknowledges, sizeof acknowledges, 0) > 0;
}

/* Connected data of the partner 11FCh to the device 1105h, with that number; true once it is acknowledged. */
static bool put(int bus, int number, const uint8_t *apdu, uint8_t length)
{
    uint8_t turn = (uint8_t)((number & 15) << 2), got[BUS_PACKET];
    uint8_t frame[32] = { 0x29, 0, 0xB0, 0x60, 0x11, 0xFC, 0x11, 0x05, (uint8_t)(length - 1) };
    memcpy(frame + 9, apdu, length);
    frame[9] |= T_DATA | turn;
    if (send(bus, frame, 9u + length, 0) < 0)
        return false;
    do
        if (recv(bus, got, sizeof got, 0) < 10 || !pass_over(bus, got))
            return false;
    while (got[9] != (T_ACK | turn));
    return true;
}

int main(int count, char **words)
{
    static const uint8_t opens[] = { 0x29, 0, 0xB0, 0x60, 0x11, 0xFC, 0x11, 0x05, 0, T_CONNECT };
    static const uint8_t key[] = { 0x03, 0xD1, 0x00, 0x11, 0x11, 0x11, 0x11 };
    struct sockaddr_un at;
    int bus = count == 2 ? bus_socket(words[1], &at) : -1;
    signal(SIGPIPE, SIG_IGN);
    if (bus < 0 || connect(bus, (struct sockaddr *)&at, sizeof at) != 0 || send(bus, opens, sizeof opens, 0) < 0 ||
        !put(bus, 0, key, sizeof key))
        return 2;
    for (int i = 0;; i++) {
        uint8_t writes[] = { 0x02, 0x81, 0x01, 0x00, (uint8_t)i };
        if (!put(bus, i + 1, writes, sizeof writes))
            return 0;
        printf("%d\n", i);
        fflush(stdout);
    }
}
