/*
 * deaf SOCKET: a partner on the bus of examples/bus.h that connects, sends requests and reads no answer, until it is dropped
 * or has sent a hundred thousand; says which. A host that waits for it has no time for anybody else.
 */
#define _POSIX_C_SOURCE 200809L
#include "bus.h"

#include <signal.h>
#include <stdio.h>

int main(int count, char **words)
{
    struct sockaddr_un at;
    uint8_t frame[] = { 0x29, 0, 0xB0, 0x60, 0x11, 0xFE, 0x11, 0x05, 5, 0x03, 0xD5, 0x01, 0x33, 0x10, 0x01 };
    uint8_t opens[] = { 0x29, 0, 0xB0, 0x60, 0x11, 0xFE, 0x11, 0x05, 0, T_CONNECT };
    int bus = count == 2 ? bus_socket(words[1], &at) : -1;
    signal(SIGPIPE, SIG_IGN);
    if (bus < 0 || connect(bus, (struct sockaddr *)&at, sizeof at) != 0 || send(bus, opens, sizeof opens, 0) < 0)
        return 2;
    for (int i = 0; i < 100000; i++) {
        frame[9] = (uint8_t)(0x43 | (i & 15) << 2); /* connected: element 1 of property 51 */
        if (send(bus, frame, sizeof frame, 0) < 0) {
            puts("dropped");
            return 0;
        }
    }
    puts("never dropped");
    return 1;
}
