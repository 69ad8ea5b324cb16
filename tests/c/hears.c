/*
 * hears SOCKET: two lines on the bus of examples/bus.h. One asks for the height and then for the value of a group; the other says
 * nothing. Tells what each of them hears: `told` an answer to one address, `all` one to a group.
 */
#define _POSIX_C_SOURCE 200809L
#include "bus.h"

#include <stdbool.h>
#include <stdio.h>

static int line_to(const char *name)
{
    struct sockaddr_un at;
    int bus = bus_socket(name, &at);
    return bus >= 0 && connect(bus, (struct sockaddr *)&at, sizeof at) == 0 ? bus : -1;
}

/* The next frame on a line, by its destination; false if there is none. */
static bool hear(int bus)
{
    uint8_t frame[BUS_PACKET];
    if (recv(bus, frame, sizeof frame, 0) < 10)
        return false;
    printf(" %s", frame[3] >= 0x80 ? "all" : "told");
    return true;
}

int main(int count, char **words)
{
    static const uint8_t height[] = { 0x29, 0, 0xB0, 0x60, 0x11, 0xFB, 0x11, 0x05, 5, 0x03, 0xD5, 0x01, 0x33, 0x10, 0x01 };
    static const uint8_t group[] = { 0x29, 0, 0xBC, 0xE0, 0x11, 0xFB, 0x08, 0x01, 1, 0x00, 0x00 };
    int asks = count == 2 ? line_to(words[1]) : -1, listens = asks >= 0 ? line_to(words[1]) : -1;
    if (listens < 0 || send(asks, height, sizeof height, 0) < 0)
        return 2;
    printf("asks");
    if (!hear(asks) || send(asks, group, sizeof group, 0) < 0 || !hear(asks))
        return 2;
    printf(", listens");
    if (!hear(listens))
        return 2;
    puts("");
    return 0;
}
