/*
 * A bus on one machine, for the two examples: a socket in the file system; who connects to it has a line, and each packet on a
 * line is a frame, as a USB interface hands it up. What asks for a version is no frame but four bytes: what it is, zero, the
 * number; it gets as many back: the outcome, zero, the number. In a real host this file is the driver of the interface.
 */
#ifndef BUS_H
#define BUS_H

#include "transport.h" /* the octets of transport; it lies in hosts/device */

#include <stdint.h>
#include <string.h>
#include <sys/socket.h>
#include <sys/types.h>
#include <sys/un.h>
#include <unistd.h>

/* What a packet about versions is; no frame begins so, and a 0 is none of them. */
enum { BUS_SAVE = 1, BUS_RESTORE = 2, BUS_REMOVE = 3, BUS_VERSION = 4 /* bytes */ };

/* The longest frame, and a byte more than any that is right. */
enum { BUS_PACKET = 280 + 1 };

/* The socket of a bus, and its name in `at`; -1 if the name is too long or there is no socket. */
static inline int bus_socket(const char *name, struct sockaddr_un *at)
{
    memset(at, 0, sizeof *at);
    at->sun_family = AF_UNIX;
    if (strlen(name) >= sizeof at->sun_path)
        return -1;
    strcpy(at->sun_path, name);
    return socket(AF_UNIX, SOCK_SEQPACKET, 0);
}

#endif
