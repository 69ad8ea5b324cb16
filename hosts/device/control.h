/*
 * A socket in the file system, mode 600, for whoever runs the host: a line in, lines out, the last of which begins with "ok" or
 * "refused". What a command may do is the library's to say.
 *
 *   button on, button off   the programming button
 *   state                   the device, its connections, the channels, and what was counted since the start
 *   versions                the numbers of the versions that are kept
 *   save                    keeps the settings as a version
 *   restore N               gives a version back; the library wants a connection at level 0, so a partner has to be connected
 *                           and to have offered that key
 *   remove N                forgets a version
 */
#ifndef CONTROL_H
#define CONTROL_H

#include "device.h"
#include "local.h"
#include "tunnel.h"

enum { CONTROL_CLIENTS = 4, CONTROL_WORDS = 128, CONTROL_ANSWER = 16384 };

typedef struct control_client {
    int socket; /* -1: there is none */
    uint64_t heard; /* when: a count that rises */
    char words[CONTROL_WORDS];
    size_t length;
} control_client;

typedef struct control {
    local local;
    uint64_t turn;
    control_client clients[CONTROL_CLIENTS];
} control;

/* Ends the program if the name can't be had (local.h). */
void control_open(control *c, const char *name);

/* Somebody wants to be heard: the one that was heard longest ago makes room, if there is none. */
void control_accept(control *c);

/* A client has sent something, or is gone. */
void control_take(control *c, size_t client, device *d, const tunnel *t);

/* The words of `kelindap-device ctl`, spoken to the socket: the exit status. */
int control_ask(const char *name, char **words);

#endif
