/*
 * A socket with a name in the file system. Its name is taken only if nothing stands there, or a socket on which nobody answers: what a
 * program that was killed has left. A program that is out of descriptors turns newcomers away and goes on: one descriptor is
 * held back to take them with, and one is left free for whoever saves.
 */
#ifndef LOCAL_H
#define LOCAL_H

#include <sys/stat.h>
#include <sys/un.h>

typedef struct local {
    int socket;
    int spare; /* the descriptor that is held back */
} local;

/* The address of a name; false if it is too long. */
_Bool local_name(struct sockaddr_un *at, const char *name);

/* A listening socket of a type, with those rights that the mask leaves. Ends the program if the name can't be had. */
void local_open(local *l, const char *name, int type, mode_t mask);

/* Whoever wants to be heard: a socket, or -1 if there is nobody, or there was no descriptor left. */
int local_accept(local *l);

#endif
