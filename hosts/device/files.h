/*
 * Bytes kept in a file. What was changed is saved before anybody is told: written to a new file beside the old one, brought to the
 * disk, and renamed over it. So the file holds the bytes before a change or after it, whole. A name that is a symbolic link is
 * followed to the file: a save would replace the link, and the file behind it would stay as it was.
 *
 * A lock beside the file, NAME.lock, is held for as long as a program serves it, so that no second one does.
 */
#ifndef FILES_H
#define FILES_H

#include <stdbool.h>
#include <stddef.h>
#include <stdint.h>

enum { FILES_NAME = 4096 + 16 /* a path and an ending */, FILES_MOST = 32768 };

typedef struct kept {
    char name[FILES_NAME]; /* as it was given, for messages */
    char file[FILES_NAME]; /* within the folder */
    char fresh[FILES_NAME]; /* where it is written first once it has changed */
    int folder;            /* of both, open */
    uint8_t bytes[FILES_MOST + 1];
    uint8_t saved[FILES_MOST + 1]; /* what the file has */
    size_t length;
} kept;

/* The program's name, before every message; each program has it. */
extern const char files_program[];

/* Names a thing and what is wrong with it, with errno's words if it is not 0, and ends the program. */
_Noreturn void files_give_up(const char *name, const char *what);

/* The file itself that a path names: a path without links in it. False if there is none, and errno says why. */
bool files_find(char path[FILES_NAME], const char *given);

/* Takes the lock on a path, and ends the program if it can't be had. It is held until the program ends, however it ends. */
void files_lock(const char *path, const char *given);

/* Reads the file whose name is the path and the ending; false if there is none, and then its length is 0 and all its bytes are too. */
bool files_load(kept *k, const char *path, const char *ending, const char *given);

/*
 * Saves the bytes. If that can't be done, false, errno says why, and the file is as it was. Where it can't be known what the disk
 * has, the program ends: what it then starts with is what the file has.
 */
bool files_save(kept *k);

/* The bytes as the file has them. */
void files_back(kept *k);

#endif
