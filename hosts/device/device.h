/*
 * The device on the bus: frames in, frames out. What a frame is, who has which connection, who is turned away and what is answered
 * is the library's to say (kelindap_link.h), and so is what becomes of a button or a version: this file and device.c are all that
 * calls it for that. Here its word is carried out: transport is kept, what was changed is saved, and only then is anything sent.
 *
 * What can't be saved has not happened: sheet, sessions and numbers are as they were before the frame, nothing is sent, and whoever
 * sent it sends it again.
 */
#ifndef DEVICE_H
#define DEVICE_H

#include "files.h"
#include "kelindap_store.h"
#include "kelindap_link.h"
#include "transport.h"

enum { DEVICE_NEW_STORE = 4096 };

/* What was seen since the start. */
typedef struct device_counts {
    uint64_t frames;      /* for this device, or to a group */
    uint64_t carried_out; /* requests */
    uint64_t refused;     /* requests */
    uint64_t turned_away; /* connects without a place, and data of strangers */
    uint64_t silent;      /* connections that ended by a time limit */
    uint64_t saves, unsaved;
} device_counts;

typedef struct device {
    kept sheet, store;
    kelindap_link link;
    transport transport[KELINDAP_CONNECTIONS];
    device_counts counts;
    uint8_t before[FILES_MOST + 1]; /* the sheet before what is served now */
    int trouble; /* why the last save failed, 0 if it did not */
    void *bus;   /* takes the device's frames, by `send`: L_Data.req without additional information, 10 to 25 bytes */
    void (*send)(void *bus, const uint8_t *frame, size_t length);
} device;

/*
 * Takes the lock on the sheet, reads sheet and store, converts an old sheet (and says so), makes an empty store at the first start,
 * and switches programming mode off, which is not to survive a start. Ends the program if the sheet is served by another one or
 * not accepted, or if the store is not good. `path` is the sheet's without links in it.
 */
void device_open(device *d, const char *path, const char *given);

/* The individual address, as it stands. */
uint16_t device_address(const device *d);

/* A frame from the bus. False: what it changed could not be saved, and nothing has happened. */
bool device_take(device *d, const uint8_t *frame, size_t length, uint64_t now);

/* Whoever has this address can't be reached any more: its connection ends, and nothing is sent. */
void device_lost(device *d, uint16_t address);

/* The time has come on; and when there is something to do next. */
void device_tick(device *d, uint64_t now);
uint64_t device_due(const device *d);

/* What whoever runs the host may do; each gives the library's outcome, or this one, and then nothing has changed. */
enum { DEVICE_UNSAVED = 255 };
uint8_t device_button(device *d, bool on);
kelindap_saved device_save(device *d);
uint8_t device_restore(device *d, size_t number); /* for a partner at level 0, if there is one */
uint8_t device_remove(device *d, size_t number);

/* The number of the k-th version that is kept, the first being 0; 0 if there are not so many. */
uint16_t device_version(const device *d, size_t k);

#endif
