/*
 * A host for a microcontroller that keeps its sheet in two sectors of flash, and versions of the settings in two more: what the board
 * gives it, and what it gives the board. examples/flash.c is the host; it needs no C library.
 */
#ifndef FLASH_H
#define FLASH_H

#include "kelindap_slots.h"
#include "kelindap_unit.h"

/* ---- the board's numbers; each may be given to the compiler ---- */

/* Bytes of a sector, or of the sectors that make one slot: 64 and the longest sheet or store at least, and whole units. */
#ifndef FLASH_ROOM
#define FLASH_ROOM 8192
#endif
/* Bytes that are programmed at once: 1, 2, 4, 8, 16 or 32. */
#ifndef FLASH_UNIT
#define FLASH_UNIT 8
#endif
/* 1 if what is programmed must be erased before it is programmed again, zeros included: most flash with ECC. 0 if zeros may be
   programmed over anything. */
#ifndef FLASH_ONCE
#define FLASH_ONCE 0
#endif
/* Bytes of memory for the sheet, and for the store. */
#ifndef HOST_SHEET
#define HOST_SHEET 4096
#endif
#ifndef HOST_STORE
#define HOST_STORE 2048
#endif

/* ---- what the board gives ---- */

/*
 * The flash: sectors 0 and 1 are the slots of the sheet, 2 and 3 those of the store. An erase leaves FFh. Erasing and programming
 * begin a piece of work, and flash_wait waits for its end; each is false if it can't be done, as after the warning of low voltage,
 * after which no work begins. Programming has a multiple of FLASH_UNIT in `at` and `count`. A word that can't be read, since its check
 * bits don't fit, reads as zeros.
 */
bool flash_erase(unsigned sector);
bool flash_program(unsigned sector, size_t at, const uint8_t *bytes, size_t count);
bool flash_wait(void);
void flash_read(unsigned sector, size_t at, uint8_t *to, size_t count);

/* Sends a frame, an L_Data.req, on the bus. */
void bus_send(const uint8_t *frame, size_t length);

/* ---- what the host gives ---- */

enum host_found {
    HOST_KEPT = 0, /* the sheet that was saved last */
    HOST_NEW = 1,  /* neither slot held one: the factory's, which is saved now. Tell the operator, unless the unit is new */
    HOST_STOPPED = 2 /* no sheet that can be served, or the flash does not take it: nothing is served */
};

/* At power on, once. The factory's sheet stays where it is. */
enum host_found host_start(const uint8_t *factory, size_t length);

/* A frame from the bus. What it stored is saved, if it may not wait, before the acknowledgement and the answer are sent. */
void host_frame(const uint8_t *frame, size_t length);

/* The programming button. */
void host_button(bool on);

/* A partner of which nothing was heard for 6 seconds: transport's time limits are the board's to count. */
void host_silent(enum kelindap_connection connection);

/* At times of the board's own: group values and programming mode are saved, if they have changed. With flash that takes 10,000 erases
   once a day, or at an early warning of low voltage, if the supply then outlasts a save; docs/SLOTS.md has the years. */
void host_tick(void);

/* Versions, on behalf of a connection: saved and removed at level 0 or 1, which is this host's rule, and restored at level 0, which
   is the library's. The outcome, and of a save its number; it may be told. */
enum host_version { HOST_SAVE = 1, HOST_RESTORE = 2, HOST_REMOVE = 3 };
kelindap_saved host_version(enum kelindap_connection connection, enum host_version what, uint16_t number);

/* The sheet that is served. */
const kelindap_unit *host_unit(void);

#endif
