/*
 * A flash that is memory, behind the four functions of examples/flash.h, and whose power can be cut after any byte that is erased or
 * programmed. It also sees to it that its host keeps the rules of such a part: whole units, no work before the last has ended, and
 * nothing programmed that the part could not take.
 *
 * MEDIUM says which part it is:
 *   0  EEPROM, FRAM, memory with a battery: no erase; each byte is old or new after a cut
 *   1  flash: an erase leaves FFh, programming clears bits; torn bytes may be anything
 *   2  flash with ECC: the same, and a unit is programmed once after an erase
 */
#ifndef MEDIUM_H
#define MEDIUM_H

#include "flash.h"

#ifndef MEDIUM
#define MEDIUM 1
#endif
enum { SECTORS = 4, NEVER = -1 };

/* What stands in the rest of the run whose work was cut; a unit is what is programmed at once. */
enum torn {
    TORN_OLD,    /* what stood there */
    TORN_NEW,    /* the unit that was under way is new, the rest old */
    TORN_HALF,   /* half of that unit is new, the rest old */
    TORN_MIXED,  /* each byte of the whole run is old or new: a page that is written in any order */
    TORN_ZEROS,  /* zeros */
    TORN_ONES,   /* FFh */
    TORN_RANDOM, /* anything */
    TORN_ALL     /* anything, from the first byte of the run on */
};
enum { PATTERNS = MEDIUM == 0 ? TORN_ZEROS : TORN_ALL + 1 };

static uint8_t flash_bytes[SECTORS][FLASH_ROOM];
static bool powered, busy;
static int64_t budget;      /* bytes until the power goes, or NEVER */
static enum torn pattern;
static uint64_t chance;     /* what is random, never 0 */
static uint64_t worked;     /* bytes erased and programmed so far */
static unsigned long erases[SECTORS];
static const uint8_t *stuck; /* a byte that takes nothing any more, or NULL */
static const char *wrong;   /* what no part would have done, or a host may not do */

static uint32_t any(uint32_t n)
{
    chance ^= chance << 13;
    chance ^= chance >> 7;
    chance ^= chance << 17;
    return (uint32_t)((chance >> 32) * n >> 32);
}

/* What byte i of a run of n holds after a cut at byte `done` of it. */
static uint8_t torn_byte(size_t i, size_t done, uint8_t old, uint8_t new)
{
    size_t unit = done - done % FLASH_UNIT, half = FLASH_UNIT > 1 ? FLASH_UNIT / 2 : 1;
    switch (pattern) {
    case TORN_MIXED:
        return any(2) ? old : new;
    case TORN_ALL:
        return (uint8_t)any(256);
    default:
        break;
    }
    if (i < done)
        return new;
    switch (pattern) {
    case TORN_NEW:
        return i < unit + FLASH_UNIT ? new : old;
    case TORN_HALF:
        return i < unit + half ? new : old;
    case TORN_ZEROS:
        return 0;
    case TORN_ONES:
        return 0xFF;
    case TORN_RANDOM:
        return (uint8_t)any(256);
    default:
        return old;
    }
}

/* Work on a run: bytes of NULL are FFh. */
static bool work(unsigned sector, size_t at, const uint8_t *bytes, size_t count)
{
    if (!powered)
        return false;
    if (busy)
        wrong = "work began before the last had ended";
    if (sector >= SECTORS || at > FLASH_ROOM || count > FLASH_ROOM - at || at % FLASH_UNIT != 0 || count % FLASH_UNIT != 0) {
        wrong = "work outside a sector, or not on whole units";
        return false;
    }
    uint8_t *run = flash_bytes[sector] + at;
    size_t done = budget != NEVER && (uint64_t)budget < count ? (size_t)budget : count;
    for (size_t i = 0; i < count; i++) {
        uint8_t new = bytes == NULL ? 0xFF : bytes[i];
        if (MEDIUM > 0 && bytes != NULL && (run[i] & new) != new && stuck == NULL)
            wrong = "a bit was to be set without an erase";
        if (MEDIUM == 2 && bytes != NULL && run[i] != 0xFF && stuck == NULL)
            wrong = "a unit was programmed twice";
        if (run + i != stuck)
            run[i] = done == count ? new : torn_byte(i, done, run[i], new);
    }
    worked += done;
    if (budget != NEVER)
        budget -= (int64_t)done;
    busy = powered = done == count; /* without power nothing is under way */
    return powered;
}

bool flash_erase(unsigned sector)
{
    if (MEDIUM == 0)
        return powered;
    if (powered && sector < SECTORS)
        erases[sector]++;
    return work(sector, 0, NULL, FLASH_ROOM);
}

bool flash_program(unsigned sector, size_t at, const uint8_t *bytes, size_t count)
{
    return work(sector, at, bytes, count);
}

bool flash_wait(void)
{
    busy = false;
    return powered;
}

void flash_read(unsigned sector, size_t at, uint8_t *to, size_t count)
{
    if (busy || sector >= SECTORS || at > FLASH_ROOM || count > FLASH_ROOM - at) {
        wrong = "read outside a sector, or while work was under way";
        return;
    }
    for (size_t i = 0; i < count; i++)
        to[i] = flash_bytes[sector][at + i];
}

static void power(bool on)
{
    powered = on;
    busy = false;
}

#endif
