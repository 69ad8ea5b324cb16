/*
 * Versions of the settings: what a sheet's properties hold, kept under numbers in a store, and given back on demand.
 *
 * Link with libkelindap_device.a; kelindap.h says what that needs and what the host's duties are. A store is a buffer of 8 to
 * 32,768 bytes that the host lends; a zeroed one is a good, empty store. docs/STORE.md has its layout byte by byte.
 *
 * The host's duties, which no proof covers, beside those of kelindap.h:
 *  - nothing but these calls writes the store, and calls on one store come one after the other;
 *  - saving. The store has to survive a power cut as the sheet has. A save and a remove change the store, a restore the sheet,
 *    and only if they are carried out (kelindap_carried_out). The host then keeps a new copy of what was changed before it
 *    tells anybody so;
 *  - a power cut during a call leaves a store in memory of which no promise speaks: the host starts from the copy that it kept
 *    last. Keeping leaves the old copy or the new one, whole, as with the sheet: two slots of its own (kelindap_slots.h), or a new
 *    file renamed over the old one. Sheet and store need not be of one moment: every restore is judged on the two as they are. A
 *    number was given when the copy with it is kept: if the power goes before, the version is not there and its number is given
 *    again, so nobody is told of it before;
 *  - at start kelindap_store_check tells whether what was kept is a good store. It judges the form and is no checksum, and says
 *    nothing of what a version holds: that is judged when it is restored;
 *  - who may save and remove is the host's to say: these two ask for no level, since they change neither sheet nor sessions.
 *    A restore asks for level 0, whatever the write levels of the properties are;
 *  - a version holds no key, no memory and no address, but all that the properties hold: whoever reads the store has that.
 */
#ifndef KELINDAP_STORE_H
#define KELINDAP_STORE_H

#include "kelindap.h"

#ifdef __cplusplus
extern "C" {
#endif

/* The limits of a store. */
enum {
    KELINDAP_STORE_LEAST = 8,     /* bytes of a buffer with room for the empty table */
    KELINDAP_STORE_MOST = 32768,  /* bytes of the longest buffer */
    KELINDAP_STORE_VERSIONS = 8,  /* versions kept at once */
    KELINDAP_STORE_LAST = 65535   /* the last number that is given */
};

/*
 * The outcomes of these calls beside KELINDAP_OK, KELINDAP_DONE, KELINDAP_BAD_SHEET and KELINDAP_OLD_SHEET. Each is a refusal,
 * and changes nothing.
 */
enum kelindap_store_outcome {
    KELINDAP_STORE_BAD = 30,         /* the store is not a good one */
    KELINDAP_STORE_NO_NUMBER = 31,   /* 65,535 has been given */
    KELINDAP_STORE_NO_PLACE = 32,    /* eight versions are kept */
    KELINDAP_STORE_NO_ROOM = 33,     /* head, table with the new entry, kept bodies and the new one exceed the buffer */
    KELINDAP_STORE_NOT_KEPT = 34,    /* no version of that number is kept */
    KELINDAP_STORE_NOT_AT_ZERO = 35, /* the connection is not open at level 0 */
    KELINDAP_STORE_OTHER = 36,       /* the version's property entries are not the sheet's, counts apart */
    KELINDAP_STORE_HIGH_COUNT = 37   /* a count of the version is above the property's maximum */
};

/* What a save gave: 0 and the number of the version, or the refusal and 0. */
typedef struct kelindap_saved {
    uint8_t outcome;
    uint16_t number;
} kelindap_saved;

/* A version that is kept: its number, and how long it is. */
typedef struct kelindap_listed {
    uint16_t number;
    uint16_t length;
} kelindap_listed;

/* 0 for a good store, else 30. */
uint8_t kelindap_store_check(const uint8_t *store, size_t store_length);

/*
 * The sheet's properties kept as a version of the next number: 4, 14, 30, 31, 32, 33, tested in this order, or 0. The sheet
 * stays.
 */
kelindap_saved kelindap_save(const uint8_t *sheet, size_t sheet_length, uint8_t *store, size_t store_length);

/*
 * The version with a number given back, on behalf of a connection: 4, 14, 30, 34, 35, 36, 37, tested in this order, or 1; then
 * counts and bodies of all properties are the version's, and no other byte of the sheet has changed. Sessions and store stay. A
 * number above 65,535 is kept by nobody, and a connection other than 0 and 1 is not open. The sessions are handed over as they
 * are, by value.
 */
uint8_t kelindap_restore(kelindap_sessions sessions, uint8_t connection,
                         uint8_t *sheet, size_t sheet_length,
                         const uint8_t *store, size_t store_length, size_t number);

/*
 * The version with a number removed: 30, 34, tested in this order, or 1; then its room is free again and zero, the others are
 * as they were, and this store never gives its number again. No sheet is looked at.
 */
uint8_t kelindap_remove(uint8_t *store, size_t store_length, size_t number);

/*
 * The k-th version that a store keeps, the first being 0, with rising numbers: its number and the bytes that it takes beside its
 * entry of 8. 0 and 0 if the store keeps no more, or is not a good one: so a host lists the versions of a store by counting k
 * from 0 until a number is 0, which no version has.
 */
kelindap_listed kelindap_kept(const uint8_t *store, size_t store_length, size_t k);

#ifdef __cplusplus
}
#endif
#endif
