/*
 * The entries of a sheet that breaks no rule, for the desk unit's words: where they stand and what they say. Nothing here judges
 * a request; docs/SHEET.md has the layout.
 */
#ifndef UNIT_SHEET_H
#define UNIT_SHEET_H

#include <stdbool.h>
#include <stddef.h>
#include <stdint.h>

/* The kinds of entries, in the order in which entries and bodies stand. */
enum sheet_kind { REGIONS, PROPERTIES, GROUPS, USERS, SHEET_KINDS };

enum { SHEET_HEAD = 32, SHEET_FLAGS = 14, SHEET_ADDRESS = 16, SHEET_SERIAL = 6, SHEET_KEYS = 18, SHEET_RULES = 30 };

static inline unsigned two_bytes(const uint8_t *at)
{
    return (unsigned)at[0] << 8 | at[1];
}

static inline size_t entry_length(enum sheet_kind kind)
{
    return kind == PROPERTIES ? 12 : 8;
}

/* The number of entries of a kind; in edition 1 there are no user regions. */
static inline size_t entry_count(const uint8_t *sheet, enum sheet_kind kind)
{
    static const size_t at[SHEET_KINDS] = { 1, 2, 3, 15 };
    return kind == USERS && sheet[0] != 2 ? 0 : sheet[at[kind]];
}

static inline const uint8_t *entry_at(const uint8_t *sheet, enum sheet_kind kind, size_t k)
{
    size_t at = SHEET_HEAD;
    for (enum sheet_kind before = REGIONS; before < kind; before++)
        at += entry_length(before) * entry_count(sheet, before);
    return sheet + at + entry_length(kind) * k;
}

/* Where the body of an entry starts, and its length. */
static inline size_t body_at(enum sheet_kind kind, const uint8_t *entry)
{
    return two_bytes(entry + (kind == PROPERTIES ? 8 : 4));
}

static inline size_t body_length(enum sheet_kind kind, const uint8_t *entry)
{
    if (kind == PROPERTIES)
        return (size_t)entry[3] * two_bytes(entry + 4);
    if (kind == GROUPS)
        return entry[2] == 0 ? 1 : entry[2];
    return two_bytes(entry + 2);
}

/* The property of an object and an id, NULL if there is none. */
static inline const uint8_t *property_at(const uint8_t *sheet, uint8_t object, uint8_t id)
{
    for (size_t k = 0; k < entry_count(sheet, PROPERTIES); k++) {
        const uint8_t *entry = entry_at(sheet, PROPERTIES, k);
        if (entry[0] == object && entry[1] == id)
            return entry;
    }
    return NULL;
}

/* The property with this number in its object, from 0, NULL if there is none. */
static inline const uint8_t *property_by_index(const uint8_t *sheet, uint8_t object, uint8_t index)
{
    size_t number = 0;
    for (size_t k = 0; k < entry_count(sheet, PROPERTIES); k++) {
        const uint8_t *entry = entry_at(sheet, PROPERTIES, k);
        if (entry[0] == object && number++ == index)
            return entry;
    }
    return NULL;
}

static inline const uint8_t *group_at(const uint8_t *sheet, uint16_t address)
{
    for (size_t k = 0; k < entry_count(sheet, GROUPS); k++) {
        const uint8_t *entry = entry_at(sheet, GROUPS, k);
        if (two_bytes(entry) == address)
            return entry;
    }
    return NULL;
}

/* The region of one memory in which an address lies, NULL if there is none. */
static inline const uint8_t *region_at(const uint8_t *sheet, enum sheet_kind memory, size_t address)
{
    for (size_t k = 0; k < entry_count(sheet, memory); k++) {
        const uint8_t *entry = entry_at(sheet, memory, k);
        if (two_bytes(entry) <= address && address < (size_t)two_bytes(entry) + two_bytes(entry + 2))
            return entry;
    }
    return NULL;
}

/* The levels byte of a region or property. */
static inline unsigned levels_of(enum sheet_kind kind, const uint8_t *entry)
{
    return entry[kind == PROPERTIES ? 10 : 6];
}

static inline unsigned level_to(enum sheet_kind kind, const uint8_t *entry, bool write)
{
    return write ? levels_of(kind, entry) & 15 : levels_of(kind, entry) >> 4;
}

#endif
