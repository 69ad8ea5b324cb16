/*
 * Why a request was not carried out, in words: all the causes there are, each true by itself, found in sheet, session and
 * request after the library has judged. It judges nothing, and where it finds no cause the outcome's own words stand alone.
 * tests/c/reasons.c holds every cause against the library: with all of them mended the request goes through, with one left
 * it does not.
 */
#ifndef UNIT_REASONS_H
#define UNIT_REASONS_H

#include "kelindap.h"
#include "kelindap_names.h"
#include "kelindap_pdu.h"
#include "unit_sheet.h"

#include <stdio.h>
#include <string.h>

enum cause {
    NO_ANSWER_ROOM,    /* first: bytes of the buffer */
    SHEET_RULE,        /* first: the rule */
    SHEET_OLD,         /* nothing */
    APDU_LENGTH,       /* first: bytes */
    MODE_NUMBER,       /* first: the mode */
    CONNECTION_CLOSED, /* first: the connection */
    CONNECTION_NONE,   /* first: the number */
    CODE_UNKNOWN,      /* first: the code */
    CODE_ANSWER,       /* first: the kind */
    MODE_OTHER,        /* first: the code's way, enum way; second: 1 if the later rules say so */
    PDU_FORM,          /* first: bytes */
    GROUP_NONE,        /* first: the address */
    GROUP_FLAG,        /* first: the flag */
    GROUP_LENGTH,      /* first: bytes of the value, 0 for six bits; second: of the entry */
    NO_PROGRAMMING,    /* nothing */
    SERIAL_OTHER,      /* nothing */
    TYPE_OTHER,        /* first: the type */
    PROPERTY_NONE,     /* first: object; second: id */
    INDEX_NONE,        /* first: object; second: index */
    PROPERTY_FIXED,    /* nothing */
    LEVEL_NEEDED,      /* first: the level needed; second: the level there is */
    ELEMENTS_NONE,     /* nothing */
    ELEMENT_ZERO_READ, /* first: how many were asked for */
    ELEMENT_ZERO_WRITE,
    COUNT_EXCEEDED,    /* first: the last element asked for; second: the count */
    MAXIMUM_EXCEEDED,  /* first: the last element; second: the maximum */
    ANSWER_TOO_LONG,   /* first: bytes; second: the most */
    DATA_LENGTH,       /* first: bytes that came; second: bytes that n elements have */
    MEMORY_COUNT,      /* first: bytes asked for; second: the most */
    MEMORY_NONE,       /* first: the first address that is not there; second: 1 if it is user memory */
    KEY_NONE           /* first: the level */
};

typedef struct reason {
    enum cause cause;
    unsigned first, second;
} reason;

/* No request has more causes at once. */
enum { MOST_REASONS = 5 };

typedef struct reasons {
    size_t count;
    reason of[MOST_REASONS];
} reasons;

/* A request as it was given to the library, and sheet and sessions as it found them. */
typedef struct asked {
    const uint8_t *sheet;
    size_t sheet_length;
    kelindap_sessions sessions;
    uint8_t mode, connection;
    uint16_t group;
    const uint8_t *apdu;
    size_t apdu_length;
    size_t answer_length;
} asked;

static void because(reasons *r, enum cause cause, unsigned first, unsigned second)
{
    if (r->count < MOST_REASONS)
        r->of[r->count++] = (reason){ cause, first, second };
}

/* ---- what a service is ---- */

/* How a service is reached. */
enum way { BY_GROUP, BY_BROADCAST, TO_DEVICE, ON_CONNECTION, NO_WAY };

static unsigned code_of(const uint8_t *apdu)
{
    return (unsigned)(apdu[0] & 3) << 8 | apdu[1];
}

static enum way way_of(unsigned code, bool later)
{
    if (code == 0 || (0x40 <= code && code < 0xC0))
        return BY_GROUP;
    if (code == 0xC0 || code == 0x100 || code == 0x3DC || code == 0x3DE)
        return BY_BROADCAST;
    if ((0x300 <= code && code < 0x340) || code == 0x3D5 || code == 0x3D7 || code == 0x3D8 || (code == 0x380 && later))
        return TO_DEVICE;
    if ((0x200 <= code && code < 0x210) || (0x280 <= code && code < 0x290) || code == 0x2C0 || code == 0x2C2 || code == 0x3D0 ||
        code == 0x3D1 || code == 0x3D3 || code == 0x380)
        return ON_CONNECTION;
    return NO_WAY;
}

/* The level at which a request acts: that of its connection, a number above 3 counting as 3; 3 without one. */
static unsigned acting_level(const asked *a)
{
    unsigned level = a->mode == 3 && a->connection < KELINDAP_CONNECTIONS ? a->sessions.of[a->connection].level : 3;
    return level > 3 ? 3 : level;
}

static void needs(reasons *r, const asked *a, unsigned level)
{
    if (acting_level(a) > level)
        because(r, LEVEL_NEEDED, level, acting_level(a));
}

/* ---- the causes of each service ---- */

static void property_reasons(reasons *r, const asked *a, const kelindap_pdu *p, bool write)
{
    const uint8_t *entry = property_at(a->sheet, p->object, p->id);
    if (entry == NULL) {
        because(r, PROPERTY_NONE, p->object, p->id);
        return;
    }
    unsigned last = p->s + p->n - 1u, size = entry[3], count = two_bytes(entry + 6), maximum = two_bytes(entry + 4);
    const uint8_t *data = a->apdu + p->data_offset;
    if (write && entry[2] < 128)
        because(r, PROPERTY_FIXED, 0, 0);
    needs(r, a, level_to(PROPERTIES, entry, write));
    if (p->s == 0 && write) {
        if (p->n != 1 || p->data_length != 2 || data[0] != 0 || data[1] != 0)
            because(r, ELEMENT_ZERO_WRITE, 0, 0);
    } else if (p->s == 0) {
        if (p->n != 1)
            because(r, ELEMENT_ZERO_READ, p->n, 0);
    } else if (p->n == 0) {
        because(r, ELEMENTS_NONE, 0, 0);
    } else {
        if (write && last > maximum)
            because(r, MAXIMUM_EXCEEDED, last, maximum);
        if (write && p->data_length != p->n * size)
            because(r, DATA_LENGTH, (unsigned)p->data_length, p->n * size);
        if (!write && last > count)
            because(r, COUNT_EXCEEDED, last, count);
        if (!write && p->n * size > 10)
            because(r, ANSWER_TOO_LONG, p->n * size, 10);
    }
}

static void description_reasons(reasons *r, const asked *a, const kelindap_pdu *p)
{
    if (p->id != 0 && property_at(a->sheet, p->object, p->id) == NULL)
        because(r, PROPERTY_NONE, p->object, p->id);
    if (p->id == 0 && property_by_index(a->sheet, p->object, p->index) == NULL)
        because(r, INDEX_NONE, p->object, p->index);
}

/* Each byte must lie in a region, and each of these regions must let the request through: its strongest level decides. */
static void memory_reasons(reasons *r, const asked *a, enum sheet_kind memory, size_t address, unsigned n, unsigned most, bool read,
                           bool write)
{
    unsigned level = 3;
    size_t missing = SIZE_MAX;
    if (n == 0 || n > most) {
        because(r, MEMORY_COUNT, n, most);
        return;
    }
    for (size_t at = address; at < address + n; at++) {
        const uint8_t *entry = region_at(a->sheet, memory, at);
        if (entry == NULL) {
            missing = missing == SIZE_MAX ? at : missing;
            continue;
        }
        if (read && level_to(memory, entry, false) < level)
            level = level_to(memory, entry, false);
        if (write && level_to(memory, entry, true) < level)
            level = level_to(memory, entry, true);
    }
    if (missing != SIZE_MAX)
        because(r, MEMORY_NONE, (unsigned)missing, memory == USERS);
    needs(r, a, level);
}

static void key_reasons(reasons *r, const asked *a, unsigned level)
{
    if (level > 2)
        because(r, KEY_NONE, level, 0);
    else
        needs(r, a, level);
}

/* Why a request was denied: 11 and 12. */
static void denied(reasons *r, const asked *a, const kelindap_pdu *p)
{
    switch (p->kind) {
    case KELINDAP_PROPERTY_READ:
    case KELINDAP_PROPERTY_WRITE:
        property_reasons(r, a, p, p->kind == KELINDAP_PROPERTY_WRITE);
        break;
    case KELINDAP_DESCRIPTION_READ:
        description_reasons(r, a, p);
        break;
    case KELINDAP_MEMORY_READ:
        memory_reasons(r, a, REGIONS, p->address, p->n, 12, true, false);
        break;
    case KELINDAP_MEMORY_WRITE:
        memory_reasons(r, a, REGIONS, p->address, p->n, 12, false, true);
        break;
    case KELINDAP_MEMORY_BIT_WRITE:
        memory_reasons(r, a, REGIONS, p->address, p->n, 5, true, true);
        break;
    case KELINDAP_USER_MEMORY_READ:
        memory_reasons(r, a, USERS, p->address, p->n, 11, true, false);
        break;
    case KELINDAP_USER_MEMORY_WRITE:
        memory_reasons(r, a, USERS, p->address, p->n, 11, false, true);
        break;
    case KELINDAP_KEY_WRITE:
        key_reasons(r, a, p->level);
        break;
    case KELINDAP_DESCRIPTOR_READ:
        because(r, TYPE_OTHER, p->t, 0);
        break;
    default:
        break;
    }
}

/* Why a request was not for this device: 2. */
static void not_for_us(reasons *r, const asked *a, const kelindap_pdu *p)
{
    const uint8_t *group = group_at(a->sheet, a->group);
    unsigned flag = p->kind == KELINDAP_GROUP_READ ? 1 : p->kind == KELINDAP_GROUP_WRITE ? 2 : 4;
    switch (p->kind) {
    case KELINDAP_GROUP_READ:
    case KELINDAP_GROUP_WRITE:
    case KELINDAP_GROUP_RESPONSE:
        if (group == NULL)
            because(r, GROUP_NONE, a->group, 0);
        else if ((group[3] & flag) == 0)
            because(r, GROUP_FLAG, flag, 0);
        break;
    case KELINDAP_ADDRESS_READ:
    case KELINDAP_ADDRESS_WRITE:
        because(r, NO_PROGRAMMING, 0, 0);
        break;
    case KELINDAP_SERIAL_READ:
    case KELINDAP_SERIAL_WRITE:
        because(r, SERIAL_OTHER, 0, 0);
        break;
    case KELINDAP_DESCRIPTOR_READ:
        because(r, TYPE_OTHER, p->t, 0);
        break;
    default:
        break;
    }
}

/* Why a length or value was unfit: 10. A group value that reads has another length than its entry. */
static void unfit(reasons *r, const asked *a, const kelindap_pdu *p)
{
    const uint8_t *group = group_at(a->sheet, a->group);
    if (p->outcome == KELINDAP_OK && a->mode == 0 && group != NULL)
        because(r, GROUP_LENGTH, (unsigned)p->data_length, group[2]);
    else
        because(r, PDU_FORM, (unsigned)a->apdu_length, 0);
}

static void not_connected(reasons *r, const asked *a)
{
    if (a->connection < KELINDAP_CONNECTIONS)
        because(r, CONNECTION_CLOSED, a->connection, 0);
    else
        because(r, CONNECTION_NONE, a->connection, 0);
}

static void unknown(reasons *r, const asked *a)
{
    kelindap_pdu p = kelindap_read(a->apdu, a->apdu_length);
    if (p.outcome == KELINDAP_OK)
        because(r, CODE_ANSWER, p.kind, 0);
    else
        because(r, CODE_UNKNOWN, code_of(a->apdu), 0);
}

/* Why a request had this outcome. */
static reasons reasons_of(const asked *a, uint8_t outcome)
{
    reasons r = { 0 };
    kelindap_pdu p = kelindap_read(a->apdu, a->apdu_length);
    switch (outcome) {
    case KELINDAP_NOT_FOR_US:
        not_for_us(&r, a, &p);
        break;
    case KELINDAP_NO_ROOM:
        because(&r, NO_ANSWER_ROOM, (unsigned)a->answer_length, 0);
        break;
    case KELINDAP_BAD_SHEET:
        because(&r, SHEET_RULE, kelindap_check(a->sheet, a->sheet_length), 0);
        break;
    case KELINDAP_OLD_SHEET:
        because(&r, SHEET_OLD, 0, 0);
        break;
    case KELINDAP_BAD_LENGTH:
        because(&r, APDU_LENGTH, (unsigned)a->apdu_length, 0);
        break;
    case KELINDAP_BAD_MODE:
        because(&r, MODE_NUMBER, a->mode, 0);
        break;
    case KELINDAP_NOT_CONNECTED:
        not_connected(&r, a);
        break;
    case KELINDAP_UNKNOWN:
        unknown(&r, a);
        break;
    case KELINDAP_WRONG_MODE:
        because(&r, MODE_OTHER, way_of(code_of(a->apdu), a->sheet[SHEET_RULES] != 0),
                code_of(a->apdu) == 0x380 && a->sheet[SHEET_RULES] != 0);
        break;
    case KELINDAP_UNFIT:
        unfit(&r, a, &p);
        break;
    case KELINDAP_DENIED:
    case KELINDAP_DENIED_SILENT:
        denied(&r, a, &p);
        break;
    default:
        break;
    }
    return r;
}

/* ---- words ---- */

static const char *way_words(enum way way)
{
    static const char *const words[] = { "to a group address", "by broadcast", "to the device, with or without a connection",
                                         "on a connection alone" };
    return way < NO_WAY ? words[way] : "in no mode";
}

/* A reason in words, of at most so many bytes. */
static void tell_reason(char *out, size_t room, reason r)
{
    static const char *const flags[] = { "", "read", "written", "", "changed by a response" };
    unsigned a = r.first, b = r.second;
    const char *s = a == 1 ? "" : "s";
    switch (r.cause) {
    case NO_ANSWER_ROOM:
        snprintf(out, room, "the buffer has %u byte%s, and 16 are needed", a, s);
        break;
    case SHEET_RULE:
        snprintf(out, room, "S%u: %s", a, kelindap_rule_name((uint8_t)a));
        break;
    case SHEET_OLD:
        snprintf(out, room, "it is of edition 1");
        break;
    case APDU_LENGTH:
        snprintf(out, room, "%u byte%s, and an APDU has 2 to 16", a, s);
        break;
    case MODE_NUMBER:
        snprintf(out, room, "mode %u, and there are 0 to 3", a);
        break;
    case CONNECTION_CLOSED:
        snprintf(out, room, "connection %u is closed", a);
        break;
    case CONNECTION_NONE:
        snprintf(out, room, "there is no connection %u, only 0 and 1", a);
        break;
    case CODE_UNKNOWN:
        snprintf(out, room, "no service has the code %03xh", a);
        break;
    case CODE_ANSWER:
        snprintf(out, room, "%s is what a device answers, and no request", kelindap_kind_name((uint8_t)a));
        break;
    case MODE_OTHER:
        snprintf(out, room, "the service is taken %s%s", way_words((enum way)a), b == 0 ? "" : ", by rules 1");
        break;
    case PDU_FORM:
        snprintf(out, room, "%u bytes, whose number or values are not those of the service", a);
        break;
    case GROUP_NONE:
        snprintf(out, room, "the sheet has no group object %u/%u/%u", a >> 11, a >> 8 & 7, a & 255);
        break;
    case GROUP_FLAG:
        snprintf(out, room, "the group object may not be %s", flags[a & 7]);
        break;
    case GROUP_LENGTH:
        if (a == 0)
            snprintf(out, room, "a value of six bits, and the group object has %u byte%s", b, b == 1 ? "" : "s");
        else if (b == 0)
            snprintf(out, room, "a value of %u byte%s, and the group object has six bits", a, s);
        else
            snprintf(out, room, "a value of %u byte%s, and the group object has %u", a, s, b);
        break;
    case NO_PROGRAMMING:
        snprintf(out, room, "the device is not in programming mode");
        break;
    case SERIAL_OTHER:
        snprintf(out, room, "the serial number is another device's");
        break;
    case TYPE_OTHER:
        snprintf(out, room, "type %u, and there is type 0 alone", a);
        break;
    case PROPERTY_NONE:
        snprintf(out, room, "the sheet has no property %u/%u", a, b);
        break;
    case INDEX_NONE:
        snprintf(out, room, "object %u has no property with index %u", a, b);
        break;
    case PROPERTY_FIXED:
        snprintf(out, room, "the property is not writable");
        break;
    case LEVEL_NEEDED:
        snprintf(out, room, "needs level %u, has %u", a, b);
        break;
    case ELEMENTS_NONE:
        snprintf(out, room, "no element is named: n is 0");
        break;
    case ELEMENT_ZERO_READ:
        snprintf(out, room, "element 0 is the count, and is read alone: n is %u, not 1", a);
        break;
    case ELEMENT_ZERO_WRITE:
        snprintf(out, room, "element 0 is the count, and takes n = 1 and the two bytes 0000 alone");
        break;
    case COUNT_EXCEEDED:
        snprintf(out, room, "element %u is asked for, and the count is %u", a, b);
        break;
    case MAXIMUM_EXCEEDED:
        snprintf(out, room, "element %u is named, and there is room for %u", a, b);
        break;
    case ANSWER_TOO_LONG:
        snprintf(out, room, "the elements have %u bytes, and an answer has room for %u", a, b);
        break;
    case DATA_LENGTH:
        snprintf(out, room, "%u byte%s of data, and the elements have %u", a, s, b);
        break;
    case MEMORY_COUNT:
        snprintf(out, room, "%u byte%s named, and 1 to %u can be", a, a == 1 ? " is" : "s are", b);
        break;
    case MEMORY_NONE:
        if (a > 65535)
            snprintf(out, room, "the bytes run past the last address, ffffh");
        else
            snprintf(out, room, "there is no %smemory at %04xh", b ? "user " : "", a);
        break;
    case KEY_NONE:
        snprintf(out, room, "level %u has no key, only 0 to 2", a);
        break;
    }
}

#endif
