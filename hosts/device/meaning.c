/* What bytes of a sheet and requests mean, as meaning.h tells. docs/SHEET.md has the layout. */
#include "meaning.h"
#include "kelindap_names.h"
#include "kelindap_pdu.h"

#include <stdbool.h>
#include <stdio.h>
#include <string.h>

const char *meaning_address(char out[MEANING_ADDRESS], uint16_t a)
{
    snprintf(out, MEANING_ADDRESS, "%d.%d.%d", a >> 12, a >> 8 & 15, a & 255);
    return out;
}

const char *meaning_group(char out[MEANING_ADDRESS], uint16_t a)
{
    snprintf(out, MEANING_ADDRESS, "%d/%d/%d", a >> 11, a >> 8 & 7, a & 255);
    return out;
}

/* ---- two sheets ---- */

typedef struct pair {
    const uint8_t *before, *after;
    size_t length;
    meaning_take *take;
    void *to;
    size_t lines;
} pair;

static size_t word(const uint8_t *s, size_t at)
{
    return (size_t)(s[at] << 8 | s[at + 1]);
}

/* Whether these bytes lie in the sheet and differ. */
static bool differs(const pair *p, size_t at, size_t length)
{
    return at + length <= p->length && memcmp(p->before + at, p->after + at, length) != 0;
}

static void say(pair *p, const char *line)
{
    p->lines++;
    p->take(p->to, line);
}

/* Bytes as two hex digits each, with blanks between, if asked for. */
static void write_bytes(char *out, const uint8_t *bytes, size_t length, const char *between)
{
    *out = 0;
    for (size_t i = 0; i < length; i++)
        out += sprintf(out, "%s%02x", i > 0 ? between : "", bytes[i]);
}

/* A number of up to four bytes, or the digits of a longer one. */
static void write_element(char out[32], const uint8_t *bytes, size_t length)
{
    uint32_t number = 0;
    for (size_t i = 0; i < length && length <= 4; i++)
        number = number << 8 | bytes[i];
    if (length <= 4)
        sprintf(out, "%u", number);
    else {
        write_bytes(out, bytes, length, "");
        strcat(out, "h");
    }
}

static void tell_switch(pair *p, const char *name, uint8_t bit)
{
    char line[MEANING_LINE];
    if (((p->before[14] ^ p->after[14]) & bit) == 0)
        return;
    snprintf(line, sizeof line, "%s: %s -> %s", name, p->before[14] & bit ? "on" : "off", p->after[14] & bit ? "on" : "off");
    say(p, line);
}

static void tell_head(pair *p)
{
    char line[MEANING_LINE], a[MEANING_ADDRESS], b[MEANING_ADDRESS];
    tell_switch(p, "programming mode", 1);
    tell_switch(p, "verify", 2);
    if (differs(p, 16, 2)) {
        snprintf(line, sizeof line, "individual address: %s -> %s", meaning_address(a, (uint16_t)word(p->before, 16)),
                 meaning_address(b, (uint16_t)word(p->after, 16)));
        say(p, line);
    }
    for (size_t level = 0; level < 3; level++)
        if (differs(p, 18 + 4 * level, 4)) {
            snprintf(line, sizeof line, "key of level %zu changed", level);
            say(p, line);
        }
}

/* Neighbours in memory that have changed, on one line up to so many; they may be of two regions that touch. */
enum { TO_A_LINE = 8 };
typedef struct run {
    size_t address, count;
    uint8_t before[TO_A_LINE], after[TO_A_LINE];
} run;

static void tell_run(pair *p, const char *whose, run *r)
{
    char line[MEANING_LINE], a[3 * TO_A_LINE + 1], b[3 * TO_A_LINE + 1];
    if (r->count == 0)
        return;
    write_bytes(a, r->before, r->count, " ");
    write_bytes(b, r->after, r->count, " ");
    snprintf(line, sizeof line, "%smemory %04zxh: %s -> %s", whose, r->address, a, b);
    say(p, line);
    r->count = 0;
}

/* The regions of one memory, whose entries begin there. */
static void tell_memory(pair *p, const char *whose, size_t entries, size_t count)
{
    run r = { .count = 0 };
    for (size_t k = 0; k < count; k++) {
        const uint8_t *e = p->after + entries + 8 * k;
        for (size_t i = 0; i < word(e, 2); i++) {
            size_t address = word(e, 0) + i, at = word(e, 4) + i;
            if (!differs(p, at, 1))
                continue;
            if (r.count == TO_A_LINE || r.address + r.count != address)
                tell_run(p, whose, &r);
            if (r.count == 0)
                r.address = address;
            r.before[r.count] = p->before[at];
            r.after[r.count++] = p->after[at];
        }
    }
    tell_run(p, whose, &r);
}

static void tell_property(pair *p, size_t entry)
{
    char line[MEANING_LINE], a[32], b[32];
    const uint8_t *e = p->after + entry;
    size_t size = e[3];
    if (differs(p, entry + 6, 2)) {
        snprintf(line, sizeof line, "property %d/%d count: %zu -> %zu", e[0], e[1], word(p->before, entry + 6), word(e, 6));
        say(p, line);
    }
    for (size_t i = 0; i < word(e, 4); i++) {
        size_t at = word(e, 8) + i * size;
        if (!differs(p, at, size))
            continue;
        write_element(a, p->before + at, size);
        write_element(b, p->after + at, size);
        snprintf(line, sizeof line, "property %d/%d element %zu: %s -> %s", e[0], e[1], i + 1, a, b);
        say(p, line);
    }
}

static void tell_group(pair *p, size_t entry)
{
    enum { MOST = 14 };
    char line[MEANING_LINE], address[MEANING_ADDRESS], a[3 * MOST + 1], b[3 * MOST + 1];
    const uint8_t *e = p->after + entry;
    size_t at = word(e, 4), length = e[2] == 0 ? 1 : e[2];
    if (length > MOST || !differs(p, at, length))
        return;
    write_bytes(a, p->before + at, length, " ");
    write_bytes(b, p->after + at, length, " ");
    snprintf(line, sizeof line, "group object %s: %s -> %s", meaning_group(address, (uint16_t)word(e, 0)), a, b);
    say(p, line);
}

size_t meaning_changes(const uint8_t *before, const uint8_t *after, size_t length, meaning_take *take, void *to)
{
    pair p = { before, after, length, take, to, 0 };
    if (length < 32)
        return 0;
    size_t regions = after[1], properties = after[2], groups = after[3], users = after[15];
    size_t at_properties = 32 + 8 * regions, at_groups = at_properties + 12 * properties, at_users = at_groups + 8 * groups;
    if (at_users + 8 * users > length)
        return 0;
    tell_head(&p);
    tell_memory(&p, "", 32, regions);
    for (size_t k = 0; k < properties; k++)
        tell_property(&p, at_properties + 12 * k);
    for (size_t k = 0; k < groups; k++)
        tell_group(&p, at_groups + 8 * k);
    tell_memory(&p, "user ", at_users, users);
    return p.lines;
}

/* ---- a request ---- */

void meaning_request(char out[MEANING_LINE], const uint8_t *apdu, size_t length, uint16_t group)
{
    char address[MEANING_ADDRESS];
    kelindap_pdu p = kelindap_read(apdu, length);
    const char *name = kelindap_kind_name(p.kind);
    switch (p.kind) {
    case KELINDAP_GROUP_READ:
    case KELINDAP_GROUP_RESPONSE:
    case KELINDAP_GROUP_WRITE:
        snprintf(out, MEANING_LINE, "%s of %s", name, meaning_group(address, group));
        break;
    case KELINDAP_PROPERTY_READ:
    case KELINDAP_PROPERTY_WRITE:
        snprintf(out, MEANING_LINE, "%s of %d/%d from element %d", name, p.object, p.id, p.s);
        break;
    case KELINDAP_MEMORY_READ:
    case KELINDAP_MEMORY_WRITE:
    case KELINDAP_MEMORY_BIT_WRITE:
    case KELINDAP_USER_MEMORY_READ:
    case KELINDAP_USER_MEMORY_WRITE:
        snprintf(out, MEANING_LINE, "%s of %d bytes from %04xh", name, p.n, p.address);
        break;
    case KELINDAP_KEY_WRITE:
        snprintf(out, MEANING_LINE, "%s of level %d", name, p.level);
        break;
    case KELINDAP_NO_KIND:
        snprintf(out, MEANING_LINE, "what is no request");
        break;
    default:
        snprintf(out, MEANING_LINE, "%s", name);
    }
}
