/*
 * The desk unit: plays one device. Commands come on standard input, one to a line, and each gets one line on standard
 * output; with a person at a terminal it speaks in words (unit_words.h). kelindap-unit.txt, which it shows for --help, has
 * them all; docs/UNIT.md tells more.
 */
#include "kelindap.h"
#include "kelindap_frame.h"
#include "kelindap_link.h"
#include "kelindap_names.h"
#include "kelindap_pdu.h"
#include "kelindap_plain.h"
#include "kelindap_store.h"
#include "kelindap_trace.h"

#include <errno.h>
#include <inttypes.h>
#include <stdarg.h>
#include <stdio.h>
#include <stdlib.h>
#include <string.h>
#include <unistd.h>

typedef struct run {
    uint8_t *bytes;
    size_t length;
} run;

typedef struct device {
    run sheet;
    run store;
    run trace;
    size_t played; /* events of the trace */
    kelindap_link link;
    bool plain; /* the plain engine serves requests */
} device;

static uint8_t sample_sheet[] = {
#include "sample_sheet.inc"
};

/* ---- what can go wrong ---- */

/* The name by which the program was started, without its folder; what stands before a line that is no command. */
static const char *program = "unit";
static const char *no_command = "ERR ";

/* Memory or a stream gave out: the unit can't go on. */
static _Noreturn void give_up(const char *why)
{
    fprintf(stderr, "%s: %s\n", program, why);
    exit(EXIT_FAILURE);
}

/* Lets an answer go. A pipe that nobody reads any more is no error: whoever closed it has seen enough. */
static void flush_out(void)
{
    if (fflush(stdout) == 0)
        return;
    if (errno == EPIPE)
        exit(EXIT_SUCCESS);
    give_up("the output can't be written");
}

/* Answers a line that is no command. Always false, so that whoever finds the fault can return it. */
#if defined(__GNUC__)
__attribute__((format(printf, 1, 2)))
#endif
static bool err(const char *format, ...)
{
    va_list parts;
    va_start(parts, format);
    fputs(no_command, stdout);
    vprintf(format, parts);
    putchar('\n');
    va_end(parts);
    return false;
}

/* A word as a message shows it: its first 24 characters, with ? for any that is not printable ASCII. */
static const char *shown(const char *word)
{
    static char text[25];
    size_t i = 0;
    for (; i + 1 < sizeof text && word[i] != '\0'; i++)
        text[i] = ' ' <= word[i] && word[i] <= '~' ? word[i] : '?';
    text[i] = '\0';
    return text;
}

/* ---- lines and words ---- */

typedef struct line {
    char *text;
    size_t length;
    size_t room;
} line;

static void append(line *l, char c)
{
    if (l->length == l->room) {
        size_t room = l->room == 0 ? 256 : 2 * l->room;
        char *text = room > l->room ? realloc(l->text, room) : NULL;
        if (text == NULL)
            give_up("no memory for the line");
        l->text = text;
        l->room = room;
    }
    l->text[l->length++] = c;
}

/* Reads a line of any length, closed with a NUL that its length doesn't count; false at the end of the input. */
static bool next_line(line *l)
{
    int c;
    l->length = 0;
    while ((c = getchar()) != EOF && c != '\n')
        append(l, (char)c);
    if (ferror(stdin))
        give_up("the input can't be read");
    if (c == EOF && l->length == 0)
        return false;
    if (l->length > 0 && l->text[l->length - 1] == '\r')
        l->length--; /* lines may end in CR LF */
    append(l, '\0');
    l->length--;
    return true;
}

/* No command has more words; one place beyond shows that a line has too many. */
enum { MOST_WORDS = 16 };

/* Cuts the text into words at blanks and tabs, in place, and gives their number, at most MOST_WORDS + 1. */
static size_t split(char *text, char *words[MOST_WORDS + 1])
{
    static const char blanks[] = " \t";
    size_t count = 0;
    text += strspn(text, blanks);
    while (*text != '\0' && count <= MOST_WORDS) {
        words[count++] = text;
        text += strcspn(text, blanks);
        if (*text != '\0')
            *text++ = '\0';
        text += strspn(text, blanks);
    }
    return count;
}

/* ---- numbers and bytes ---- */

/* Reads a number; one that 64 bits can't hold counts as the largest they can. */
static bool take_number(const char *name, const char *word, uint64_t *value)
{
    size_t digits = strspn(word, "0123456789");
    if (digits == 0 || word[digits] != '\0')
        return err("%s is not a decimal number: \"%s\"", name, shown(word));
    *value = 0;
    for (; *word != '\0'; word++) {
        uint64_t digit = (uint64_t)(*word - '0');
        *value = *value > (UINT64_MAX - digit) / 10 ? UINT64_MAX : 10 * *value + digit;
    }
    return true;
}

/* Reads a number that may not be larger than `most`. */
static bool take_up_to(const char *name, const char *word, uint64_t most, uint64_t *value)
{
    if (!take_number(name, word, value))
        return false;
    return *value <= most || err("%s is above %" PRIu64 ": \"%s\"", name, most, shown(word));
}

static uint8_t nibble(char digit)
{
    return (uint8_t)(digit <= '9' ? digit - '0' : (digit | 32) - 'a' + 10);
}

/* Reads bytes. They take the place of the digits, so the run stands in the line itself. */
static bool take_bytes(const char *name, char *word, run *r)
{
    *r = (run){ (uint8_t *)word, 0 };
    if (strcmp(word, "-") == 0)
        return true;
    size_t digits = strspn(word, "0123456789abcdefABCDEF");
    if (word[digits] != '\0')
        return err("%s has a character that is no hex digit", name);
    if (digits == 0)
        return err("%s has no value: an empty run is -", name);
    if (digits % 2 != 0)
        return err("%s has an odd number of hex digits", name);
    for (; r->length < digits / 2; r->length++)
        r->bytes[r->length] = (uint8_t)(nibble(word[2 * r->length]) << 4 | nibble(word[2 * r->length + 1]));
    return true;
}

static void put_bytes(const uint8_t *bytes, size_t length)
{
    static const char digits[] = "0123456789abcdef";
    if (length == 0)
        putchar('-');
    for (size_t i = 0; i < length; i++) {
        putchar(digits[bytes[i] >> 4]);
        putchar(digits[bytes[i] & 15]);
    }
}

/* What ends an answer: a run of bytes. */
static void put_rest(run r)
{
    putchar(' ');
    put_bytes(r.bytes, r.length);
    putchar('\n');
}

/* ---- the device ---- */

/* Puts a copy of a run in the place of another, which is freed. */
static void set_run(run *place, run r)
{
    uint8_t *copy = NULL;
    if (r.length > 0) {
        copy = malloc(r.length);
        if (copy == NULL)
            give_up("no memory for the bytes");
        memcpy(copy, r.bytes, r.length);
    }
    free(place->bytes);
    *place = (run){ copy, r.length };
}

static void put_event(const device *d, kelindap_reply reply, const uint8_t *buffer, size_t length)
{
    printf("%d ", reply.outcome);
    for (size_t c = 0; c < KELINDAP_CONNECTIONS; c++)
        printf("%d %d ", d->link.sessions.of[c].open, d->link.sessions.of[c].level);
    printf("%d ", reply.count);
    put_bytes(buffer, length);
    put_rest(d->sheet);
}

static bool do_sheet(device *d, char **words, size_t count)
{
    run sheet;
    (void)count;
    if (!take_bytes("HEX", words[0], &sheet))
        return false;
    set_run(&d->sheet, sheet);
    uint8_t rule = kelindap_check(d->sheet.bytes, d->sheet.length);
    if (rule == KELINDAP_ACCEPTED)
        puts("OK");
    else if (rule == KELINDAP_OLD)
        puts("OLD");
    else
        printf("S%d\n", rule);
    return true;
}

static bool do_convert(device *d, char **words, size_t count)
{
    (void)words, (void)count;
    printf("%d", kelindap_convert(d->sheet.bytes, d->sheet.length));
    put_rest(d->sheet);
    return true;
}

static bool do_session(device *d, char **words, size_t count)
{
    uint64_t c, open, level;
    (void)count;
    if (!take_up_to("C", words[0], KELINDAP_CONNECTIONS - 1, &c) || !take_up_to("OPEN", words[1], 1, &open) ||
        !take_up_to("LEVEL", words[2], 255, &level))
        return false;
    d->link.sessions.of[c] = (kelindap_session){ open != 0, (uint8_t)level };
    printf("session %d %d %d\n", (int)c, d->link.sessions.of[c].open, d->link.sessions.of[c].level);
    return true;
}

/* The number of a connection, also one that there is not: what is wrong with that is for the library to say. */
static bool take_connection(const char *word, uint8_t *connection)
{
    uint64_t c;
    if (!take_up_to("C", word, 255, &c))
        return false;
    *connection = (uint8_t)c;
    return true;
}

static bool do_connect(device *d, char **words, size_t count)
{
    uint8_t c;
    (void)count;
    if (!take_connection(words[0], &c))
        return false;
    put_event(d, (kelindap_reply){ .outcome = kelindap_connect(&d->link.sessions, c) }, NULL, 0);
    return true;
}

static bool do_disconnect(device *d, char **words, size_t count)
{
    uint8_t c;
    (void)count;
    if (!take_connection(words[0], &c))
        return false;
    put_event(d, (kelindap_reply){ .outcome = kelindap_disconnect(&d->link.sessions, c) }, NULL, 0);
    return true;
}

static bool do_button(device *d, char **words, size_t count)
{
    bool on = strcmp(words[0], "on") == 0;
    (void)count;
    if (!on && strcmp(words[0], "off") != 0)
        return err("the button goes on or off: \"%s\"", shown(words[0]));
    put_event(d, (kelindap_reply){ .outcome = kelindap_button(d->sheet.bytes, d->sheet.length, on) }, NULL, 0);
    return true;
}

/* A request, by the engine that was chosen. */
static kelindap_reply served(device *d, uint8_t mode, uint8_t c, uint16_t group, run apdu, run answer)
{
#ifndef FIRST_ALONE /* the demonstration's unit has no other engine */
    if (d->plain) {
        kelindap_plain_reply reply = kelindap_plain_request(d->link.sessions, d->sheet.bytes, d->sheet.length, mode, c, group,
                                                            apdu.bytes, apdu.length, answer.bytes, answer.length);
        d->link.sessions = reply.sessions;
        return (kelindap_reply){ .outcome = reply.outcome, .count = reply.count };
    }
#endif
    return kelindap_request(&d->link.sessions, d->sheet.bytes, d->sheet.length, mode, c, group, apdu.bytes, apdu.length,
                            answer.bytes, answer.length);
}

static bool do_request(device *d, char **words, size_t count)
{
    uint64_t mode, group;
    uint8_t c;
    run apdu, answer;
    (void)count;
    if (!take_up_to("MODE", words[0], 255, &mode) || !take_up_to("GROUP", words[1], 65535, &group) ||
        !take_bytes("APDUHEX", words[2], &apdu) || !take_bytes("BUFHEX", words[3], &answer) || !take_connection(words[4], &c))
        return false;
    put_event(d, served(d, (uint8_t)mode, c, (uint16_t)group, apdu, answer), answer.bytes, answer.length);
    return true;
}

static bool do_engine(device *d, char **words, size_t count)
{
    bool plain = strcmp(words[0], "plain") == 0;
    (void)count;
    if (!plain && strcmp(words[0], "first") != 0)
        return err("the engine is first or plain: \"%s\"", shown(words[0]));
#ifdef FIRST_ALONE
    if (plain)
        return err("this unit has the first engine alone");
#endif
    d->plain = plain;
    printf("engine %s\n", words[0]);
    return true;
}

/* ---- versions ---- */

#include "unit_store.h"

/* ---- traces ---- */

#include "unit_trace.h"

/* ---- lookups ---- */

static bool find_property(const device *d, char **words, kelindap_part *part)
{
    uint64_t object, id;
    if (!take_up_to("OBJECT", words[0], 255, &object) || !take_up_to("ID", words[1], 255, &id))
        return false;
    *part = kelindap_property(d->sheet.bytes, d->sheet.length, (uint8_t)object, (uint8_t)id);
    return true;
}

/* The number of a region; one that a size can't hold counts as the largest it can, which no sheet has. */
static bool take_region(const char *word, size_t *k)
{
    uint64_t number;
    if (!take_number("K", word, &number))
        return false;
    *k = number < SIZE_MAX ? (size_t)number : SIZE_MAX;
    return true;
}

static bool find_region(const device *d, char **words, kelindap_part *part)
{
    size_t k;
    if (!take_region(words[0], &k))
        return false;
    *part = kelindap_region(d->sheet.bytes, d->sheet.length, k);
    return true;
}

static bool find_user_region(const device *d, char **words, kelindap_part *part)
{
    size_t k;
    if (!take_region(words[0], &k))
        return false;
    *part = kelindap_user_region(d->sheet.bytes, d->sheet.length, k);
    return true;
}

static bool find_group(const device *d, char **words, kelindap_part *part)
{
    uint64_t address;
    if (!take_up_to("ADDRESS", words[0], 65535, &address))
        return false;
    *part = kelindap_group(d->sheet.bytes, d->sheet.length, (uint16_t)address);
    return true;
}

static const char lookups[] = "lookup property OBJECT ID, lookup region K, lookup user K, or lookup group ADDRESS";

static bool find(const device *d, char **words, size_t count, kelindap_part *part)
{
    if (strcmp(words[0], "property") == 0 && count == 3)
        return find_property(d, words + 1, part);
    if (strcmp(words[0], "region") == 0 && count == 2)
        return find_region(d, words + 1, part);
    if (strcmp(words[0], "user") == 0 && count == 2)
        return find_user_region(d, words + 1, part);
    if (strcmp(words[0], "group") == 0 && count == 2)
        return find_group(d, words + 1, part);
    return err("the form is: %s", lookups);
}

static bool do_lookup(device *d, char **words, size_t count)
{
    kelindap_part part;
    if (!find(d, words, count, &part))
        return false;
    put_bytes(part.length == 0 ? NULL : d->sheet.bytes + part.offset, part.length);
    putchar('\n');
    return true;
}

/* ---- PDUs: their kinds and fields ---- */

enum form {
    DECIMAL, /* a number, in decimal */
    HEX,     /* a number, as the hex of its bytes */
    RUN      /* bytes, apart from the flat PDU */
};

enum field { END, V, T, OBJECT, ID, N, S, INDEX, TYPE, MAXIMUM, ACCESS, LEVEL, ADDRESS, DOMAIN, SERIAL, KEY, DATA, AND, XOR };
enum { FIELDS = XOR + 1 };

/* A field's name; how many bytes its value has, and where and how wide it is in a flat PDU. */
static const struct {
    const char *name;
    enum form form;
    size_t bytes, width, offset;
} fields[FIELDS] = {
#define FLAT(form, bytes, name) { #name, form, bytes, sizeof(((kelindap_pdu *)NULL)->name), offsetof(kelindap_pdu, name) }
    [V] = FLAT(DECIMAL, 1, v),
    [T] = FLAT(DECIMAL, 1, t),
    [OBJECT] = FLAT(DECIMAL, 1, object),
    [ID] = FLAT(DECIMAL, 1, id),
    [N] = FLAT(DECIMAL, 1, n),
    [S] = FLAT(DECIMAL, 2, s),
    [INDEX] = FLAT(DECIMAL, 1, index),
    [TYPE] = FLAT(DECIMAL, 1, type),
    [MAXIMUM] = FLAT(DECIMAL, 2, maximum),
    [ACCESS] = FLAT(DECIMAL, 1, access),
    [LEVEL] = FLAT(DECIMAL, 1, level),
    [ADDRESS] = FLAT(DECIMAL, 2, address),
    [DOMAIN] = FLAT(DECIMAL, 2, domain),
    [SERIAL] = FLAT(HEX, 6, serial),
    [KEY] = FLAT(HEX, 4, key),
    [DATA] = { "data", RUN, 0, 0, 0 },
    [AND] = { "and", RUN, 0, 0, 0 },
    [XOR] = { "xor", RUN, 0, 0, 0 },
#undef FLAT
};

/* The fields of each kind, in the order in which they are shown; kelindap_names.h has the kinds' names. */
static const enum field kinds[][7] = {
    [KELINDAP_GROUP_READ] = { END },
    [KELINDAP_GROUP_RESPONSE] = { V, DATA, END },
    [KELINDAP_GROUP_WRITE] = { V, DATA, END },
    [KELINDAP_ADDRESS_WRITE] = { ADDRESS, END },
    [KELINDAP_ADDRESS_READ] = { END },
    [KELINDAP_SERIAL_READ] = { SERIAL, END },
    [KELINDAP_SERIAL_WRITE] = { SERIAL, ADDRESS, END },
    [KELINDAP_DESCRIPTOR_READ] = { T, END },
    [KELINDAP_PROPERTY_READ] = { OBJECT, ID, N, S, END },
    [KELINDAP_PROPERTY_WRITE] = { OBJECT, ID, N, S, DATA, END },
    [KELINDAP_DESCRIPTION_READ] = { OBJECT, ID, INDEX, END },
    [KELINDAP_MEMORY_READ] = { N, ADDRESS, END },
    [KELINDAP_MEMORY_WRITE] = { N, ADDRESS, DATA, END },
    [KELINDAP_MEMORY_BIT_WRITE] = { N, ADDRESS, AND, XOR, END },
    [KELINDAP_AUTHORIZE_REQUEST] = { KEY, END },
    [KELINDAP_KEY_WRITE] = { LEVEL, KEY, END },
    [KELINDAP_RESTART] = { END },
    [KELINDAP_ADDRESS_RESPONSE] = { END },
    [KELINDAP_SERIAL_RESPONSE] = { SERIAL, DOMAIN, END },
    [KELINDAP_DESCRIPTOR_RESPONSE] = { T, DATA, END },
    [KELINDAP_PROPERTY_RESPONSE] = { OBJECT, ID, N, S, DATA, END },
    [KELINDAP_DESCRIPTION_RESPONSE] = { OBJECT, ID, INDEX, TYPE, MAXIMUM, ACCESS, END },
    [KELINDAP_MEMORY_RESPONSE] = { N, ADDRESS, DATA, END },
    [KELINDAP_AUTHORIZE_RESPONSE] = { LEVEL, END },
    [KELINDAP_KEY_RESPONSE] = { LEVEL, END },
    [KELINDAP_USER_MEMORY_READ] = { N, ADDRESS, END },
    [KELINDAP_USER_MEMORY_RESPONSE] = { N, ADDRESS, DATA, END },
    [KELINDAP_USER_MEMORY_WRITE] = { N, ADDRESS, DATA, END },
};
enum { KINDS = sizeof kinds / sizeof kinds[0] };

/* The number in a field of a flat PDU. */
static uint64_t get(const kelindap_pdu *pdu, enum field f)
{
    const uint8_t *at = (const uint8_t *)pdu + fields[f].offset;
    uint16_t two;
    uint32_t four;
    uint64_t eight;
    switch (fields[f].width) {
    case 1:
        return *at;
    case 2:
        return memcpy(&two, at, sizeof two), two;
    case 4:
        return memcpy(&four, at, sizeof four), four;
    default:
        return memcpy(&eight, at, sizeof eight), eight;
    }
}

static void set(kelindap_pdu *pdu, enum field f, uint64_t value)
{
    uint8_t *at = (uint8_t *)pdu + fields[f].offset;
    uint16_t two = (uint16_t)value;
    uint32_t four = (uint32_t)value;
    switch (fields[f].width) {
    case 1:
        *at = (uint8_t)value;
        break;
    case 2:
        memcpy(at, &two, sizeof two);
        break;
    case 4:
        memcpy(at, &four, sizeof four);
        break;
    default:
        memcpy(at, &value, sizeof value);
    }
}

/* ---- PDUs: reading ---- */

/* The bytes of a run field, which stand in the APDU; a bit write's data is its AND bytes, then as many XOR bytes. */
static run part_of(const kelindap_pdu *pdu, run apdu, enum field f)
{
    run data = { apdu.bytes + pdu->data_offset, pdu->data_length };
    if (f == DATA)
        return data;
    size_t half = data.length / 2;
    return (run){ f == AND ? data.bytes : data.bytes + half, half };
}

static void put_hex_number(uint64_t value, size_t length)
{
    uint8_t bytes[8];
    for (size_t i = 0; i < length; i++)
        bytes[i] = (uint8_t)(value >> 8 * (length - 1 - i));
    put_bytes(bytes, length);
}

static void put_field(const kelindap_pdu *pdu, run apdu, enum field f)
{
    printf(" %s=", fields[f].name);
    if (fields[f].form == RUN) {
        run part = part_of(pdu, apdu, f);
        put_bytes(part.bytes, part.length);
    } else if (fields[f].form == HEX) {
        put_hex_number(get(pdu, f), fields[f].bytes);
    } else {
        printf("%" PRIu64, get(pdu, f));
    }
}

static bool do_read(device *d, char **words, size_t count)
{
    run apdu;
    (void)d, (void)count;
    if (!take_bytes("APDUHEX", words[0], &apdu))
        return false;
    kelindap_pdu pdu = kelindap_read(apdu.bytes, apdu.length);
    printf("%d", pdu.outcome);
    if (pdu.outcome == KELINDAP_OK) {
        printf(" %s", kelindap_kind_name(pdu.kind));
        for (const enum field *f = kinds[pdu.kind]; *f != END; f++)
            put_field(&pdu, apdu, *f);
    }
    putchar('\n');
    return true;
}

/* ---- PDUs: writing ---- */

/* A PDU on its way from the words of a line. */
typedef struct draft {
    uint8_t kind;
    kelindap_pdu pdu;
    bool given[FIELDS];
    run runs[FIELDS]; /* of the run fields */
    bool fits;        /* each field so far fits its place in the flat PDU */
} draft;

static uint8_t kind_of(const char *name)
{
    for (uint8_t k = 0; k < KINDS; k++)
        if (strcmp(kelindap_kind_name(k), name) == 0)
            return k;
    return KELINDAP_NO_KIND;
}

static enum field field_of(uint8_t kind, const char *name)
{
    const enum field *f = kinds[kind];
    while (*f != END && strcmp(fields[*f].name, name) != 0)
        f++;
    return *f;
}

/* A value that doesn't fit its place is no error of the line: the PDU can't be written, which is for the library to say. */
static bool take_value(draft *w, enum field f, char *value)
{
    uint64_t number = 0;
    if (fields[f].form == RUN)
        return take_bytes(fields[f].name, value, &w->runs[f]);
    if (fields[f].form == DECIMAL) {
        if (!take_number(fields[f].name, value, &number))
            return false;
        w->fits = w->fits && number >> 8 * fields[f].bytes == 0;
    } else {
        run hex;
        if (!take_bytes(fields[f].name, value, &hex))
            return false;
        w->fits = w->fits && hex.length == fields[f].bytes;
        for (size_t i = 0; i < hex.length; i++)
            number = number << 8 | hex.bytes[i];
    }
    set(&w->pdu, f, number);
    return true;
}

static bool take_field(draft *w, char *word)
{
    char *equals = strchr(word, '=');
    if (equals == NULL)
        return err("a field is NAME=VALUE: \"%s\"", shown(word));
    *equals = '\0';
    enum field f = field_of(w->kind, word);
    if (f == END)
        return err("%s has no field of this name: \"%s\"", kelindap_kind_name(w->kind), shown(word));
    if (w->given[f])
        return err("%s is given twice", fields[f].name);
    w->given[f] = true;
    return take_value(w, f, equals + 1);
}

static bool take_fields(draft *w, char **words, size_t count)
{
    for (size_t i = 0; i < count; i++)
        if (!take_field(w, words[i]))
            return false;
    for (const enum field *f = kinds[w->kind]; *f != END; f++)
        if (!w->given[*f])
            return err("%s needs the field %s", kelindap_kind_name(w->kind), fields[*f].name);
    return true;
}

/* A bit write has as many AND bytes as XOR bytes, at most as many as its n can say. */
enum { MOST_BITS = 255 };

/* The data after the fields; `both` has room for the two runs of a bit write. */
static run data_of(draft *w, uint8_t both[2 * MOST_BITS])
{
    run and = w->runs[AND], xor = w->runs[XOR];
    if (!w->given[AND])
        return w->runs[DATA];
    if (and.length != xor.length || and.length > MOST_BITS) {
        w->fits = false;
        return (run){ both, 0 };
    }
    memcpy(both, and.bytes, and.length);
    memcpy(both + and.length, xor.bytes, xor.length);
    return (run){ both, 2 * and.length };
}

static bool do_write(device *d, char **words, size_t count)
{
    draft w = { .kind = kind_of(words[0]), .fits = true };
    uint8_t both[2 * MOST_BITS];
    run out;
    (void)d;
    if (w.kind == KELINDAP_NO_KIND)
        return err("no kind of PDU has this name: \"%s\"", shown(words[0]));
    if (strchr(words[count - 1], '=') != NULL)
        return err("BUFHEX is missing after the fields");
    if (!take_fields(&w, words + 1, count - 2) || !take_bytes("BUFHEX", words[count - 1], &out))
        return false;
    run data = data_of(&w, both);
    w.pdu.kind = w.fits ? w.kind : KELINDAP_NO_KIND; /* which gives 3 or 13, as is due */
    kelindap_written written = kelindap_write(w.pdu, data.bytes, data.length, out.bytes, out.length);
    printf("%d %d ", written.outcome, written.count);
    put_bytes(out.bytes, out.length);
    putchar('\n');
    return true;
}

/* ---- group values ---- */

/* The bytes of a value by its type, 0 where there is no such type. */
static size_t point_width(uint64_t type)
{
    return type == 1 || type == 5 ? 1 : type == 9 ? 2 : type == 14 ? 4 : 0;
}

/* Hundredths: digits, and a minus sign before them; what 32 bits can't hold is an error. */
static bool take_hundredths(const char *word, int32_t *value)
{
    uint64_t size;
    bool minus = word[0] == '-';
    if (!take_up_to("VALUE", word + minus, (uint64_t)INT32_MAX + minus, &size))
        return false;
    *value = minus ? (int32_t)-(int64_t)size : (int32_t)size;
    return true;
}

static bool take_bits(char *word, uint32_t *value)
{
    run hex;
    if (!take_bytes("VALUE", word, &hex))
        return false;
    if (hex.length != 4)
        return err("VALUE has eight hex digits");
    *value = (uint32_t)hex.bytes[0] << 24 | (uint32_t)hex.bytes[1] << 16 | (uint32_t)hex.bytes[2] << 8 | hex.bytes[3];
    return true;
}

static bool take_point(uint8_t type, char *word, kelindap_point *point)
{
    uint64_t number = 0;
    *point = (kelindap_point){ .type = type };
    if (type == 9)
        return take_hundredths(word, &point->hundredths);
    if (type == 14)
        return take_bits(word, &point->bits);
    if (point_width(type) == 1 && !take_up_to("VALUE", word, type == 1 ? 1 : 255, &number))
        return false;
    point->value = (uint8_t)number;
    return true;
}

static bool point_read(uint8_t type, char *word)
{
    run bytes;
    if (!take_bytes("HEX", word, &bytes))
        return false;
    kelindap_point point = kelindap_point_read(type, bytes.bytes, bytes.length);
    printf("%d", point.outcome);
    if (point.outcome == 0 && type == 9)
        printf(" %" PRId32, point.hundredths);
    else if (point.outcome == 0 && type == 14)
        printf(" %08" PRIx32, point.bits);
    else if (point.outcome == 0)
        printf(" %d", point.value);
    putchar('\n');
    return true;
}

static bool point_write(uint8_t type, char *word)
{
    kelindap_point point;
    uint8_t out[4];
    if (!take_point(type, word, &point))
        return false;
    int outcome = kelindap_point_write(point, out, point_width(type));
    printf("%d", outcome);
    if (outcome == 0) {
        putchar(' ');
        put_bytes(out, point_width(type));
    }
    putchar('\n');
    return true;
}

static const char points[] = "point read TYPE HEX, or point write TYPE VALUE";

static bool do_point(device *d, char **words, size_t count)
{
    uint64_t type;
    (void)d, (void)count;
    if (strcmp(words[0], "read") != 0 && strcmp(words[0], "write") != 0)
        return err("the form is: %s", points);
    if (!take_number("TYPE", words[1], &type))
        return false;
    type = type > 255 ? 0 : type; /* neither is a type, and 0 fits a byte */
    return words[0][0] == 'r' ? point_read((uint8_t)type, words[2]) : point_write((uint8_t)type, words[2]);
}

/* ---- links ---- */

#include "unit_link.h"

/* ---- frames ---- */

#include "unit_frames.h"

static bool do_frame(device *d, char **words, size_t count)
{
    (void)d;
    return frame_command(words, count);
}

/* ---- commands ---- */

static bool do_help(device *d, char **words, size_t count);

/* A command's name and form, and how many words follow the name. Its function has these words and their number. */
static const struct command {
    const char *name, *form;
    size_t fewest, most;
    bool (*obey)(device *d, char **words, size_t count);
} commands[] = {
    { "sheet", "sheet HEX", 1, 1, do_sheet },
    { "convert", "convert", 0, 0, do_convert },
    { "session", "session C OPEN LEVEL", 3, 3, do_session },
    { "connect", "connect C", 1, 1, do_connect },
    { "disconnect", "disconnect C", 1, 1, do_disconnect },
    { "button", "button on, or button off", 1, 1, do_button },
    { "request", "request MODE GROUP APDUHEX BUFHEX C", 5, 5, do_request },
    { "engine", "engine first, or engine plain", 1, 1, do_engine },
    { "store", "store HEX", 1, 1, do_store },
    { "save", "save", 0, 0, do_save },
    { "restore", "restore C NUMBER", 2, 2, do_restore },
    { "remove", "remove NUMBER", 1, 1, do_remove },
    { "versions", "versions", 0, 0, do_versions },
    { "trace", "trace HEX", 1, 1, do_trace },
    { "play", "play LIMIT", 1, 1, do_play },
    { "link", "link", 0, 0, do_link },
    { "heard", "heard FRAMEHEX", 1, 1, do_heard },
    { "serve", "serve SEQUENCE FRAMEHEX BUFHEX", 3, 3, do_serve },
    { "lookup", lookups, 2, 3, do_lookup },
    { "read", "read APDUHEX", 1, 1, do_read },
    { "write", "write KIND field=value .. BUFHEX", 2, MOST_WORDS - 1, do_write },
    { "frame", frame_forms, 2, MOST_WORDS - 1, do_frame },
    { "point", points, 3, 3, do_point },
    { "help", "help", 0, 0, do_help },
};
enum { COMMANDS = sizeof commands / sizeof commands[0] };

static const struct command *command_of(const char *name)
{
    for (size_t i = 0; i < COMMANDS; i++)
        if (strcmp(commands[i].name, name) == 0)
            return &commands[i];
    return NULL;
}

/* The forms, on one line, as every answer is. */
static bool do_help(device *d, char **words, size_t count)
{
    (void)d, (void)words, (void)count;
    for (size_t i = 0; i < COMMANDS; i++)
        printf("%s%s", i == 0 ? "commands: " : "; ", commands[i].form);
    putchar('\n');
    return true;
}

static bool obey(device *d, const line *l)
{
    char *words[MOST_WORDS + 1];
    if (l->length == 0 || l->text[0] == '#')
        return true;
    if (memchr(l->text, '\0', l->length) != NULL)
        return err("the line has a NUL byte");
    size_t count = split(l->text, words);
    if (count == 0)
        return err("the line has nothing but blanks");
    const struct command *command = command_of(words[0]);
    if (command == NULL)
        return err("no command has this name: \"%s\"", shown(words[0]));
    if (count - 1 < command->fewest || command->most < count - 1)
        return err("the form is: %s", command->form);
    return command->obey(d, words + 1, count - 1);
}

/* ---- the program ---- */

static const char *const help[] = {
#include "unit_help.inc"
};

/* ---- words ---- */

#include "unit_near.h"
#include "unit_sheet.h"
#include "unit_reasons.h"
#include "unit_changes.h"
#include "unit_words.h"

/* ---- the program ---- */

enum manner { BY_TERMINAL, IN_WORDS, IN_LINES };

static int tell_help(void)
{
    for (size_t i = 0; i < sizeof help / sizeof help[0]; i++)
        puts(help[i]);
    flush_out();
    return EXIT_SUCCESS;
}

static int tell_version(void)
{
    printf("%s of kelindap %s\n", program, KELINDAP_VERSION_TEXT);
    flush_out();
    return EXIT_SUCCESS;
}

/* A word on the command line that is not understood. */
static int not_understood(const char *word)
{
    nearest n = { word, "", 3 };
    look_near(&n, "--words");
    look_near(&n, "--lines");
    look_near(&n, "--help");
    look_near(&n, "--version");
    fprintf(stderr, "%s: no option \"%s\"%s%s; %s --help says more\n", program, shown(word), *n.found == '\0' ? "" : ", perhaps ",
            n.found, program);
    return 2;
}

/* Whether standard output shows colours, and nobody has said that he wants none. */
static bool wants_colours(void)
{
    const char *none = getenv("NO_COLOR"), *term = getenv("TERM");
    return isatty(STDOUT_FILENO) && (none == NULL || *none == '\0') && term != NULL && *term != '\0' && strcmp(term, "dumb") != 0;
}

/* The line language: a line of answer to each command. */
static void serve_lines(device *d)
{
    line l = { 0 };
    while (next_line(&l)) {
        obey(d, &l);
        flush_out();
    }
    free(l.text);
}

int main(int argc, char **argv)
{
    enum manner manner = BY_TERMINAL;
    if (argc > 0 && argv[0][0] != '\0') {
        const char *slash = strrchr(argv[0], '/');
        program = slash == NULL ? argv[0] : slash + 1;
    }
    if (argc > 2)
        return not_understood(argv[2]);
    if (argc == 2 && strcmp(argv[1], "--help") == 0)
        return tell_help();
    if (argc == 2 && strcmp(argv[1], "--version") == 0)
        return tell_version();
    if (argc == 2 && strcmp(argv[1], "--words") == 0)
        manner = IN_WORDS;
    else if (argc == 2 && strcmp(argv[1], "--lines") == 0)
        manner = IN_LINES;
    else if (argc == 2)
        return not_understood(argv[1]);
    device d = { .link.sessions = kelindap_fresh() };
    set_run(&d.sheet, (run){ sample_sheet, sizeof sample_sheet });
    if (manner == IN_WORDS || (manner == BY_TERMINAL && isatty(STDIN_FILENO) && isatty(STDOUT_FILENO))) {
        no_command = "";
        talk_on(&d, isatty(STDIN_FILENO), wants_colours());
    } else {
        serve_lines(&d);
    }
    free(d.sheet.bytes);
    free(d.store.bytes);
    free(d.trace.bytes);
    return EXIT_SUCCESS;
}
