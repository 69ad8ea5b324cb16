/* In words: what is told of a request, an event and what they changed. A part of unit_words.h. */
#ifndef UNIT_WORDS_TOLD_H
#define UNIT_WORDS_TOLD_H

enum colour { PLAIN_COLOUR = 0, DIM = 2, RED = 31, GREEN = 32 };

static void paint(const talk *t, enum colour colour)
{
    if (t->colours)
        printf("\033[%dm", (int)colour);
}

/* What stands before a line of an answer. */
static void label(const talk *t, const char *name)
{
    paint(t, DIM);
    printf("  %-9s", name);
    paint(t, PLAIN_COLOUR);
}

static void say(const talk *t, const char *name, const char *text)
{
    label(t, name);
    puts(text);
}

/* An address as people write it, behind its number: of memory, or of a device. */
static void put_readable(const kelindap_pdu *pdu)
{
    if (pdu->kind == KELINDAP_ADDRESS_WRITE || pdu->kind == KELINDAP_SERIAL_WRITE)
        printf(" (%d.%d.%d)", pdu->address >> 12, pdu->address >> 8 & 15, pdu->address & 255);
    else
        printf(" (%04xh)", pdu->address);
}

/* A PDU by its fields; bytes that are none as they stand. */
static void put_pdu(run apdu)
{
    kelindap_pdu pdu = kelindap_read(apdu.bytes, apdu.length);
    if (pdu.outcome != KELINDAP_OK) {
        put_bytes(apdu.bytes, apdu.length);
        return;
    }
    fputs(kelindap_kind_name(pdu.kind), stdout);
    for (const enum field *f = kinds[pdu.kind]; *f != END; f++) {
        put_field(&pdu, apdu, *f);
        if (*f == ADDRESS)
            put_readable(&pdu);
    }
}

static void put_route(route r)
{
    switch (r.mode) {
    case 0:
        printf(", to group %d/%d/%d", r.group >> 11, r.group >> 8 & 7, r.group & 255);
        break;
    case 1:
        fputs(", by broadcast", stdout);
        break;
    case 2:
        fputs(", without a connection", stdout);
        break;
    case 3:
        printf(", on connection %d", r.connection);
        break;
    default:
        printf(", in mode %d", r.mode);
    }
}

/* The outcome in words, with all its reasons. */
static void tell_outcome(const talk *t, uint8_t outcome, const reasons *why)
{
    char text[128];
    label(t, "outcome");
    paint(t, outcome <= KELINDAP_DONE ? GREEN : RED);
    printf("%s (%d)", kelindap_outcome_name(outcome), outcome);
    for (size_t i = 0; why != NULL && i < why->count; i++) {
        tell_reason(text, sizeof text, why->of[i]);
        printf("%s%s", i == 0 ? ": " : "; ", text);
    }
    paint(t, PLAIN_COLOUR);
    putchar('\n');
}

/* Sheet and sessions as they were before an event. */
typedef struct before {
    run sheet;
    kelindap_sessions sessions;
} before;

static before remember(const talk *t)
{
    before b = { .sessions = t->d->link.sessions };
    set_run(&b.sheet, t->d->sheet);
    return b;
}

static void put_session(kelindap_session s)
{
    if (s.open)
        printf("level %d", s.level);
    else
        fputs("closed", stdout);
}

/* Says what an event changed, and forgets what was before it. */
static void tell_changed(const talk *t, before *b)
{
    char mark[40];
    snprintf(mark, sizeof mark, t->colours ? "\033[2m  %-9s\033[0m" : "  %-9s", "changed");
    size_t n = tell_changes(mark, b->sheet, t->d->sheet);
    for (int c = 0; c < KELINDAP_CONNECTIONS; c++) {
        kelindap_session old = b->sessions.of[c], new = t->d->link.sessions.of[c];
        if (old.open == new.open && (!old.open || old.level == new.level))
            continue;
        printf("%sconnection %d: ", mark, c);
        put_session(old);
        fputs(" → ", stdout);
        put_session(new);
        putchar('\n');
        n++;
    }
    if (n == 0)
        say(t, "changed", "nothing");
    free(b->sheet.bytes);
}

/* The elements of a property that an answer has, as numbers. */
static void tell_elements(const talk *t, const kelindap_pdu *p, const uint8_t *data)
{
    const uint8_t *entry = property_at(t->d->sheet.bytes, p->object, p->id);
    if (entry == NULL || p->data_length == 0)
        return;
    label(t, "value");
    if (p->s == 0)
        printf("count %u", two_bytes(data));
    for (size_t i = 0; p->s > 0 && (i + 1) * entry[3] <= p->data_length; i++) {
        fputs(i == 0 ? "" : " ", stdout);
        put_element(data + i * entry[3], entry[3]);
    }
    putchar('\n');
}

/* What an answer means, where its fields leave it to be worked out. */
static void tell_value(const talk *t, run answer)
{
    kelindap_pdu p = kelindap_read(answer.bytes, answer.length);
    if (p.kind == KELINDAP_PROPERTY_RESPONSE)
        tell_elements(t, &p, answer.bytes + p.data_offset);
    if (p.kind == KELINDAP_DESCRIPTION_RESPONSE) {
        label(t, "value");
        printf("type %d, %swritable, maximum %d, read level %d, write level %d\n", p.type & 63, p.type & 128 ? "" : "not ", p.maximum,
               p.access >> 4, p.access & 15);
    }
    if (p.kind == KELINDAP_AUTHORIZE_RESPONSE) {
        label(t, "value");
        if (p.level < 3)
            printf("the key of level %d\n", p.level);
        else
            puts("no level has this key");
    }
}

/* A request: what was sent, what came back, its outcome and why, what changed. */
static bool ask_in(talk *t, route r, run apdu, run buffer)
{
    before b = remember(t);
    label(t, "sent");
    put_pdu(apdu);
    put_route(r);
    putchar('\n');
    kelindap_reply reply = served(t->d, r.mode, r.connection, r.group, apdu, buffer);
    label(t, "answer");
    if (reply.count == 0)
        fputs("none", stdout);
    else
        put_pdu((run){ buffer.bytes, reply.count });
    putchar('\n');
    if (reply.outcome == KELINDAP_ANSWERED)
        tell_value(t, (run){ buffer.bytes, reply.count });
    asked a = { b.sheet.bytes,   b.sheet.length, b.sessions,    r.mode,       r.connection,
                r.group,         apdu.bytes,     apdu.length,   buffer.length };
    reasons why = reasons_of(&a, reply.outcome);
    tell_outcome(t, reply.outcome, &why);
    tell_changed(t, &b);
    return true;
}

static bool ask(talk *t, route r, run apdu)
{
    uint8_t answer[16] = { 0 };
    return ask_in(t, r, apdu, (run){ answer, sizeof answer });
}

/* Writes a PDU and sends it. */
static bool ask_pdu(talk *t, route r, kelindap_pdu pdu, run data)
{
    uint8_t out[16];
    kelindap_written w = kelindap_write(pdu, data.bytes, data.length, out, sizeof out);
    if (w.outcome != KELINDAP_OK)
        return err("%s: a value is too large, or there are too many", kelindap_outcome_name(w.outcome));
    return ask(t, r, (run){ out, w.count });
}

#endif
