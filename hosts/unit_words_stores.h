/* In words: versions, traces, frames and group values. A part of unit_words.h. */
#ifndef UNIT_WORDS_STORES_H
#define UNIT_WORDS_STORES_H

/* ---- versions ---- */

static bool say_store(talk *t, char **words, size_t count, route said)
{
    uint64_t length;
    run store;
    (void)said;
    if (count == 2) {
        static uint8_t zeros[32768];
        if (strcmp(words[0], "of") != 0)
            return err("the form is: store HEX, or store of BYTES");
        if (!take_any("BYTES", words[1], sizeof zeros, &length))
            return false;
        store = (run){ zeros, (size_t)length };
    } else if (!take_bytes("HEX", words[0], &store)) {
        return false;
    }
    set_run(&t->d->store, store);
    uint8_t rule = kelindap_store_check(t->d->store.bytes, t->d->store.length);
    printf("  a store of %d bytes: %s\n", (int)t->d->store.length, rule == 0 ? "good" : "not a good one (30)");
    return true;
}

static bool say_save(talk *t, char **words, size_t count, route said)
{
    (void)words, (void)count, (void)said;
    kelindap_saved saved = kelindap_save(t->d->sheet.bytes, t->d->sheet.length, t->d->store.bytes, t->d->store.length);
    tell_outcome(t, saved.outcome, NULL);
    if (saved.outcome == KELINDAP_OK)
        printf("  %-9sversion %d is kept\n", "", saved.number);
    return true;
}

static bool say_restore(talk *t, char **words, size_t count, route said)
{
    size_t version;
    reasons why = { 0 };
    uint8_t c = said.given && said.mode == 3 ? said.connection : (uint8_t)(t->on < 0 ? 0 : t->on);
    (void)count;
    if (!take_version(words[0], &version))
        return false;
    before b = remember(t);
    uint8_t outcome =
        kelindap_restore(t->d->link.sessions, c, t->d->sheet.bytes, t->d->sheet.length, t->d->store.bytes, t->d->store.length, version);
    if (outcome == KELINDAP_STORE_NOT_AT_ZERO) {
        if (c >= KELINDAP_CONNECTIONS)
            because(&why, CONNECTION_NONE, c, 0);
        else if (!b.sessions.of[c].open)
            because(&why, CONNECTION_CLOSED, c, 0);
        else
            because(&why, LEVEL_NEEDED, 0, b.sessions.of[c].level);
    }
    return event(t, outcome, &b, &why);
}

static bool say_remove(talk *t, char **words, size_t count, route said)
{
    size_t version;
    (void)count, (void)said;
    if (!take_version(words[0], &version))
        return false;
    tell_outcome(t, kelindap_remove(t->d->store.bytes, t->d->store.length, version), NULL);
    return true;
}

static bool say_versions(talk *t, char **words, size_t count, route said)
{
    (void)words, (void)count, (void)said;
    if (kelindap_store_check(t->d->store.bytes, t->d->store.length) != 0) {
        puts("  the store is not a good one (30): store of 1000 sets one");
        return true;
    }
    unsigned kept = two_bytes(t->d->store.bytes);
    printf("  %u kept%s", kept, kept == 0 ? "" : ":");
    for (unsigned k = 0; k < kept; k++)
        printf(" %u", two_bytes(t->d->store.bytes + 8 + 8 * k));
    putchar('\n');
    return true;
}

/* ---- traces ---- */

static bool say_trace(talk *t, char **words, size_t count, route said)
{
    run trace;
    (void)count, (void)said;
    if (!take_bytes("HEX", words[0], &trace))
        return false;
    set_run(&t->d->trace, trace);
    t->d->played = 0;
    uint8_t refusal = kelindap_trace_check(t->d->trace.bytes, t->d->trace.length);
    if (refusal == 0)
        printf("  a trace of %u event%s, none played\n", two_bytes(t->d->trace.bytes), two_bytes(t->d->trace.bytes) == 1 ? "" : "s");
    else
        printf("  no trace: %s (%d)\n", kelindap_outcome_name(refusal), refusal);
    return true;
}

static bool say_play(talk *t, char **words, size_t count, route said)
{
    static uint8_t log[KELINDAP_TRACE_EVENTS * KELINDAP_LOG_LINE];
    uint64_t limit = 65535;
    (void)said;
    if (count > 0 && !take_any("LIMIT", words[0], 65535, &limit))
        return false;
    before b = remember(t);
    kelindap_played p = kelindap_play(&t->d->link.sessions, t->d->sheet.bytes, t->d->sheet.length, t->d->trace.bytes,
                                      t->d->trace.length, t->d->played, (size_t)limit, log, sizeof log);
    if (p.refusal != 0) {
        tell_outcome(t, p.refusal, NULL);
        free(b.sheet.bytes);
        return true;
    }
    for (size_t i = 0; i < p.handled; i++) {
        uint8_t *line = log + i * KELINDAP_LOG_LINE;
        printf("  event %d: %s (%d)", (int)(t->d->played + i + 1), kelindap_outcome_name(line[KELINDAP_LOG_OUTCOME]),
               line[KELINDAP_LOG_OUTCOME]);
        if (line[KELINDAP_LOG_COUNT] > 0) {
            fputs(", answer ", stdout);
            put_pdu((run){ line + KELINDAP_LOG_ANSWER, line[KELINDAP_LOG_COUNT] });
        }
        putchar('\n');
    }
    t->d->played += p.handled;
    if (p.handled == 0)
        puts("  no event is left");
    tell_changed(t, &b);
    return true;
}

/* ---- values and frames ---- */

static bool say_point(talk *t, char **words, size_t count, route said)
{
    uint64_t type;
    run bytes;
    (void)count, (void)said;
    if (strcmp(words[0], "read") != 0)
        return do_point(t->d, words, count);
    if (!take_number("TYPE", words[1], &type) || !take_bytes("HEX", words[2], &bytes))
        return false;
    kelindap_point point = kelindap_point_read((uint8_t)(type > 255 ? 0 : type), bytes.bytes, bytes.length);
    if (point.outcome != 0) {
        tell_outcome(t, point.outcome, NULL);
        return true;
    }
    label(t, "value");
    if (type == 9)
        printf("%s%" PRId32 ".%02d\n", point.hundredths < 0 && point.hundredths > -100 ? "-" : "", point.hundredths / 100,
               abs((int)(point.hundredths % 100)));
    else if (type == 14)
        printf("%08" PRIx32 ", the bits of a number with a fraction\n", point.bits);
    else
        printf("%d\n", point.value);
    return true;
}

static bool say_heard(talk *t, char **words, size_t count, route said)
{
    static const char *const names[] = { "a request to a group", "a request by broadcast", "a request without a connection",
                                         "a request on a connection", "a connect", "a disconnect" };
    run frame;
    (void)count, (void)said;
    if (!take_bytes("FRAMEHEX", words[0], &frame))
        return false;
    kelindap_arrival a = kelindap_heard(t->d->link, t->d->sheet.bytes, t->d->sheet.length, frame.bytes, frame.length);
    if (a.event > KELINDAP_EVENT_DISCONNECT)
        printf("  no event: %s (%d)\n", kelindap_outcome_name(a.event), a.event);
    else if (a.event == KELINDAP_EVENT_MULTICAST)
        printf("  %s, %d/%d/%d\n", names[a.event], a.group >> 11, a.group >> 8 & 7, a.group & 255);
    else if (a.connection != KELINDAP_LINK_NOBODY)
        printf("  %s, of connection %d\n", names[a.event], a.connection);
    else
        printf("  %s\n", names[a.event]);
    return true;
}

#endif
