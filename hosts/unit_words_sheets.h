/* In words: connections, the button and the sheet. A part of unit_words.h. */
#ifndef UNIT_WORDS_SHEETS_H
#define UNIT_WORDS_SHEETS_H

/* ---- connections ---- */

static bool event(talk *t, uint8_t outcome, before *b, const reasons *why)
{
    tell_outcome(t, outcome, why);
    tell_changed(t, b);
    return true;
}

/* A connect or a disconnect: of connection 0, or the one named last, if none is named. */
static bool connection_event(talk *t, char **words, size_t count, bool opens)
{
    uint8_t c = (uint8_t)(t->on < 0 ? 0 : t->on);
    reasons why = { 0 };
    if (count > 0 && !take_connection(words[0], &c))
        return false;
    before b = remember(t);
    uint8_t outcome = opens ? kelindap_connect(&t->d->link.sessions, c) : kelindap_disconnect(&t->d->link.sessions, c);
    if (outcome == KELINDAP_NOT_CONNECTED)
        because(&why, CONNECTION_NONE, c, 0);
    else
        t->on = c;
    return event(t, outcome, &b, &why);
}

static bool say_connect(talk *t, char **words, size_t count, route said)
{
    (void)said;
    return connection_event(t, words, count, true);
}

static bool say_disconnect(talk *t, char **words, size_t count, route said)
{
    (void)said;
    return connection_event(t, words, count, false);
}

static bool say_button(talk *t, char **words, size_t count, route said)
{
    bool on = strcmp(words[0], "on") == 0;
    reasons why = { 0 };
    (void)count, (void)said;
    if (!on && strcmp(words[0], "off") != 0)
        return err("the button goes on or off: \"%s\"", shown(words[0]));
    before b = remember(t);
    uint8_t outcome = kelindap_button(t->d->sheet.bytes, t->d->sheet.length, on);
    if (outcome == KELINDAP_BAD_SHEET)
        because(&why, SHEET_RULE, kelindap_check(t->d->sheet.bytes, t->d->sheet.length), 0);
    if (outcome == KELINDAP_OLD_SHEET)
        because(&why, SHEET_OLD, 0, 0);
    return event(t, outcome, &b, &why);
}

static bool say_sessions(talk *t, char **words, size_t count, route said)
{
    (void)words, (void)count, (void)said;
    for (int c = 0; c < KELINDAP_CONNECTIONS; c++) {
        printf("  connection %d: ", c);
        put_session(t->d->link.sessions.of[c]);
        puts(c == t->on && t->d->link.sessions.of[c].open ? ", on which requests go" : "");
    }
    return true;
}

/* ---- the sheet ---- */

static void show_levels(enum sheet_kind kind, const uint8_t *entry)
{
    printf(", read level %u, write level %u:", level_to(kind, entry, false), level_to(kind, entry, true));
}

static void show_bytes(const talk *t, enum sheet_kind kind, const uint8_t *entry)
{
    putchar(' ');
    put_byte_words(t->d->sheet.bytes + body_at(kind, entry), body_length(kind, entry));
    putchar('\n');
}

static void show_property(const talk *t, const uint8_t *e)
{
    printf("  property %d/%d: type %d%s, %d bytes an element, count %u of %u", e[0], e[1], e[2] & 63, e[2] & 128 ? ", writable" : "",
           e[3], two_bytes(e + 6), two_bytes(e + 4));
    show_levels(PROPERTIES, e);
    for (size_t i = 0; i < two_bytes(e + 6); i++) {
        putchar(' ');
        put_element(t->d->sheet.bytes + body_at(PROPERTIES, e) + i * e[3], e[3]);
    }
    putchar('\n');
}

static void show_memory(const talk *t, enum sheet_kind memory)
{
    for (size_t k = 0; k < entry_count(t->d->sheet.bytes, memory); k++) {
        const uint8_t *e = entry_at(t->d->sheet.bytes, memory, k);
        printf("  %s %04xh: %u bytes", memory == USERS ? "user region" : "region", two_bytes(e), two_bytes(e + 2));
        show_levels(memory, e);
        show_bytes(t, memory, e);
    }
}

static void show_group(const talk *t, const uint8_t *e)
{
    printf("  group object %u/%u/%u: ", two_bytes(e) >> 11, two_bytes(e) >> 8 & 7, two_bytes(e) & 255);
    if (e[2] == 0)
        fputs("six bits", stdout);
    else
        printf("%d byte%s", e[2], e[2] == 1 ? "" : "s");
    printf("%s%s%s:", e[3] & 1 ? ", read" : "", e[3] & 2 ? ", write" : "", e[3] & 4 ? ", response" : "");
    show_bytes(t, GROUPS, e);
}

static bool tell_sheet(const talk *t)
{
    uint8_t rule = kelindap_check(t->d->sheet.bytes, t->d->sheet.length);
    printf("  a sheet of %d byte%s: ", (int)t->d->sheet.length, t->d->sheet.length == 1 ? "" : "s");
    if (rule == KELINDAP_ACCEPTED || rule == KELINDAP_OLD)
        puts(kelindap_rule_name(rule));
    else
        printf("S%d, %s\n", rule, kelindap_rule_name(rule));
    return readable(t);
}

static bool say_show(talk *t, char **words, size_t count, route said)
{
    const uint8_t *s = t->d->sheet.bytes;
    (void)words, (void)count, (void)said;
    if (!tell_sheet(t))
        return true;
    printf("  address %d.%d.%d, serial number ", s[16] >> 4, s[16] & 15, s[17]);
    put_bytes(s + SHEET_SERIAL, 6);
    printf(", mask version %02x%02x, programming mode %s, verify %s, edition %d, rules %d\n", s[12], s[13], on_or_off(s[14] & 1),
           on_or_off(s[14] & 2), s[0], s[SHEET_RULES]);
    show_memory(t, REGIONS);
    for (size_t k = 0; k < entry_count(s, PROPERTIES); k++)
        show_property(t, entry_at(s, PROPERTIES, k));
    for (size_t k = 0; k < entry_count(s, GROUPS); k++)
        show_group(t, entry_at(s, GROUPS, k));
    show_memory(t, USERS);
    return true;
}

static bool say_sheet(talk *t, char **words, size_t count, route said)
{
    run sheet;
    (void)count, (void)said;
    if (!take_bytes("HEX", words[0], &sheet))
        return false;
    set_run(&t->d->sheet, sheet);
    tell_sheet(t);
    return true;
}

/* What a file is that is no sheet, as far as it can be told; NULL if it can't. */
static const char *other_file(const uint8_t *bytes, size_t length)
{
    size_t printed = 0;
    for (size_t i = 0; i < length; i++)
        printed += bytes[i] >= 32 || bytes[i] == '\n' || bytes[i] == '\r' || bytes[i] == '\t';
    if (length > 7 && memcmp(bytes, "edition", 7) == 0)
        return "the text of a sheet";
    if (length > 0 && printed == length)
        return "a text";
    if (length >= 8 && kelindap_store_check(bytes, length) == 0 && two_bytes(bytes + 2) > 0)
        return "a store of versions";
    return kelindap_trace_check(bytes, length) == 0 ? "a trace" : NULL;
}

static bool say_open(talk *t, char **words, size_t count, route said)
{
    static uint8_t bytes[65536];
    (void)count, (void)said;
    FILE *file = fopen(words[0], "rb");
    if (file == NULL)
        return err("%s: %s", shown(words[0]), strerror(errno));
    size_t length = fread(bytes, 1, sizeof bytes, file);
    bool failed = ferror(file) != 0;
    int why = errno;
    fclose(file);
    if (failed)
        return err("%s: %s", shown(words[0]), strerror(why));
    uint8_t rule = kelindap_check(bytes, length);
    const char *other = rule == KELINDAP_ACCEPTED || rule == KELINDAP_OLD ? NULL : other_file(bytes, length);
    if (other != NULL)
        return err("%s: this is %s, and a sheet is wanted", shown(words[0]), other);
    set_run(&t->d->sheet, (run){ bytes, length });
    tell_sheet(t);
    return true;
}

static bool say_convert(talk *t, char **words, size_t count, route said)
{
    reasons why = { 0 };
    (void)words, (void)count, (void)said;
    before b = remember(t);
    uint8_t rule = kelindap_check(b.sheet.bytes, b.sheet.length);
    uint8_t outcome = kelindap_convert(t->d->sheet.bytes, t->d->sheet.length);
    if (outcome != KELINDAP_DONE && rule == KELINDAP_ACCEPTED) {
        say(t, "outcome", "nothing is converted: the sheet is not old");
        free(b.sheet.bytes);
        return true;
    }
    if (outcome != KELINDAP_DONE)
        because(&why, SHEET_RULE, rule, 0);
    return event(t, outcome, &b, &why);
}

#endif
