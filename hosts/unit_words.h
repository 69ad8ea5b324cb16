/*
 * The desk unit for people: requests in words, and what came of them in words: the PDUs by their fields, the outcome with its
 * reason, what changed by meaning. What the device does is the library's to say, as in the line language; here it is told.
 * A part of unit.c, which includes it behind its commands and its help.
 */
#ifndef UNIT_WORDS_H
#define UNIT_WORDS_H

/* What a dialogue keeps beside the device. */
typedef struct talk {
    device *d;
    int on; /* the connection that was named last, -1 if none was */
    bool colours;
    bool over;
} talk;

/* How a request goes. */
typedef struct route {
    uint8_t mode, connection;
    uint16_t group;
    bool given; /* the words said it */
} route;

#include "unit_words_told.h"
#include "unit_words_said.h"
#include "unit_words_requests.h"
#include "unit_words_sheets.h"
#include "unit_words_stores.h"
#include "unit_words_help.h"

/* ---- phrases ---- */

/* A phrase: its first words, its form, how many words follow, and what it does with them. */
static const struct phrase {
    const char *verb, *noun, *form;
    size_t fewest, most;
    bool (*obey)(talk *t, char **words, size_t count, route said);
} phrases[] = {
    { "read", "property", "read property OBJECT/ID [from S] [count N]", 1, 5, read_property },
    { "read", "memory", "read memory ADDRESS [N]", 1, 2, read_memory },
    { "read", "user", "read user ADDRESS [N]", 1, 2, read_user },
    { "read", "group", "read group GROUP", 1, 1, read_group },
    { "read", "address", "read address", 0, 0, read_address },
    { "read", "serial", "read serial SERIAL", 1, 1, read_serial },
    { "read", "descriptor", "read descriptor [TYPE]", 0, 1, read_descriptor },
    { "write", "property", "write property OBJECT/ID [from S] VALUE ..", 2, MOST_WORDS, write_property },
    { "write", "memory", "write memory ADDRESS BYTES", 2, 2, write_memory },
    { "write", "user", "write user ADDRESS BYTES", 2, 2, write_user },
    { "write", "group", "write group GROUP VALUE", 2, 3, write_group },
    { "write", "address", "write address ADDRESS", 1, 1, write_address },
    { "write", "serial", "write serial SERIAL ADDRESS", 2, 2, write_serial },
    { "write", "key", "write key LEVEL KEY", 2, 2, write_key },
    { "write", "bits", "write bits ADDRESS AND XOR", 3, 3, write_bits },
    { "respond", "group", "respond group GROUP VALUE", 2, 3, respond_group },
    { "describe", "property", "describe property OBJECT/ID", 1, 1, describe_property },
    { "describe", "index", "describe index OBJECT INDEX", 2, 2, describe_index },
    { "authorize", NULL, "authorize KEY", 1, 1, authorize },
    { "restart", NULL, "restart", 0, 0, restart },
    { "send", NULL, "send KIND field=value ..", 1, MOST_WORDS, send_fields },
    { "raw", NULL, "raw APDU", 1, 1, send_raw },
    { "request", NULL, "request MODE GROUP APDUHEX BUFHEX C", 5, 5, send_request },
    { "connect", NULL, "connect [C]", 0, 1, say_connect },
    { "disconnect", NULL, "disconnect [C]", 0, 1, say_disconnect },
    { "button", NULL, "button on, or button off", 1, 1, say_button },
    { "sessions", NULL, "sessions", 0, 0, say_sessions },
    { "show", NULL, "show", 0, 0, say_show },
    { "sheet", NULL, "sheet HEX", 1, 1, say_sheet },
    { "open", NULL, "open FILE", 1, 1, say_open },
    { "convert", NULL, "convert", 0, 0, say_convert },
    { "store", NULL, "store HEX, or store of BYTES", 1, 2, say_store },
    { "save", NULL, "save", 0, 0, say_save },
    { "versions", NULL, "versions", 0, 0, say_versions },
    { "restore", NULL, "restore NUMBER", 1, 1, say_restore },
    { "remove", NULL, "remove NUMBER", 1, 1, say_remove },
    { "trace", NULL, "trace HEX", 1, 1, say_trace },
    { "play", NULL, "play [LIMIT]", 0, 1, say_play },
    { "point", NULL, points, 3, 3, say_point },
    { "heard", NULL, "heard FRAMEHEX", 1, 1, say_heard },
    { "help", NULL, "help [SUBJECT]", 0, 1, say_help },
    { "quit", NULL, "quit", 0, 0, say_quit },
    { "exit", NULL, "exit", 0, 0, say_quit },
};
enum { PHRASES = sizeof phrases / sizeof phrases[0] };

/* The first word of a phrase or command that is nearest to one that there is not, "" if none is near. */
static const char *near_word(const char *word)
{
    nearest n = { word, "", 3 };
    for (size_t i = 0; i < PHRASES; i++)
        look_near(&n, phrases[i].verb);
    for (size_t i = 0; i < COMMANDS; i++)
        look_near(&n, commands[i].name);
    return n.found;
}

/* The phrase that begins with these words; NULL with *verb set if its first word has none with this second one. */
static const struct phrase *phrase_of(char **words, size_t count, bool *verb)
{
    *verb = false;
    for (size_t i = 0; i < PHRASES; i++) {
        if (strcmp(phrases[i].verb, words[0]) != 0)
            continue;
        if (phrases[i].noun == NULL || (count > 1 && strcmp(phrases[i].noun, words[1]) == 0))
            return &phrases[i];
        *verb = true;
    }
    return NULL;
}

/* Says which words may follow one. */
static bool err_noun(char **words, size_t count)
{
    nearest n = { count > 1 ? words[1] : "", "", 3 };
    fprintf(stdout, "%s ", words[0]);
    const char *mark = "";
    for (size_t i = 0; i < PHRASES; i++)
        if (strcmp(phrases[i].verb, words[0]) == 0) {
            printf("%s%s", mark, phrases[i].noun);
            mark = ", ";
            if (count > 1)
                look_near(&n, phrases[i].noun);
        }
    if (count > 1)
        printf(": not \"%s\"%s%s", shown(words[1]), *n.found == '\0' ? "" : ", perhaps ", n.found);
    puts("; help requests says more");
    return false;
}

static bool obey_words(talk *t, const line *l)
{
    char *words[MOST_WORDS + 1];
    bool verb;
    route said;
    if (memchr(l->text, '\0', l->length) != NULL)
        return err("the line has a NUL byte");
    size_t count = split(l->text, words);
    if (count == 0 || words[0][0] == '#')
        return true;
    const struct phrase *p = phrase_of(words, count, &verb);
    if (p == NULL && verb)
        return err_noun(words, count);
    if (p == NULL) {
        const struct command *command = command_of(words[0]);
        const char *near = near_word(words[0]);
        if (command == NULL)
            return err("no command \"%s\"%s%s; help says more", shown(words[0]), *near == '\0' ? "" : ", perhaps ", near);
        if (count - 1 < command->fewest || command->most < count - 1)
            return err("the form is: %s", command->form);
        return command->obey(t->d, words + 1, count - 1);
    }
    size_t named = p->noun == NULL ? 1 : 2;
    count -= named;
    if (!take_route(words + named, &count, &said))
        return false;
    if (count < p->fewest || p->most < count)
        return err("the form is: %s", p->form);
    return p->obey(t, words + named, count, said);
}

/* The dialogue, up to `quit` or the end of the input. */
static void talk_on(device *d, bool prompt, bool colours)
{
    talk t = { .d = d, .on = -1, .colours = colours };
    line l = { 0 };
    if (prompt)
        printf("%s of kelindap %s: one KNX device, at its sample sheet. help says what can be said, quit ends.\n", program,
               KELINDAP_VERSION_TEXT);
    while (!t.over) {
        if (prompt)
            fputs("> ", stdout);
        flush_out();
        if (!next_line(&l))
            break;
        obey_words(&t, &l);
        flush_out();
    }
    if (prompt && !t.over)
        putchar('\n');
    flush_out();
    free(l.text);
}

#endif
