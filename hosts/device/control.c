/* The host's end of the control socket, as control.h tells. */
#define _GNU_SOURCE
#include "control.h"
#include "kelindap_names.h"
#include "meaning.h"

#include <inttypes.h>
#include <stdarg.h>
#include <stdio.h>
#include <stdlib.h>
#include <string.h>
#include <sys/socket.h>
#include <unistd.h>

typedef struct text {
    char bytes[CONTROL_ANSWER];
    size_t length;
} text;

__attribute__((format(printf, 2, 3))) static void say(text *to, const char *form, ...)
{
    va_list more;
    va_start(more, form);
    int n = vsnprintf(to->bytes + to->length, sizeof to->bytes - to->length, form, more);
    va_end(more);
    to->length += n < 0 ? 0 : (size_t)n;
    if (to->length >= sizeof to->bytes)
        to->length = sizeof to->bytes - 1;
}

/* ---- commands ---- */

static void say_outcome(text *to, const device *d, uint8_t outcome)
{
    if (outcome == DEVICE_UNSAVED)
        say(to, "refused: it can't be saved: %s\n", strerror(d->trouble));
    else if (outcome <= KELINDAP_DONE)
        say(to, "ok\n");
    else
        say(to, "refused %d: %s\n", outcome, kelindap_outcome_name(outcome));
}

static void say_connections(text *to, const device *d)
{
    char name[MEANING_ADDRESS];
    for (int c = 0; c < KELINDAP_CONNECTIONS; c++)
        if (d->link.sessions.of[c].open)
            say(to, "connection %d partner %s level %d unacknowledged %d\n", c, meaning_address(name, d->link.address[c]),
                d->link.sessions.of[c].level, d->transport[c].count);
}

static void say_channels(text *to, const tunnel *t)
{
    char where[DATAGRAM_ENDPOINT], name[MEANING_ADDRESS];
    for (size_t i = 0; i < TUNNEL_CHANNELS; i++) {
        const channel *c = &t->channels[i];
        if (c->number == 0)
            continue;
        say(to, "channel %d client %s requests %" PRIu64 " limited %" PRIu64 " waiting %d lost %" PRIu64 " %s", c->number,
            datagram_endpoint(where, c->data), c->taken_requests, c->limited, c->count, c->lost,
            c->kind == TUNNEL_TUNNELLING ? "addresses" : "management");
        for (size_t k = 0; k < c->address_count; k++)
            say(to, " %s", meaning_address(name, c->addresses[k]));
        say(to, "\n");
    }
}

static void say_counts(text *to, const device *d, const tunnel *t)
{
    const device_counts *n = &d->counts;
    const tunnel_counts *m = &t->counts;
    say(to, "datagrams %" PRIu64 " unread %" PRIu64 " limited %" PRIu64 "\n", m->datagrams, m->unread, m->limited);
    say(to, "channels opened %" PRIu64 " refused %" PRIu64 "\n", m->opened, m->refused);
    say(to, "requests %" PRIu64 " again %" PRIu64 " unfit %" PRIu64 " lost %" PRIu64 "\n", m->requests, m->again, m->unfit, m->lost);
    say(to, "frames %" PRIu64 " carried-out %" PRIu64 " refused %" PRIu64 " turned-away %" PRIu64 " timed-out %" PRIu64 "\n", n->frames,
        n->carried_out, n->refused, n->turned_away, n->silent);
    say(to, "saves %" PRIu64 " unsaved %" PRIu64 "%s%s\n", n->saves, n->unsaved, d->trouble != 0 ? ": " : "",
        d->trouble != 0 ? strerror(d->trouble) : "");
}

static void say_state(text *to, const device *d, const tunnel *t)
{
    char name[MEANING_ADDRESS];
    say(to, "device %s programming %s\n", meaning_address(name, device_address(d)), d->sheet.bytes[14] & 1 ? "on" : "off");
    say_connections(to, d);
    say_channels(to, t);
    say_counts(to, d, t);
    say(to, "ok\n");
}

static void say_saved(text *to, const device *d, kelindap_saved saved)
{
    if (saved.outcome == KELINDAP_OK)
        say(to, "ok %d\n", saved.number);
    else
        say_outcome(to, d, saved.outcome);
}

static void say_versions(text *to, const device *d)
{
    for (size_t k = 0; device_version(d, k) != 0; k++)
        say(to, "%d\n", device_version(d, k));
    say(to, "ok\n");
}

/* A number of one to five digits after the word; false if it is none. */
static bool numbered(const char *words, const char *word, size_t *number)
{
    size_t n = strlen(word), digits = strspn(strncmp(words, word, n) == 0 ? words + n : "", "0123456789");
    if (digits == 0 || digits > 5 || words[n + digits] != 0)
        return false;
    *number = strtoul(words + n, NULL, 10);
    return true;
}

static void obey(const char *words, device *d, const tunnel *t, text *to)
{
    size_t number;
    if (strcmp(words, "button on") == 0 || strcmp(words, "button off") == 0)
        say_outcome(to, d, device_button(d, words[8] == 'n'));
    else if (strcmp(words, "state") == 0)
        say_state(to, d, t);
    else if (strcmp(words, "versions") == 0)
        say_versions(to, d);
    else if (strcmp(words, "save") == 0)
        say_saved(to, d, device_save(d));
    else if (numbered(words, "restore ", &number))
        say_outcome(to, d, device_restore(d, number));
    else if (numbered(words, "remove ", &number))
        say_outcome(to, d, device_remove(d, number));
    else
        say(to, "refused: a command is one of button on, button off, state, versions, save, restore N, remove N\n");
}

/* ---- the socket ---- */

void control_open(control *c, const char *name)
{
    local_open(&c->local, name, SOCK_STREAM, 0177);
    for (size_t i = 0; i < CONTROL_CLIENTS; i++)
        c->clients[i].socket = -1;
}

static void drop(control_client *c)
{
    close(c->socket);
    *c = (control_client){ .socket = -1 };
}

void control_accept(control *c)
{
    int s = local_accept(&c->local);
    if (s < 0)
        return;
    control_client *place = &c->clients[0];
    for (size_t i = 1; i < CONTROL_CLIENTS && place->socket >= 0; i++)
        if (c->clients[i].socket < 0 || c->clients[i].heard < place->heard)
            place = &c->clients[i];
    if (place->socket >= 0)
        drop(place);
    *place = (control_client){ .socket = s, .heard = ++c->turn };
}

/* Every whole line that is there. Who doesn't read its answers, or sends a line that is too long, is dropped. */
void control_take(control *c, size_t client, device *d, const tunnel *t)
{
    control_client *from = &c->clients[client];
    ssize_t n = recv(from->socket, from->words + from->length, sizeof from->words - from->length, MSG_DONTWAIT);
    if (n <= 0) {
        drop(from);
        return;
    }
    from->heard = ++c->turn;
    from->length += (size_t)n;
    for (char *line; (line = memchr(from->words, '\n', from->length)) != NULL;) {
        static text answer;
        answer.length = 0;
        *line = 0;
        obey(from->words, d, t, &answer);
        if (send(from->socket, answer.bytes, answer.length, MSG_DONTWAIT | MSG_NOSIGNAL) != (ssize_t)answer.length) {
            drop(from);
            return;
        }
        size_t used = (size_t)(line - from->words) + 1;
        memmove(from->words, line + 1, from->length - used);
        from->length -= used;
    }
    if (from->length == sizeof from->words)
        drop(from);
}
