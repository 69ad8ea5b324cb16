/* Transport on a connection, as transport.h tells. */
#include "transport.h"

#include <string.h>

void transport_open(transport *t, uint64_t now)
{
    *t = (transport){ .open = true, .silent = now + TRANSPORT_SILENCE };
}

void transport_close(transport *t)
{
    *t = (transport){ .open = false };
}

transport_todo transport_data(transport *t, uint8_t number, uint64_t now)
{
    if (!t->open)
        return TRANSPORT_NOTHING;
    t->silent = now + TRANSPORT_SILENCE;
    if (t->taken && number == ((t->in + 15) & 15))
        return TRANSPORT_ACKNOWLEDGE;
    if (number != t->in)
        return TRANSPORT_REFUSE;
    if (t->count == TRANSPORT_LINE)
        return TRANSPORT_NOTHING;
    t->in = (t->in + 1) & 15;
    t->taken = true;
    return TRANSPORT_TAKE;
}

/* The first of the line goes out. That counts as life of the connection: else it would end before the second repetition. */
static transport_todo go(transport *t, uint8_t repeats, uint64_t now)
{
    t->repeats = repeats;
    t->again = now + TRANSPORT_WAIT;
    t->silent = now + TRANSPORT_SILENCE;
    return TRANSPORT_SEND;
}

static transport_todo again(transport *t, uint64_t now)
{
    return t->repeats == TRANSPORT_REPEATS ? TRANSPORT_END : go(t, t->repeats + 1, now);
}

transport_todo transport_acknowledged(transport *t, uint8_t octet, uint64_t now)
{
    if (!t->open)
        return TRANSPORT_NOTHING;
    t->silent = now + TRANSPORT_SILENCE;
    uint8_t under_way = (t->out - t->count) & 15;
    if (t->count == 0 || (octet >> 2 & 15) != under_way)
        return TRANSPORT_NOTHING;
    if ((octet & 0xC3) == T_NAK)
        return again(t, now);
    t->first = (t->first + 1) % TRANSPORT_LINE;
    t->count--;
    return t->count > 0 ? go(t, 0, now) : TRANSPORT_NOTHING;
}

transport_todo transport_put(transport *t, const uint8_t *frame, size_t length, uint64_t now)
{
    if (!t->open || t->count == TRANSPORT_LINE || length > TRANSPORT_FRAME)
        return TRANSPORT_NOTHING;
    transport_frame *f = &t->line[(t->first + t->count) % TRANSPORT_LINE];
    memcpy(f->bytes, frame, length);
    f->length = (uint8_t)length;
    t->out = (t->out + 1) & 15;
    return t->count++ > 0 ? TRANSPORT_NOTHING : go(t, 0, now);
}

void transport_alive(transport *t, uint64_t now)
{
    if (t->open)
        t->silent = now + TRANSPORT_SILENCE;
}

transport_todo transport_tick(transport *t, uint64_t now)
{
    if (!t->open)
        return TRANSPORT_NOTHING;
    if (now >= t->silent)
        return TRANSPORT_END;
    return t->count > 0 && now >= t->again ? again(t, now) : TRANSPORT_NOTHING;
}

uint64_t transport_due(const transport *t)
{
    if (!t->open)
        return UINT64_MAX;
    return t->count > 0 && t->again < t->silent ? t->again : t->silent;
}

const transport_frame *transport_first(const transport *t)
{
    return &t->line[t->first];
}
