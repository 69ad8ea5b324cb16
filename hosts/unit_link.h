/*
 * The desk unit's link: link, heard FRAMEHEX, serve SEQUENCE FRAMEHEX BUFHEX. A part of unit.c, which includes it behind the
 * device.
 */
#ifndef UNIT_LINK_H
#define UNIT_LINK_H

static void put_addresses(const device *d)
{
    printf("%d %d", d->link.address[0], d->link.address[1]);
}

static bool do_link(device *d, char **words, size_t count)
{
    (void)words, (void)count;
    put_addresses(d);
    putchar('\n');
    return true;
}

static void put_arrival(kelindap_arrival a)
{
    static const char *const names[] = { "multicast", "broadcast", "connectionless", "connected", "connect", "disconnect" };
    if (a.event > KELINDAP_EVENT_DISCONNECT) {
        printf("%d\n", a.event);
        return;
    }
    printf("0 %s", names[a.event]);
    if (a.event == KELINDAP_EVENT_MULTICAST)
        printf(" %d", a.group);
    else if (a.connection != KELINDAP_LINK_NOBODY)
        printf(" %d", a.connection);
    putchar('\n');
}

static bool do_heard(device *d, char **words, size_t count)
{
    run frame;
    (void)count;
    if (!take_bytes("FRAMEHEX", words[0], &frame))
        return false;
    put_arrival(kelindap_heard(d->link, d->sheet.bytes, d->sheet.length, frame.bytes, frame.length));
    return true;
}

/* A number, or - for none. */
static void put_if(bool there, int number)
{
    if (there)
        printf(" %d", number);
    else
        fputs(" -", stdout);
}

static bool do_serve(device *d, char **words, size_t count)
{
    uint64_t sequence;
    run frame, out;
    (void)count;
    if (!take_up_to("SEQUENCE", words[0], 255, &sequence) || !take_bytes("FRAMEHEX", words[1], &frame) ||
        !take_bytes("BUFHEX", words[2], &out))
        return false;
    kelindap_served s = kelindap_serve(&d->link, d->sheet.bytes, d->sheet.length, frame.bytes, frame.length, out.bytes, out.length,
                                       (uint8_t)sequence);
    printf("%d", s.number);
    put_if(s.number == 0, s.outcome);
    put_if(s.connection != KELINDAP_LINK_NOBODY, s.connection);
    printf(" %d ", s.count);
    put_bytes(out.bytes, out.length);
    putchar(' ');
    put_addresses(d);
    for (size_t c = 0; c < KELINDAP_CONNECTIONS; c++)
        printf(" %d %d", d->link.sessions.of[c].open, d->link.sessions.of[c].level);
    putchar(' ');
    put_bytes(d->sheet.bytes, d->sheet.length);
    putchar('\n');
    return true;
}

#endif
