/*
 * The desk unit's traces: trace HEX, play LIMIT. A part of unit.c, which includes it behind the device.
 */
#ifndef UNIT_TRACE_H
#define UNIT_TRACE_H

static bool do_trace(device *d, char **words, size_t count)
{
    run trace;
    (void)count;
    if (!take_bytes("HEX", words[0], &trace))
        return false;
    set_run(&d->trace, trace);
    d->played = 0;
    uint8_t refusal = kelindap_trace_check(d->trace.bytes, d->trace.length);
    if (refusal == 0)
        puts("OK");
    else
        printf("%d\n", refusal);
    return true;
}

static void put_log_line(const uint8_t *line)
{
    printf(" %d:", line[KELINDAP_LOG_OUTCOME]);
    put_bytes(line + KELINDAP_LOG_ANSWER, line[KELINDAP_LOG_COUNT]);
}

static bool do_play(device *d, char **words, size_t count)
{
    static uint8_t log[KELINDAP_TRACE_EVENTS * KELINDAP_LOG_LINE]; /* as many lines as a trace can have events */
    uint64_t limit;
    (void)count;
    if (!take_up_to("LIMIT", words[0], 65535, &limit))
        return false;
    kelindap_played p = kelindap_play(&d->link.sessions, d->sheet.bytes, d->sheet.length, d->trace.bytes, d->trace.length, d->played,
                                      (size_t)limit, log, sizeof log);
    if (p.refusal != 0) {
        printf("%d\n", p.refusal);
        return true;
    }
    d->played += p.handled;
    printf("%d", p.handled);
    for (size_t i = 0; i < p.handled; i++)
        put_log_line(log + i * KELINDAP_LOG_LINE);
    for (size_t c = 0; c < KELINDAP_CONNECTIONS; c++)
        printf(" %d %d", d->link.sessions.of[c].open, d->link.sessions.of[c].level);
    put_rest(d->sheet);
    return true;
}

#endif
