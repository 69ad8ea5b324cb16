/*
 * The desk unit's frames: frame read HEX, frame write field=value .. BUFHEX. A part of unit.c, which includes it behind
 * its numbers and bytes.
 */
#ifndef UNIT_FRAMES_H
#define UNIT_FRAMES_H

static const char frame_forms[] = "frame read HEX, or frame write field=value .. BUFHEX";

/* The fields of a frame to be written, and the largest number that the flat frame holds; the last two are runs. */
enum { F_CODE, F_C1, F_C2, F_SOURCE, F_DESTINATION, F_TRANSPORT, F_INFO, F_APDU, F_FIELDS };

static const struct {
    const char *name;
    uint64_t most;
} frame_fields[F_FIELDS] = {
    [F_CODE] = { "code", 255 },
    [F_C1] = { "c1", 255 },
    [F_C2] = { "c2", 255 },
    [F_SOURCE] = { "source", 65535 },
    [F_DESTINATION] = { "destination", 65535 },
    [F_TRANSPORT] = { "transport", 255 },
    [F_INFO] = { "info", 0 },
    [F_APDU] = { "apdu", 0 },
};

static void put_meaning(const kelindap_frame *f)
{
    switch (f->event) {
    case KELINDAP_EVENT_MULTICAST:
        printf(" multicast %d\n", f->destination);
        break;
    case KELINDAP_EVENT_BROADCAST:
        puts(" broadcast");
        break;
    case KELINDAP_EVENT_CONNECTIONLESS:
        puts(" connectionless");
        break;
    case KELINDAP_EVENT_CONNECTED:
        puts(" connected");
        break;
    case KELINDAP_EVENT_CONNECT:
        puts(" connect");
        break;
    case KELINDAP_EVENT_DISCONNECT:
        puts(" disconnect");
        break;
    default:
        printf(" %d\n", f->event);
    }
}

static bool read_frame(char *word)
{
    run b;
    if (!take_bytes("HEX", word, &b))
        return false;
    kelindap_frame f = kelindap_frame_read(b.bytes, b.length);
    printf("%d", f.outcome);
    if (f.outcome != 0) {
        putchar('\n');
        return true;
    }
    printf(" code=%d c1=%d c2=%d source=%d destination=%d transport=%d info=", f.code, f.control1, f.control2, f.source,
           f.destination, f.transport);
    put_bytes(b.bytes + f.info_offset, f.info_length);
    fputs(" tpdu=", stdout);
    put_bytes(b.bytes + f.tpdu_offset, f.tpdu_length);
    put_meaning(&f);
    return true;
}

/* A frame on its way from the words of a line. */
typedef struct frame_draft {
    uint64_t numbers[F_INFO];
    run runs[F_FIELDS - F_INFO];
    bool given[F_FIELDS];
} frame_draft;

static bool take_frame_field(frame_draft *w, char *word)
{
    size_t f = 0;
    char *equals = strchr(word, '=');
    if (equals == NULL)
        return err("a field is NAME=VALUE: \"%s\"", shown(word));
    *equals = '\0';
    while (f < F_FIELDS && strcmp(frame_fields[f].name, word) != 0)
        f++;
    if (f == F_FIELDS)
        return err("frame has no field of this name: \"%s\"", shown(word));
    if (w->given[f])
        return err("%s is given twice", frame_fields[f].name);
    w->given[f] = true;
    return f < F_INFO ? take_number(frame_fields[f].name, equals + 1, &w->numbers[f])
                      : take_bytes(frame_fields[f].name, equals + 1, &w->runs[f - F_INFO]);
}

/* A number that doesn't fit its place is no error of the line: no message code says so to the library, which gives 47. */
static kelindap_frame drafted(const frame_draft *w)
{
    bool fits = true;
    for (size_t f = 0; f < F_INFO; f++)
        fits = fits && w->numbers[f] <= frame_fields[f].most;
    return (kelindap_frame){
        .code = fits ? (uint8_t)w->numbers[F_CODE] : 0,
        .control1 = (uint8_t)w->numbers[F_C1],
        .control2 = (uint8_t)w->numbers[F_C2],
        .source = (uint16_t)w->numbers[F_SOURCE],
        .destination = (uint16_t)w->numbers[F_DESTINATION],
        .transport = (uint8_t)w->numbers[F_TRANSPORT],
    };
}

static bool write_frame(char **words, size_t count)
{
    frame_draft w = { 0 };
    run out;
    if (strchr(words[count - 1], '=') != NULL)
        return err("BUFHEX is missing after the fields");
    for (size_t i = 0; i + 1 < count; i++)
        if (!take_frame_field(&w, words[i]))
            return false;
    for (size_t f = 0; f < F_FIELDS; f++)
        if (!w.given[f])
            return err("frame needs the field %s", frame_fields[f].name);
    if (!take_bytes("BUFHEX", words[count - 1], &out))
        return false;
    kelindap_framed r = kelindap_frame_write(drafted(&w), w.runs[0].bytes, w.runs[0].length, w.runs[1].bytes, w.runs[1].length,
                                             out.bytes, out.length);
    printf("%d %d ", r.outcome, r.count);
    put_bytes(out.bytes, out.length);
    putchar('\n');
    return true;
}

static bool frame_command(char **words, size_t count)
{
    if (strcmp(words[0], "read") == 0 && count == 2)
        return read_frame(words[1]);
    if (strcmp(words[0], "write") == 0 && count >= 2)
        return write_frame(words + 1, count - 1);
    return err("the form is: %s", frame_forms);
}

#endif
