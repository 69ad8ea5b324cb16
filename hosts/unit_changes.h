/*
 * What a request, the button or a restore changed in a sheet, by meaning and in the words of `sheet diff`. Both sheets break no
 * rule and have the same entries: no event of a device gives it others. A part of unit.c.
 */
#ifndef UNIT_CHANGES_H
#define UNIT_CHANGES_H

/* Says one change, with what stands before every line of it. Counts them. */
typedef struct changes {
    const char *before;
    size_t count;
} changes;

static void begin_change(changes *c)
{
    fputs(c->before, stdout);
    c->count++;
}

static const char *on_or_off(bool on)
{
    return on ? "on" : "off";
}

static void head_changes(changes *c, const uint8_t *a, const uint8_t *b)
{
    unsigned old = two_bytes(a + SHEET_ADDRESS), new = two_bytes(b + SHEET_ADDRESS);
    if (a[0] != b[0]) {
        begin_change(c);
        printf("edition: %d → %d\n", a[0], b[0]);
    }
    if ((a[SHEET_FLAGS] & 1) != (b[SHEET_FLAGS] & 1)) {
        begin_change(c);
        printf("programming mode: %s → %s\n", on_or_off(a[SHEET_FLAGS] & 1), on_or_off(b[SHEET_FLAGS] & 1));
    }
    if (old != new) {
        begin_change(c);
        printf("individual address: %u.%u.%u → %u.%u.%u\n", old >> 12, old >> 8 & 15, old & 255, new >> 12, new >> 8 & 15,
               new & 255);
    }
    for (size_t level = 0; level < 3; level++)
        if (memcmp(a + SHEET_KEYS + 4 * level, b + SHEET_KEYS + 4 * level, 4) != 0) {
            begin_change(c);
            printf("key of level %d changed\n", (int)level);
        }
}

static void put_byte_words(const uint8_t *bytes, size_t length)
{
    for (size_t i = 0; i < length; i++)
        printf("%s%02x", i == 0 ? "" : " ", bytes[i]);
}

/* Bytes that differ, neighbours on one line, up to eight; also across regions that touch. */
static void memory_changes(changes *c, enum sheet_kind memory, const uint8_t *a, const uint8_t *b)
{
    uint8_t old[8], new[8];
    size_t run = 0, next = 0;
    for (size_t k = 0; k <= entry_count(a, memory); k++) {
        const uint8_t *entry = k < entry_count(a, memory) ? entry_at(a, memory, k) : NULL;
        size_t length = entry == NULL ? 1 : body_length(memory, entry);
        for (size_t i = 0; i < length; i++) {
            size_t at = entry == NULL ? 0 : body_at(memory, entry) + i, address = entry == NULL ? 0 : two_bytes(entry) + i;
            bool differs = entry != NULL && a[at] != b[at];
            if (run > 0 && (!differs || address != next || run == sizeof old)) {
                begin_change(c);
                printf("%smemory %04zxh: ", memory == USERS ? "user " : "", next - run);
                put_byte_words(old, run);
                fputs(" → ", stdout);
                put_byte_words(new, run);
                putchar('\n');
                run = 0;
            }
            if (differs) {
                old[run] = a[at];
                new[run++] = b[at];
                next = address + 1;
            }
        }
    }
}

/* An element: a number if it has up to four bytes, else its hex digits. */
static void put_element(const uint8_t *bytes, size_t size)
{
    uint32_t number = 0;
    if (size > 4) {
        put_bytes(bytes, size);
        putchar('h');
        return;
    }
    for (size_t i = 0; i < size; i++)
        number = number << 8 | bytes[i];
    printf("%" PRIu32, number);
}

static void property_changes(changes *c, const uint8_t *x, const uint8_t *y, const uint8_t *a, const uint8_t *b)
{
    size_t size = x[3], from = body_at(PROPERTIES, x);
    if (two_bytes(x + 6) != two_bytes(y + 6)) {
        begin_change(c);
        printf("property %d/%d count: %u → %u\n", x[0], x[1], two_bytes(x + 6), two_bytes(y + 6));
    }
    for (size_t i = 0; i < two_bytes(x + 4); i++) {
        const uint8_t *old = a + from + size * i, *new = b + from + size * i;
        if (memcmp(old, new, size) == 0)
            continue;
        begin_change(c);
        printf("property %d/%d element %d: ", x[0], x[1], (int)i + 1);
        put_element(old, size);
        fputs(" → ", stdout);
        put_element(new, size);
        putchar('\n');
    }
}

static void group_changes(changes *c, const uint8_t *x, const uint8_t *a, const uint8_t *b)
{
    size_t at = body_at(GROUPS, x), length = body_length(GROUPS, x);
    if (memcmp(a + at, b + at, length) == 0)
        return;
    begin_change(c);
    printf("group object %u/%u/%u: ", two_bytes(x) >> 11, two_bytes(x) >> 8 & 7, two_bytes(x) & 255);
    put_byte_words(a + at, length);
    fputs(" → ", stdout);
    put_byte_words(b + at, length);
    putchar('\n');
}

/* Says what changed from one sheet to the other, and how many changes that are. */
static size_t tell_changes(const char *before, run old, run new)
{
    changes c = { before, 0 };
    const uint8_t *a = old.bytes, *b = new.bytes;
    uint8_t rule = kelindap_check(a, old.length);
    if (rule != KELINDAP_ACCEPTED && rule != KELINDAP_OLD)
        return 0; /* a sheet that breaks a rule is changed by nothing */
    if (old.length != new.length || memcmp(a, b, old.length) == 0)
        return 0;
    head_changes(&c, a, b);
    memory_changes(&c, REGIONS, a, b);
    for (size_t k = 0; k < entry_count(a, PROPERTIES); k++)
        property_changes(&c, entry_at(a, PROPERTIES, k), entry_at(b, PROPERTIES, k), a, b);
    for (size_t k = 0; k < entry_count(a, GROUPS); k++)
        group_changes(&c, entry_at(a, GROUPS, k), a, b);
    memory_changes(&c, USERS, a, b);
    return c.count;
}

#endif
