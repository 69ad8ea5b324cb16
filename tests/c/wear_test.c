/*
 * What may be saved late: of sheets that the plain model makes, each byte and each run of bytes, held to what the model says that
 * they are; and of bytes that are no sheet, that nothing outside them is read.
 *
 *   waits COUNT | wear_test
 */
#define _DEFAULT_SOURCE
#include "kelindap_wear.h"
#include "lent.h"

enum { MOST = 16384, LINE = 3 * MOST + 16 };

/* Group values alone, or the flags alone, or nothing. */
static bool waits(const char *kinds, kelindap_part part)
{
    if (part.length == 1 && kinds[part.offset] == 'f')
        return true;
    for (size_t i = 0; i < part.length; i++)
        if (kinds[part.offset + i] != 'g')
            return false;
    return true;
}

static unsigned late, now;

static void try_part(const uint8_t *sheet, size_t length, const char *kinds, kelindap_part part)
{
    bool due = waits(kinds, part);
    calls++;
    late += due && part.length > 0;
    now += !due;
    expect(kelindap_may_wait(sheet, length, part) == due, "bytes %zu and %zu on of a sheet of %zu: %s", part.offset, part.length,
           length, due ? "may wait" : "may not wait");
}

static kelindap_part any_part(size_t length)
{
    kelindap_part part = { any((uint32_t)length), 0 };
    size_t most = length - part.offset;
    part.length = any((uint32_t)(most < 16 ? most : 16) + 1);
    return part;
}

static void try_sheet(const uint8_t *bytes, size_t length, const char *kinds)
{
    lent sheet = lend(SHEET, EXACT, bytes, length);
    for (size_t i = 0; i < length; i++)
        for (size_t n = 0; n < 4 && i + n <= length; n++)
            try_part(sheet.bytes, length, kinds, (kelindap_part){ i, n });
    for (int i = 0; i < 400; i++) {
        kelindap_part parts[KELINDAP_CHANGED] = { any_part(length), any_part(length) };
        if (any(4) == 0)
            parts[any(2)] = (kelindap_part){ 0, 0 };
        try_part(sheet.bytes, length, kinds, parts[0]);
        bool first = waits(kinds, parts[0]), second = waits(kinds, parts[1]);
        enum kelindap_due due = !first || !second ? KELINDAP_SAVE_NOW
                                : parts[0].length > 0 || parts[1].length > 0 ? KELINDAP_SAVE_LATER : KELINDAP_SAVE_NOTHING;
        calls++;
        expect(kelindap_saving(sheet.bytes, length, parts) == due, "two parts");
    }
    take_back_same(&sheet, bytes, "sheet");
}

/* Near a sheet and far from one, at the end of its buffer: what it says does not count, but it reads nothing else. */
static void try_bytes(uint8_t *bytes, size_t length)
{
    for (int i = 0; i < 20; i++) {
        size_t cut = any((uint32_t)length + 1);
        if (any(2) == 0) /* where the entries of group objects end */
            cut = 32 + 8u * bytes[1] + 12u * bytes[2] + 8u * bytes[3] - any(10);
        else
            bytes[any(4) ? any(4) : any((uint32_t)length)] = (uint8_t)any(256);
        lent sheet = lend(SHEET, EXACT, bytes, cut < length ? cut : length);
        calls++;
        kelindap_may_wait(sheet.bytes, sheet.length, (kelindap_part){ any(20000), 1 + any(20) });
        take_back_same(&sheet, bytes, "bytes");
    }
}

int main(void)
{
    static char line[LINE];
    static uint8_t bytes[MOST];
    begin("wear_test");
    while (fgets(line, sizeof line, stdin) != NULL) {
        char *kinds = strchr(line, ' ');
        size_t length = kinds == NULL ? 0 : (size_t)(kinds - line) / 2;
        if (length == 0 || strlen(++kinds) != length + 1)
            give_up("a line that is no sheet");
        for (size_t i = 0; i < length; i++) {
            unsigned byte = 0;
            expect(sscanf(line + 2 * i, "%2x", &byte) == 1, "no hex");
            bytes[i] = (uint8_t)byte;
        }
        try_sheet(bytes, length, kinds);
        try_bytes(bytes, length);
    }
    expect(late > 1000 && now > 1000, "%u parts may wait and %u may not: too few of one", late, now);
    return tell();
}
