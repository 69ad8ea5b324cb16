/*
 * What of a sheet may be saved late, so that no sender wears out a flash: the duties "Saving" and "Wear" of kelindap.h. Both calls
 * are plain C over the layout of docs/SHEET.md; nothing is to be linked for them.
 */
#ifndef KELINDAP_WEAR_H
#define KELINDAP_WEAR_H

#include "kelindap.h"

/*
 * WHETHER A PART OF AN ACCEPTED SHEET MAY BE SAVED LATE: it is group values, or the flags, byte 14, of which only programming
 * mode ever changes, and nothing else. A part of no bytes may wait. Group values are the bodies of the group objects, which
 * stand end to end; no byte outside the sheet is read, whatever it holds.
 */
static inline bool kelindap_may_wait(const uint8_t *sheet, size_t sheet_length, kelindap_part part)
{
    size_t entries, last, from, to;
    if (part.length == 0 || (part.offset == 14 && part.length == 1))
        return true;
    if (sheet_length < 32 || sheet[3] == 0)
        return false;
    entries = 32 + 8 * (size_t)sheet[1] + 12 * (size_t)sheet[2]; /* of group objects, 8 bytes each */
    last = entries + 8 * ((size_t)sheet[3] - 1);
    if (sheet_length < last + 8)
        return false;
    from = (size_t)sheet[entries + 4] << 8 | sheet[entries + 5];
    to = ((size_t)sheet[last + 4] << 8 | sheet[last + 5]) + (sheet[last + 2] == 0 ? 1 : sheet[last + 2]);
    return from <= part.offset && part.offset <= to && part.length <= to - part.offset;
}

/* What is due of the parts that a request or a frame stored: nothing, a save at a time of the host's own, a save before the
   acknowledgement and the answer. */
enum kelindap_due {
    KELINDAP_SAVE_NOTHING = 0,
    KELINDAP_SAVE_LATER = 1,
    KELINDAP_SAVE_NOW = 2
};
static inline enum kelindap_due kelindap_saving(const uint8_t *sheet, size_t sheet_length,
                                                const kelindap_part changed[KELINDAP_CHANGED])
{
    enum kelindap_due due = KELINDAP_SAVE_NOTHING;
    for (size_t k = 0; k < KELINDAP_CHANGED; k++) {
        if (!kelindap_may_wait(sheet, sheet_length, changed[k]))
            return KELINDAP_SAVE_NOW;
        if (changed[k].length != 0)
            due = KELINDAP_SAVE_LATER;
    }
    return due;
}

#endif
