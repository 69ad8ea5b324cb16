/*
 * A sheet that survives a power cut: two slots in flash, EEPROM, FRAM or battery-backed memory.
 *
 * The library does no input and no output. It judges what stands in a slot, says which of two a unit starts with, and gives a
 * save as five pieces of work, which the host carries out on its medium one after the other. Link with libkelindap_device.a;
 * docs/SLOTS.md has the layout byte by byte and a worked slot. A store of versions (kelindap_store.h) is kept in the same way, in
 * two slots of its own: where this header says sheet, it may be a store.
 *
 *  1. At start judge both slots: kelindap_slot where they can be read as memory, else kelindap_slot_begin, _more and _end, a part
 *     at a time. kelindap_slot_newer names the one to start with, kelindap_slot_target where the next save goes.
 *  2. Load the sheet of that one, and go on with kelindap.h: kelindap_check, kelindap_fresh.
 *  3. To save, call kelindap_slot_work for piece 0, 1, 2 and so on, and carry out each before the next, until none is left.
 *     Then acknowledge, and answer. The next save goes to kelindap_slot_next of the goal.
 *
 * What is promised, for a host that keeps the duties below, the assumption among them (docs/PROMISES.md):
 *  - after any number of saves, and of power cuts at any moment of them, a unit starts with a sheet that was saved, whole: after
 *    a save that was finished with the new one; after one that was cut with the new one exactly if the mark was set, else with
 *    the one before. Never with a part of one, and with none only until the mark of its first save is set;
 *  - so a life with power cuts is a history like any other, in which the event under way at a cut happened wholly or not at all,
 *    and both connections were then disconnected. Every event that was saved before it was answered is in it; events that were to
 *    be saved later are lost together, from the last save on, never some in the middle. All that is proved of histories holds,
 *    from an accepted sheet in the slots on: demand 3, what needs a key, what is not learned, the accounts.
 *
 * A SLOT has room for 64 bytes and the longest sheet. Numbers have their highest byte first.
 *
 *   0   6   the mark, KELIND in ASCII: no byte of it is 0 or FFh
 *   6  26   not read: the mark has 32 bytes to itself, for flash that writes up to 32 at once and none of them twice
 *  32   4   check sum: CRC-32 (ISO/IEC 3309, as in Ethernet and zlib) of all from byte 36 to the end of the sheet
 *  36   4   number: that of the newer sheet and 1; after FFFFFFFFh comes 0
 *  40   4   length of the sheet
 *  44  20   0
 *  64       the sheet
 *
 * THE HOST'S DUTIES, which no proof covers
 *
 *  - two slots of one room. The medium is written by nothing else, and the slots of a new unit hold no mark;
 *  - a piece has ended before the next begins: what it wrote is in the medium, and no longer in a cache or a page buffer. Within a
 *    piece the host writes in any order, in parts of any size. A write that fails is a cut: the save is begun again at piece 0,
 *    with the same goal, or given up;
 *  - a cut during a write leaves all bytes outside its run as they were; inside they may be anything. Where a medium writes or
 *    erases in units, a unit that a run shares with other bytes counts as outside. Units to write have at most 32 bytes and divide
 *    32, the last one of the sheet being filled up; a slot is made of whole units to erase;
 *  - THE ONE ASSUMPTION of the proofs that a medium does not keep by itself: a cut while a slot is unmarked or erased, pieces 0 and
 *    1, leaves no sheet that was not there before. Where each byte is then old or new it is kept: proved;
 *  - a byte reads the same until it is written again.
 *
 * By medium:
 *  - FRAM, battery-backed RAM: a piece has ended when the bytes are written and a barrier has been passed. KELINDAP_WORK_ERASE may
 *    be nothing. Each byte is old or new after a cut, so the assumption is proved;
 *  - EEPROM: a piece has ended when the write cycle is over; poll for it. The erase may be nothing. Some parts write a whole page
 *    anew for one byte of it: let the slots begin on a page. Each byte is old or new, as far as its cells are firm (see below);
 *  - flash without ECC: a piece has ended when the part says ready. A slot is whole sectors. Zeros may be written over what was
 *    written, so piece 0 is a write. The assumption then asks this: what a torn write or erase leaves in the six bytes of the
 *    mark is not by chance the mark, over a sheet whose save was cut right before it. If torn bits are taken for random, the
 *    chance is 2^-48 a cut;
 *  - flash with ECC: as before, but a unit is written once after an erase. Parts that allow zeros over what was written (they say
 *    so) write them in piece 0; on all others piece 0 is carried out as the erase, and piece 1 as nothing. A word that can't be
 *    read, since its check bits don't fit, counts as zeros: the host catches the fault, or asks the part before it reads;
 *  - files: not for this; a new file renamed over the old one does it (examples/host.c).
 * A WEAK CELL is what no model of bytes shows: one that was cut while it was written may be read as the one value at this start
 * and as the other at the next. If it is one of the mark's, the unit may start with the new sheet today and with the old one
 * tomorrow. The remedy is in the supply: it must outlast the write of one unit, a fraction of a millisecond, after the warning of
 * low voltage, and no write begins after the warning. FRAM and RAM have none of it.
 *
 * WEAR. A save erases and writes one slot, so each slot has half of the saves. What may be saved late, kelindap_wear.h tells.
 */
#ifndef KELINDAP_SLOTS_H
#define KELINDAP_SLOTS_H

#include "kelindap_common.h"

#ifdef __cplusplus
extern "C" {
#endif

enum {
    KELINDAP_SLOT_FRONT = 64,   /* bytes of a slot before the sheet: its room is at least this and the sheet's length */
    KELINDAP_SLOT_UNIT = 32,    /* bytes of the buffer for kelindap_slot_work */
    KELINDAP_SLOT_PIECES = 5,   /* pieces of a save */
    KELINDAP_SLOT_MOST = 32768, /* bytes of the longest sheet */
    KELINDAP_SLOT_NEITHER = 2   /* neither of two slots: a new unit */
};

/* Why a slot holds no sheet, the first in this order, 83 only if it is judged in parts; and why there is no piece of work. */
enum kelindap_slot_refusal {
    KELINDAP_SLOT_SHORT = 80,    /* under 64 bytes */
    KELINDAP_SLOT_UNMARKED = 81, /* no mark: empty, erased, or a save that was cut */
    KELINDAP_SLOT_LENGTH = 82,   /* it states a length above 32,768, or one that the slot has no room for */
    KELINDAP_SLOT_UNREAD = 83,   /* not the whole sheet was handed over */
    KELINDAP_SLOT_SUM = 84,      /* another check sum than it states */
    KELINDAP_SLOT_BUFFER = 85,   /* saving: the buffer has under KELINDAP_SLOT_UNIT bytes */
    KELINDAP_SLOT_NO_ROOM = 86   /* saving, after that: the sheet has more than 32,768 bytes, or the slot no room for it */
};

/* What stands in a slot. refusal: 0, and a sheet of that number and length stands at offset; else why not, and the rest is 0. */
typedef struct kelindap_slot_state {
    uint8_t refusal;
    uint32_t number;
    size_t offset;
    size_t length;
} kelindap_slot_state;

/*
 * A slot that is being judged in parts. A host reads `left`: how many bytes of the sheet are still to be handed over, 0 also if the
 * slot is refused already. The rest is kept for kelindap_slot_end: number, length and check sum as the head states them, and the
 * check sum of the bytes so far.
 */
typedef struct kelindap_slot_judging {
    uint8_t refusal;
    uint32_t number;
    uint32_t length;
    uint32_t left;
    uint32_t stated;
    uint32_t sum;
} kelindap_slot_judging;

/* The slot to save to, 0 or 1, and the number to save under. */
typedef struct kelindap_slot_goal {
    uint8_t slot;
    uint32_t number;
} kelindap_slot_goal;

/* The kinds of work. */
enum kelindap_work {
    KELINDAP_WORK_NONE = 0,  /* no piece is left: the sheet is saved */
    KELINDAP_WORK_WRITE = 1, /* write the first `count` bytes of the buffer */
    KELINDAP_WORK_ERASE = 2, /* erase `count` bytes, the whole slot; or nothing, where the medium needs no erase */
    KELINDAP_WORK_SHEET = 3  /* write the sheet, `count` bytes */
};

/* A piece of work. refusal: 0, or why there is none, and then the rest is 0. at: the first byte, counted from the slot's. */
typedef struct kelindap_slot_piece {
    uint8_t refusal;
    uint8_t work;
    size_t at;
    size_t count;
} kelindap_slot_piece;

/* What stands in a slot that can be read as memory: 80, 81, 82, 84, tested in this order, or 0. It runs once over the sheet. */
kelindap_slot_state kelindap_slot(const uint8_t *slot, size_t slot_length);

/*
 * The same in parts, so that no buffer has to hold a slot: begin with its first 64 bytes and its room, which is what slot_length is
 * above; hand over the bytes behind them in order, in parts of whatever sizes, at least until `left` is 0; the end gives what
 * kelindap_slot gives of the whole. Bytes behind the sheet are not looked at, nor those of `front` behind its first 64.
 */
kelindap_slot_judging kelindap_slot_begin(const uint8_t *front, size_t front_length, size_t room);
kelindap_slot_judging kelindap_slot_more(kelindap_slot_judging judging, const uint8_t *bytes, size_t bytes_length);
kelindap_slot_state kelindap_slot_end(kelindap_slot_judging judging);

/* Which of the two a unit starts with, 0 or 1; KELINDAP_SLOT_NEITHER if neither holds a sheet. */
uint8_t kelindap_slot_newer(kelindap_slot_state first, kelindap_slot_state second);

/* Where the next save goes: never to the slot that kelindap_slot_newer names. */
kelindap_slot_goal kelindap_slot_target(kelindap_slot_state first, kelindap_slot_state second);

/* And after a save that was finished: to the other slot under the number after it. So a host judges both slots at start only. */
static inline kelindap_slot_goal kelindap_slot_next(kelindap_slot_goal saved)
{
    kelindap_slot_goal next;
    next.slot = saved.slot == 0 ? 1 : 0;
    next.number = saved.number + 1; /* of 32 bits: after FFFFFFFFh comes 0 */
    return next;
}

/*
 * Piece 0, 1, 2 and so on of saving the sheet under a number into a slot with this room, until there is none: 85, 86, tested in
 * this order, or 0. The buffer gets the bytes to write if the work is KELINDAP_WORK_WRITE, and else stays. The sheet must not
 * change between the pieces of one save.
 */
kelindap_slot_piece kelindap_slot_work(const uint8_t *sheet, size_t sheet_length, uint32_t number, size_t room, uint8_t piece,
                                       uint8_t *buffer, size_t buffer_length);

#ifdef __cplusplus
}
#endif
#endif
