/*
 * A host for a microcontroller: a device whose sheet is kept in two sectors of flash, and the versions of its settings in two more
 * (kelindap_slots.h). It may lose its power at any moment: it then starts with what it had acknowledged or answered, or with what was
 * under way, whole. The flash is behind four functions and the bus behind one (flash.h); there is no C library, no heap, and no second
 * copy of a sheet: slots are judged in parts, and saved from where the sheet is served.
 *
 * examples/host.c does the same with files, on a system that has them: there a new file renamed over the old one is simpler, and wears
 * out nothing that the file system does not spread. Take this one where the host itself has flash, EEPROM or FRAM, and no file system.
 * An EEPROM or FRAM is the same with flash_erase that does nothing and FLASH_UNIT 1. Time is the board's: host_silent ends a connection,
 * and an answer that is not acknowledged is not sent again here (kelindap_link.h says when it is due, examples/host.c does it).
 *
 * tests/cuts/run.sh cuts its power after every byte that it programs or erases, and plants faults in it.
 */
#include "flash.h"

_Static_assert(32 % FLASH_UNIT == 0 && FLASH_ROOM % FLASH_UNIT == 0, "a unit divides 32 and the room of a slot");
_Static_assert(FLASH_ROOM >= KELINDAP_SLOT_FRONT + HOST_SHEET, "a slot has room for the sheet");
_Static_assert(FLASH_ROOM >= KELINDAP_SLOT_FRONT + HOST_STORE, "a slot has room for the store");
_Static_assert(HOST_STORE >= KELINDAP_STORE_LEAST && HOST_STORE <= KELINDAP_STORE_MOST, "a store has such a length");

/* ---- what is kept ---- */

/* Bytes in memory that are kept in two sectors, and where the next save goes. */
typedef struct kept {
    unsigned sector; /* the first of the two */
    uint8_t *bytes;
    size_t length, most;
    kelindap_slot_goal goal;
} kept;

static uint8_t sheet_bytes[HOST_SHEET], store_bytes[HOST_STORE];
static kept sheet, store;
static kelindap_unit unit;
static bool stopped, save_soon;
static uint8_t last_in[KELINDAP_CONNECTIONS];  /* number of the last frame taken, 255 if none was */
static uint8_t next_out[KELINDAP_CONNECTIONS]; /* number of the next frame sent */

/* What stands in a sector, in parts of 64 bytes. */
static kelindap_slot_state judge(unsigned sector)
{
    uint8_t part[KELINDAP_SLOT_FRONT];
    flash_read(sector, 0, part, sizeof part);
    kelindap_slot_judging judging = kelindap_slot_begin(part, sizeof part, FLASH_ROOM);
    for (size_t at = KELINDAP_SLOT_FRONT; judging.left > 0; at += sizeof part) {
        size_t count = judging.left < sizeof part ? judging.left : sizeof part;
        flash_read(sector, at, part, count);
        judging = kelindap_slot_more(judging, part, count);
    }
    return kelindap_slot_end(judging);
}

/* Loads what was saved last, and finds where the next save goes. */
static enum host_found load(kept *k)
{
    kelindap_slot_state slots[2] = { judge(k->sector), judge(k->sector + 1) };
    uint8_t newer = kelindap_slot_newer(slots[0], slots[1]);
    k->goal = kelindap_slot_target(slots[0], slots[1]);
    if (newer == KELINDAP_SLOT_NEITHER)
        return HOST_NEW;
    if (slots[newer].length > k->most) /* of a firmware with more memory: it is not lost */
        return HOST_STOPPED;
    k->length = slots[newer].length;
    flash_read(k->sector + newer, slots[newer].offset, k->bytes, k->length);
    return HOST_KEPT;
}

/* Programs a run, its last unit filled up with what an erase leaves. */
static bool program(unsigned sector, size_t at, const uint8_t *bytes, size_t count)
{
    uint8_t last[FLASH_UNIT];
    size_t rest = count % FLASH_UNIT, whole = count - rest;
    if (whole > 0 && !(flash_program(sector, at, bytes, whole) && flash_wait()))
        return false;
    for (size_t i = 0; i < FLASH_UNIT; i++)
        last[i] = i < rest ? bytes[whole + i] : 0xFF;
    return rest == 0 || (flash_program(sector, at + whole, last, FLASH_UNIT) && flash_wait());
}

/* Saves: five pieces of work, each ended before the next begins; then it is read back, since a sector that is worn out takes no more.
   False if it is not kept: what was saved before still is, and the same goal may be tried again. */
static bool save(kept *k)
{
    unsigned sector = k->sector + k->goal.slot;
    uint8_t buffer[KELINDAP_SLOT_UNIT];
    for (uint8_t piece = 0;; piece++) {
        kelindap_slot_piece p =
            kelindap_slot_work(k->bytes, k->length, k->goal.number, FLASH_ROOM, piece, buffer, sizeof buffer);
        if (p.refusal != 0)
            return false;
        if (p.work == KELINDAP_WORK_NONE)
            break;
        if (FLASH_ONCE && p.work == KELINDAP_WORK_ERASE)
            continue; /* done before, in place of the zeros */
        if (p.work == KELINDAP_WORK_ERASE || (FLASH_ONCE && piece == 0)) {
            if (!(flash_erase(sector) && flash_wait()))
                return false;
        } else if (!program(sector, p.at, p.work == KELINDAP_WORK_SHEET ? k->bytes : buffer, p.count))
            return false;
    }
    kelindap_slot_state saved = judge(sector);
    if (saved.refusal != 0 || saved.number != k->goal.number)
        return false;
    k->goal = kelindap_slot_next(k->goal);
    return true;
}

/* Saves, or stops: what is not kept is never acknowledged, and at the next start it has not happened. */
static bool keep(kept *k)
{
    stopped = stopped || !save(k);
    if (k == &sheet)
        save_soon = false; /* all of it is saved, what could wait too */
    return !stopped;
}

/* ---- the start ---- */

enum host_found host_start(const uint8_t *factory, size_t length)
{
    sheet = (kept){ .sector = 0, .bytes = sheet_bytes, .most = HOST_SHEET };
    store = (kept){ .sector = 2, .bytes = store_bytes, .most = HOST_STORE };
    stopped = true, save_soon = false;
    enum host_found found = load(&sheet), versions = load(&store);
    if (found == HOST_STOPPED || versions == HOST_STOPPED || (found == HOST_NEW && length > HOST_SHEET))
        return HOST_STOPPED;
    if (found == HOST_NEW) {
        sheet.length = length;
        for (size_t i = 0; i < length; i++)
            sheet_bytes[i] = factory[i];
    }
    bool old = kelindap_convert(sheet_bytes, sheet.length) == KELINDAP_DONE;
    if (kelindap_check(sheet_bytes, sheet.length) != KELINDAP_ACCEPTED)
        return HOST_STOPPED;
    stopped = false;
    if ((found == HOST_NEW || old) && !keep(&sheet))
        return HOST_STOPPED;
    if (versions == HOST_NEW) { /* empty, which is saved with the first version */
        store.length = HOST_STORE;
        for (size_t i = 0; i < HOST_STORE; i++)
            store_bytes[i] = 0;
    }
    stopped = kelindap_store_check(store_bytes, store.length) != KELINDAP_OK;
    unit = kelindap_unit_start(sheet_bytes, sheet.length);
    host_button(false); /* programming mode is not to survive a start */
    return stopped ? HOST_STOPPED : found;
}

const kelindap_unit *host_unit(void)
{
    return &unit;
}

/* ---- the bus ---- */

enum { ACKNOWLEDGE = 0xC2, DISCONNECT = 0x81 };

/* An octet of transport's own. */
static void send_control(uint16_t address, uint8_t octet)
{
    uint8_t to[2] = { (uint8_t)(address >> 8), (uint8_t)address };
    uint8_t frame[10] = { 0x11, 0, 0xB0, 0x60, unit.sheet[16], unit.sheet[17], to[0], to[1], 0, octet };
    bus_send(frame, sizeof frame);
}

/* What is due of the parts that were stored. False if it is not kept. */
static bool stored(const kelindap_part changed[KELINDAP_CHANGED])
{
    enum kelindap_due due = kelindap_unit_saving(&unit, changed);
    save_soon = save_soon || due == KELINDAP_SAVE_LATER;
    return due != KELINDAP_SAVE_NOW || keep(&sheet);
}

void host_frame(const uint8_t *bytes, size_t length)
{
    if (stopped)
        return;
    kelindap_bytes frame = { bytes, length };
    kelindap_arrival a = kelindap_unit_heard(&unit, frame);
    bool connected = a.event == KELINDAP_EVENT_CONNECTED;
    if (connected && a.sequence != ((last_in[a.connection] + 1) & 15)) {
        if (a.sequence == last_in[a.connection]) /* once more, and not carried out again */
            send_control(a.source, (uint8_t)(ACKNOWLEDGE | a.sequence << 2));
        return;
    }
    kelindap_frame_answer s = kelindap_unit_serve(&unit, a, frame, connected ? next_out[a.connection] : 0);
    if (!stored(s.changed))
        return;
    if (a.event == KELINDAP_EVENT_CONNECT && s.number == 0)
        last_in[a.connection] = 255, next_out[a.connection] = 0;
    if (connected) {
        last_in[a.connection] = a.sequence;
        send_control(a.source, (uint8_t)(ACKNOWLEDGE | a.sequence << 2));
        if (s.count > 0)
            next_out[a.connection] = (next_out[a.connection] + 1) & 15;
    }
    if (s.count > 0)
        bus_send(s.bytes, s.count);
    if (s.number == KELINDAP_LINK_STRANGER || s.number == KELINDAP_LINK_NO_PLACE)
        send_control(a.source, DISCONNECT);
    for (size_t c = 0; c < KELINDAP_CONNECTIONS; c++)
        if (s.closed[c]) /* a Restart has cut this partner off */
            send_control(unit.link.address[c], DISCONNECT);
}

/* ---- the board ---- */

void host_button(bool on)
{
    if (stopped)
        return;
    uint8_t before = unit.sheet[14];
    kelindap_unit_button(&unit, on);
    save_soon = save_soon || unit.sheet[14] != before;
}

void host_silent(enum kelindap_connection connection)
{
    if (!stopped && connection <= KELINDAP_SECOND && unit.link.sessions.of[connection].open) {
        kelindap_unit_disconnect(&unit, connection);
        send_control(unit.link.address[connection], DISCONNECT);
    }
}

void host_tick(void)
{
    if (!stopped && save_soon)
        keep(&sheet);
}

kelindap_saved host_version(enum kelindap_connection connection, enum host_version what, uint16_t number)
{
    kelindap_store versions = { store.bytes, store.length };
    kelindap_saved done = { KELINDAP_DENIED, number };
    if (stopped)
        return done;
    bool open = connection <= KELINDAP_SECOND && unit.link.sessions.of[connection].open;
    bool may = open && unit.link.sessions.of[connection].level <= 1;
    if (what == HOST_RESTORE)
        done.outcome = kelindap_unit_restore(&unit, connection, &versions, kelindap_version_of(number));
    else if (may && what == HOST_SAVE)
        done = kelindap_unit_save(&unit, &versions);
    else if (may && what == HOST_REMOVE)
        done.outcome = kelindap_unit_remove(&versions, kelindap_version_of(number));
    if (kelindap_carried_out(done.outcome) && !keep(what == HOST_RESTORE ? &sheet : &store))
        done.outcome = KELINDAP_DENIED; /* nobody is told that it is done */
    return done;
}
