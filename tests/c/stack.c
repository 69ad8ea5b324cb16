/*
 * How much stack each call of the libraries takes, by painting: the calls run on a stack of their own that was filled with
 * one byte before, and the deepest byte that changed tells how far they went. What an empty function takes is taken off.
 * No call may go deeper than LIMIT, and that of the plain engine, which has copies of a sheet's records on its stack, than
 * PLAIN_LIMIT. The libraries have no recursion and no array of variable length, so the depth of a call
 * is bounded by its deepest chain of calls; the many requests below are there to reach it. Linked with -z now, since the
 * first call of a function of the C library would otherwise run its loader on the same stack.
 */
#include "kelindap.h"
#include "kelindap_frame.h"
#include "kelindap_link.h"
#include "kelindap_pdu.h"
#include "kelindap_plain.h"
#include "kelindap_slots.h"
#include "kelindap_store.h"
#include "kelindap_trace.h"

#include <stdint.h>
#include <stdio.h>
#include <string.h>
#include <ucontext.h>

enum { LIMIT = 1536, PLAIN_LIMIT = 1 << 19, ROOM = 1 << 21, PAINT = 0xA5, ROUNDS = 4 };

static _Alignas(64) uint8_t stack[ROOM];
static ucontext_t here, there;

static const uint8_t pump[] = {
#include "../../hosts/pump_sheet.inc"
};
static const uint8_t sample[] = {
#include "../../hosts/sample_sheet.inc"
};
static uint8_t sheet[sizeof pump], old[sizeof sample], answer[16], apdu[16];
static kelindap_sessions sessions;
static volatile unsigned kept; /* so that no call is left out */

/* a byte at random, three of four times one that the sheet knows, so that many requests are carried out */
static uint8_t some_byte(void)
{
    static const uint8_t known[] = {0x00, 0x01, 0x02, 0x10, 0x33, 0x05, 0x11, 0x22, 0xC5, 0x04, 0x03, 0xD5, 0xD7};
    static uint64_t state = 1;
    state = state * 6364136223846793005u + 1442695040888963407u;
    uint32_t x = (uint32_t)(state >> 33);
    return x % 4 ? known[x / 4 % sizeof known] : (uint8_t)(x / 4);
}

/* the next APDU: every code in turn, at every length */
static size_t next_apdu(unsigned i)
{
    apdu[0] = (uint8_t)(i >> 8 & 3);
    apdu[1] = (uint8_t)i;
    for (size_t k = 2; k < sizeof apdu; k++)
        apdu[k] = some_byte();
    return 2 + (i >> 10) % 15;
}

static void nothing(void) {}
static void fresh(void) { sessions = kelindap_fresh(); }
static void connect(void) { kept += kelindap_connect(&sessions, 1); }
static void disconnect(void) { kept += kelindap_disconnect(&sessions, 1); }
static void button(void) { kept += kelindap_button(sheet, sizeof sheet, true); }
static void check(void) { kept += kelindap_check(sheet, sizeof sheet); }

static void convert(void)
{
    old[0] = 1; /* the sample as it was in edition 1 */
    kept += kelindap_convert(old, sizeof old);
    kept += kelindap_convert(sheet, sizeof sheet);
}

static void property(void) { kept += (unsigned)kelindap_property(sheet, sizeof sheet, 1, 51).length; }
static void region(void) { kept += (unsigned)kelindap_region(sheet, sizeof sheet, 0).length; }
static void user_region(void) { kept += (unsigned)kelindap_user_region(sheet, sizeof sheet, 0).length; }
static void group(void) { kept += (unsigned)kelindap_group(sheet, sizeof sheet, 0x0801).length; }

static void request_by(bool plain)
{
    for (unsigned i = 0; i < ROUNDS * 15 * 1024u; i++) {
        size_t length = next_apdu(i);
        sheet[30] = (uint8_t)(i / (15 * 1024u) % 2); /* each round under the other rules */
        uint8_t connection = (uint8_t)(i / (30 * 1024u) % 2); /* and the last two on the other connection */
        for (uint8_t mode = 0; mode < 4; mode++) {
            sessions.of[connection] = (kelindap_session){.open = true, .level = (uint8_t)(i % 4)};
            kept += plain ? kelindap_plain_request(sessions, sheet, sizeof sheet, mode, connection, 0x0801, apdu, length, answer,
                                                   sizeof answer).count
                          : kelindap_request(&sessions, sheet, sizeof sheet, mode, connection, 0x0801, apdu, length, answer,
                                             sizeof answer).count;
        }
    }
}

static void request(void) { request_by(false); }
static void plain_request(void) { request_by(true); }

static uint8_t store[512];
static void store_check(void) { kept += kelindap_store_check(store, sizeof store); }
static void save(void) { kept += kelindap_save(sheet, sizeof sheet, store, sizeof store).number; }
static void restore(void) { kept += kelindap_restore(sessions, 0, sheet, sizeof sheet, store, sizeof store, 1); }
static void remove_first(void) { kept += kelindap_remove(store, sizeof store, 1); }
static void kept_first(void) { kept += kelindap_kept(store, sizeof store, 0).number; }

/* a store with two versions, and connection 0 open at level 0, so that each of them is carried out */
static void fill_store(void)
{
    memset(store, 0, sizeof store);
    sessions.of[0] = (kelindap_session){ .open = true, .level = 0 };
    for (int i = 0; i < 2; i++)
        kept += kelindap_save(pump, sizeof pump, store, sizeof store).number;
}

/* a slot with the sheet in it, which every piece of a save has filled: judged whole, in parts, beside an empty one */
static uint8_t slot[KELINDAP_SLOT_FRONT + sizeof pump], unit[KELINDAP_SLOT_UNIT];
static void slot_work(void)
{
    for (uint8_t k = 0; k <= KELINDAP_SLOT_PIECES; k++) {
        kelindap_slot_piece piece = kelindap_slot_work(sheet, sizeof sheet, 7, sizeof slot, k, unit, sizeof unit);
        if (piece.work == KELINDAP_WORK_WRITE || piece.work == KELINDAP_WORK_SHEET)
            memcpy(slot + piece.at, piece.work == KELINDAP_WORK_SHEET ? sheet : unit, piece.count);
        kept += piece.work;
    }
}
static void slot_judged(void) { kept += kelindap_slot(slot, sizeof slot).number; }
static void slot_begin(void) { kept += kelindap_slot_begin(slot, sizeof slot, sizeof slot).left; }
static kelindap_slot_judging judging;
static void slot_more(void)
{
    kept += kelindap_slot_more(judging, slot + KELINDAP_SLOT_FRONT, sizeof slot - KELINDAP_SLOT_FRONT).left;
}
static void slot_end(void) { kept += kelindap_slot_end(judging).number; }
static kelindap_slot_state full, empty_one;
static void slot_newer(void)
{
    kept += kelindap_slot_newer(full, full) + kelindap_slot_newer(full, empty_one) + kelindap_slot_newer(empty_one, full);
}
static void slot_target(void)
{
    kept += kelindap_slot_target(full, full).number + kelindap_slot_target(full, empty_one).number;
    kept += kelindap_slot_target(empty_one, full).number;
}
static void fill_slot(void)
{
    slot_work();
    judging = kelindap_slot_begin(slot, sizeof slot, sizeof slot);
    full = kelindap_slot(slot, sizeof slot);
    empty_one = kelindap_slot(slot, 0);
}

/* the same requests as traces of one event, judged, played, or played with marks */
enum how { JUDGED, PLAYED, MARKED };
static uint8_t before[sizeof pump];
static uint32_t marks[sizeof pump + KELINDAP_CONNECTIONS];
static void traces_by(enum how how)
{
    static uint8_t trace[2 + KELINDAP_TRACE_ENTRY + sizeof apdu], log[KELINDAP_LOG_LINE];
    for (unsigned i = 0; i < ROUNDS * 15 * 1024u; i++) {
        size_t length = next_apdu(i);
        sheet[30] = (uint8_t)(i / (15 * 1024u) % 2);
        trace[1] = 1;
        trace[2] = i % 61 < 5 ? (uint8_t)(i % 61) : 0;
        trace[4] = 0x08;
        trace[5] = 0x01;
        trace[7] = 10;
        trace[8] = trace[2] == 0 ? (uint8_t)length : 0;
        memcpy(trace + 10, apdu, sizeof apdu);
        for (uint8_t mode = 0; mode < 4; mode++) {
            trace[3] = mode;
            sessions.of[0] = (kelindap_session){.open = true, .level = (uint8_t)(i % 4)};
            size_t all = 10u + trace[8];
            if (how == JUDGED)
                kept += kelindap_trace_check(trace, all);
            else if (how == PLAYED)
                kept += kelindap_play(&sessions, sheet, sizeof sheet, trace, all, 0, 1, log, sizeof log).handled;
            else
                kept += kelindap_play_marked(&sessions, sheet, sizeof sheet, trace, all, 0, 1, log, sizeof log, before,
                                             sizeof before, marks, sizeof marks / sizeof *marks, 0).handled;
        }
    }
}

static void trace_check(void) { traces_by(JUDGED); }
static void play(void) { traces_by(PLAYED); }
static void play_marked(void) { traces_by(MARKED); }

/* the same requests as frames from the partner of connection 0, to its device, to a group and to all, heard or served */
static void frames_by(bool serving)
{
    static uint8_t frame[9 + sizeof apdu], out[KELINDAP_LINK_ROOM];
    static kelindap_link link;
    static const uint8_t to[4][3] = { { 0xE0, 0x08, 0x01 }, { 0xE0, 0x00, 0x00 }, { 0x60, 0x11, 0x05 }, { 0x60, 0x11, 0x05 } };
    for (unsigned i = 0; i < ROUNDS * 15 * 1024u; i++) {
        size_t length = next_apdu(i);
        sheet[30] = (uint8_t)(i / (15 * 1024u) % 2);
        sheet[16] = 0x11;
        sheet[17] = 0x05;
        for (uint8_t mode = 0; mode < 4; mode++) {
            link.sessions.of[0] = (kelindap_session){.open = true, .level = (uint8_t)(i % 4)};
            link.address[0] = 0x11FF;
            memcpy(frame, (uint8_t[]){ 0x29, 0, 0xBC, to[mode][0], 0x11, 0xFF, to[mode][1], to[mode][2] }, 8);
            frame[8] = (uint8_t)(length - 1);
            memcpy(frame + 9, apdu, length);
            frame[9] |= (uint8_t)(mode == 3 ? 0x40 : 0);
            if (i % 61 == 0)
                frame[9] = 0x80, frame[8] = 0;
            kept += serving ? kelindap_serve(&link, sheet, sizeof sheet, frame, 10u + frame[8], out, sizeof out, 0).count
                            : kelindap_heard(link, sheet, sizeof sheet, frame, 10u + frame[8]).event;
        }
    }
}

static void heard(void) { frames_by(false); }
static void serve(void) { frames_by(true); }

static void read_and_write(void)
{
    for (unsigned i = 0; i < ROUNDS * 15 * 1024u; i++) {
        size_t length = next_apdu(i);
        kelindap_pdu pdu = kelindap_read(apdu, length);
        kept += kelindap_write(pdu, apdu + pdu.data_offset, pdu.data_length, answer, sizeof answer).count;
    }
}

static void points(void)
{
    static const uint8_t types[] = {1, 5, 9, 14};
    for (unsigned i = 0; i < 1 << 14; i++) {
        (void)next_apdu(i);
        uint8_t type = types[i % 4];
        size_t width = type == 14 ? 4 : type == 9 ? 2 : 1;
        kelindap_point point = kelindap_point_read(type, apdu + i % 8, width);
        kept += kelindap_point_write(point, answer, width);
    }
}

static void frames(void)
{
    static uint8_t frame[26], out[32];
    for (unsigned i = 0; i < 1 << 14; i++) {
        size_t length = next_apdu(i), info = i % 4;
        frame[0] = i & 1 ? KELINDAP_L_DATA_REQ : KELINDAP_L_DATA_IND;
        frame[1] = (uint8_t)info;
        frame[2 + info] = 0xBC;
        frame[3 + info] = i & 2 ? 0xE0 : 0x60;
        frame[8 + info] = (uint8_t)(length - 1);
        for (size_t k = 0; k < length && 9 + info + k < sizeof frame; k++)
            frame[9 + info + k] = apdu[k];
        size_t all = 9 + info + length < sizeof frame ? 9 + info + length : sizeof frame;
        kelindap_frame got = kelindap_frame_read(frame, all);
        kept += kelindap_frame_write(got, frame + 2, got.info_length, apdu, length, out, sizeof out).count;
    }
}

static void (*function)(void);
static size_t low; /* the deepest byte that is no longer painted */

/* what is measured; looked at before the context is left, which takes a stack of its own on some processors */
static void measured(void)
{
    function();
    for (low = 0; low < sizeof stack && stack[low] == PAINT;)
        low++;
}

/* the depth of what a function does, in bytes */
static size_t depth_of(void (*what)(void))
{
    function = what;
    memset(stack, PAINT, sizeof stack);
    memcpy(sheet, pump, sizeof sheet);
    memcpy(old, sample, sizeof old);
    sheet[14] |= 1; /* programming mode */
    sheet[55] = 7;  /* the group object takes a Response too */
    fill_store();
    fill_slot();
    getcontext(&there);
    there.uc_stack.ss_sp = stack;
    there.uc_stack.ss_size = sizeof stack;
    there.uc_link = &here;
    makecontext(&there, measured, 0);
    swapcontext(&here, &there);
    return sizeof stack - low;
}

int main(void)
{
    static const struct {
        const char *name;
        void (*function)(void);
    } calls[] = {
        {"kelindap_fresh", fresh},
        {"kelindap_connect", connect},
        {"kelindap_disconnect", disconnect},
        {"kelindap_button", button},
        {"kelindap_check", check},
        {"kelindap_convert", convert},
        {"kelindap_property", property},
        {"kelindap_region", region},
        {"kelindap_group", group},
        {"kelindap_user_region", user_region},
        {"kelindap_request", request},
        {"kelindap_store_check", store_check},
        {"kelindap_save", save},
        {"kelindap_restore", restore},
        {"kelindap_remove", remove_first},
        {"kelindap_kept", kept_first},
        {"kelindap_trace_check", trace_check},
        {"kelindap_play", play},
        {"kelindap_play_marked", play_marked},
        {"kelindap_heard", heard},
        {"kelindap_serve", serve},
        {"kelindap_slot", slot_judged},
        {"kelindap_slot_begin", slot_begin},
        {"kelindap_slot_more", slot_more},
        {"kelindap_slot_end", slot_end},
        {"kelindap_slot_newer", slot_newer},
        {"kelindap_slot_target", slot_target},
        {"kelindap_slot_work", slot_work},
        {"kelindap_read, _write", read_and_write},
        {"kelindap_point_read, _write", points},
        {"kelindap_frame_read, _write", frames},
        {"kelindap_plain_request", plain_request},
    };
    size_t empty = depth_of(nothing);
    bool within = true;
    for (size_t i = 0; i < sizeof calls / sizeof *calls; i++) {
        size_t depth = depth_of(calls[i].function);
        depth = depth > empty ? depth - empty : 0;
        within = within && depth <= (calls[i].function == plain_request ? PLAIN_LIMIT : LIMIT);
        printf("stack: %-30s %4zu bytes\n", calls[i].name, depth);
    }
    if (!within) {
        printf("stack: a call takes more than %d bytes, or that of the plain engine than %d\n", LIMIT, PLAIN_LIMIT);
        return 1;
    }
    return 0;
}
