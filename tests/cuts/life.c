/*
 * The host of examples/flash.c on a flash that is memory, behind a pipe, for `compare --cuts`: on this machine's processor and on the
 * boards. Commands come on standard input, each is one letter and its operands, and each gets one reply on standard output. Numbers are
 * little endian, of one byte or as many as the digit says.
 *
 *   N FIRST4 LENGTH4 BYTES      a medium that keeps this sheet under this number, and no store; the power is off    OK
 *   E LENGTH4 BYTES             an erased one, and this sheet as the factory's                                      OK
 *   P AFTER8 PATTERN CHANCE8    power on, which is cut after so many bytes, or never if AFTER8 is all ones          HASH8 FOUND TOLD
 *   F AFTER8 PATTERN CHANCE8 LENGTH2 BYTES          a frame, the same                                               TOLD
 *   B AFTER8 PATTERN CHANCE8 ON                     the button                                                      TOLD
 *   T AFTER8 PATTERN CHANCE8                        ten minutes are over                                            TOLD
 *   S AFTER8 PATTERN CHANCE8 C                      connection C is silent                                          TOLD
 *   V AFTER8 PATTERN CHANCE8 C WHAT NUMBER2         a version                                                       OUTCOME NUMBER2 TOLD
 *   X                           power off; memory is lost                                                           OK
 *   W                           how often each of the four sectors was erased, and all bytes worked                 COUNT4.. BYTES8
 *   D SECTOR                    what a sector holds                                                                 BYTES
 *
 * HASH8 is of the sheet that the medium holds, 0 if none. TOLD is POWERED, HASH8 of the sheet and HASH8 of the store in memory, and LENGTH2 with what was sent while there was power: of each
 * frame its length in a byte, and its bytes.
 */
#define _POSIX_C_SOURCE 200809L
#define FLASH_ROOM 16448 /* the longest sheet; compare --cuts knows the store's length */
#define HOST_SHEET 16384
#define HOST_STORE 2048
#include "flash.h"

#ifdef BOARD /* a controller's processor alone */
#include "board.h"
#else
#include <errno.h>
#include <stdlib.h>
#include <string.h>
#include <unistd.h>
#endif

#include "medium.h"

#include "flash.c"

/* ---- the pipes ---- */

enum { PIPE = 1 << 12, SENT = 256 };
static uint8_t in[PIPE], out[PIPE], sent[SENT], factory[HOST_SHEET], frame_bytes[512];
static size_t in_at, in_end, out_end, sent_end, factory_length;

static _Noreturn void give_up(const char *why)
{
    if (write(STDERR_FILENO, "life: ", 6) < 0 || write(STDERR_FILENO, why, strlen(why)) < 0 || write(STDERR_FILENO, "\n", 1) < 0)
        exit(2);
    exit(EXIT_FAILURE);
}

static void flush(void)
{
    size_t at = 0;
    while (at < out_end) {
        ssize_t n = write(STDOUT_FILENO, out + at, out_end - at);
        if (n < 0 && errno == EINTR)
            continue;
        if (n <= 0)
            exit(EXIT_FAILURE);
        at += (size_t)n;
    }
    out_end = 0;
}

static bool fill(void)
{
    ssize_t n;
    flush();
    do
        n = read(STDIN_FILENO, in, sizeof in);
    while (n < 0 && errno == EINTR);
    in_at = 0;
    in_end = n > 0 ? (size_t)n : 0;
    return n > 0;
}

static uint8_t byte(void)
{
    if (in_at == in_end && !fill())
        give_up("the input ends within a command");
    return in[in_at++];
}

static uint64_t number(size_t bytes)
{
    uint8_t b[8];
    uint64_t value = 0;
    for (size_t i = 0; i < bytes; i++)
        b[i] = byte();
    for (size_t i = bytes; i-- > 0;)
        value = value << 8 | b[i];
    return value;
}

static size_t run(uint8_t *to, size_t most, size_t bytes)
{
    size_t length = (size_t)number(bytes);
    if (length > most)
        give_up("a run is too long");
    for (size_t i = 0; i < length; i++)
        to[i] = byte();
    return length;
}

static void give(const uint8_t *from, size_t length)
{
    for (size_t i = 0; i < length; i++) {
        if (out_end == sizeof out)
            flush();
        out[out_end++] = from[i];
    }
}

static void give_number(uint64_t value, size_t bytes)
{
    uint8_t b[8];
    for (size_t i = 0; i < bytes; i++, value >>= 8)
        b[i] = (uint8_t)value;
    give(b, bytes);
}

/* FNV-1a, byte by byte. */
static void give_hash(const uint8_t *bytes, size_t length)
{
    uint64_t h = 0xCBF29CE484222325 ^ length;
    for (size_t i = 0; i < length; i++)
        h = (h ^ bytes[i]) * 0x100000001B3;
    give_number(h, 8);
}

/* Of the sheet that the medium holds. */
static void give_held(void)
{
    kelindap_slot_state slots[2] = { kelindap_slot(flash_bytes[0], FLASH_ROOM), kelindap_slot(flash_bytes[1], FLASH_ROOM) };
    uint8_t newer = kelindap_slot_newer(slots[0], slots[1]);
    if (newer == KELINDAP_SLOT_NEITHER)
        give_number(0, 8);
    else
        give_hash(flash_bytes[newer] + slots[newer].offset, slots[newer].length);
}

/* ---- the board ---- */

/* Nothing is sent without power. */
void bus_send(const uint8_t *frame, size_t length)
{
    if (!powered)
        return;
    if (sent_end + 1 + length > sizeof sent)
        give_up("too much is sent");
    sent[sent_end++] = (uint8_t)length;
    for (size_t i = 0; i < length; i++)
        sent[sent_end++] = frame[i];
}

static void until_cut(void)
{
    uint64_t after = number(8);
    budget = after == UINT64_MAX ? NEVER : (int64_t)after;
    pattern = (enum torn)(byte() % PATTERNS);
    chance = number(8) | 1;
    sent_end = 0;
}

static void tell(void)
{
    if (wrong != NULL)
        give_up(wrong);
    give_number(powered, 1);
    give_hash(sheet.bytes, sheet.length);
    give_hash(store.bytes, store.length);
    give_number(sent_end, 2);
    give(sent, sent_end);
}

/* What memory holds after a cut is of no use to anybody. */
static void lose_memory(void)
{
    for (size_t i = 0; i < HOST_SHEET; i++)
        sheet_bytes[i] = (uint8_t)any(256);
    for (size_t i = 0; i < HOST_STORE; i++)
        store_bytes[i] = (uint8_t)any(256);
    uint8_t *records[] = { (uint8_t *)&sheet, (uint8_t *)&store, (uint8_t *)&unit, last_in, next_out };
    const size_t sizes[] = { sizeof sheet, sizeof store, sizeof unit, sizeof last_in, sizeof next_out };
    for (size_t r = 0; r < sizeof sizes / sizeof sizes[0]; r++)
        for (size_t i = 0; i < sizes[r]; i++)
            records[r][i] = 0xA5;
    power(false);
}

/* A medium as it comes from the factory, or with a sheet. */
static void new_medium(bool keeps)
{
    uint32_t first = keeps ? (uint32_t)number(4) : 0;
    factory_length = run(factory, HOST_SHEET, 4);
    for (size_t s = 0; s < SECTORS; s++)
        for (size_t i = 0; i < FLASH_ROOM; i++)
            flash_bytes[s][i] = MEDIUM == 0 ? (uint8_t)s : 0xFF;
    if (keeps) {
        power(true);
        budget = NEVER;
        kept k = { .sector = 0, .bytes = sheet_bytes, .most = HOST_SHEET, .length = factory_length, .goal = { 0, first } };
        for (size_t i = 0; i < factory_length; i++)
            sheet_bytes[i] = factory[i];
        if (!save(&k))
            give_up("the first save");
    }
    lose_memory();
    give_number(1, 1);
}

static void play(uint8_t command)
{
    kelindap_saved saved;
    uint8_t c, what;
    switch (command) {
    case 'N':
    case 'E':
        new_medium(command == 'N');
        break;
    case 'P':
        until_cut();
        power(true);
        give_held();
        give_number(host_start(factory, factory_length), 1);
        tell();
        break;
    case 'F': {
        until_cut();
        size_t length = run(frame_bytes, sizeof frame_bytes, 2);
        host_frame(frame_bytes, length);
        tell();
        break;
    }
    case 'B':
        until_cut();
        host_button(byte() != 0);
        tell();
        break;
    case 'T':
        until_cut();
        host_tick();
        tell();
        break;
    case 'S':
        until_cut();
        host_silent((enum kelindap_connection)byte());
        tell();
        break;
    case 'V':
        until_cut();
        c = byte();
        what = byte();
        saved = host_version((enum kelindap_connection)c, (enum host_version)what, (uint16_t)number(2));
        give_number(saved.outcome, 1);
        give_number(saved.number, 2);
        tell();
        break;
    case 'X':
        lose_memory();
        give_number(1, 1);
        break;
    case 'W':
        for (int s = 0; s < SECTORS; s++)
            give_number(erases[s], 4);
        give_number(worked, 8);
        break;
    case 'D':
        give(flash_bytes[byte() % SECTORS], FLASH_ROOM);
        break;
    default:
        give_up("no such command");
    }
}

int main(void)
{
    chance = 1;
    while (in_at < in_end || fill())
        play(in[in_at++]);
    return EXIT_SUCCESS;
}
