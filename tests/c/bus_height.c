/*
 * A small tool: reads and writes the filling height of a tank controller, element 1 of property 51 of object 1, on the bus
 * of bus.h, whose address is 1105h.
 *
 *   height SOCKET read                    shows the height
 *   height SOCKET write KEY HEIGHT ..     offers the key, eight hex digits, and sets the height, shown once it is set
 *   height SOCKET versions KEY WORD ..    offers the key, and goes through the words: save, restore=N, remove=N, each told
 *                                         once it is done, with the number of the version
 *
 * Exit status 0; 1 if the device refuses, 2 if it can't be reached or a word is wrong.
 */
#define _POSIX_C_SOURCE 200809L
#include "bus.h"
#include "kelindap_frame.h"
#include "kelindap_names.h"
#include "kelindap_pdu.h"

#include <errno.h>
#include <signal.h>
#include <stdio.h>
#include <stdlib.h>

enum { REFUSED = 1, TROUBLE = 2 };

static _Noreturn void end(int status, const char *why)
{
    fprintf(stderr, "height: %s\n", why);
    exit(status);
}

/* Who this is, and the device; on a connection, the numbers of the next frames. */
enum { DEVICE = 0x1105 };
static uint16_t own;
static uint8_t next, expected; /* its own, and the device's */

/* A frame to the device, transport's bits being these. */
static void put(int bus, uint8_t transport, const uint8_t *apdu, size_t length)
{
    uint8_t frame[BUS_PACKET];
    kelindap_frame f = { .source = own, .destination = DEVICE, .code = KELINDAP_L_DATA_IND, .control1 = 0xB0, .control2 = 0x60,
                         .transport = transport };
    kelindap_framed framed = kelindap_frame_write(f, NULL, 0, apdu, length, frame, sizeof frame);
    if (framed.outcome != KELINDAP_OK || send(bus, frame, framed.count, 0) < 0)
        end(TROUBLE, "the device is gone");
}

/* An octet of transport's own. */
static void control(int bus, uint8_t octet)
{
    uint8_t low = octet & 3;
    put(bus, octet >> 2, &low, 1);
}

/* Acknowledges data of the device; false if it is one that came before. */
static bool is_next(int bus, uint8_t transport)
{
    uint8_t number = transport & 15;
    control(bus, (uint8_t)(T_ACK | number << 2));
    if (number != expected)
        return false;
    expected = (expected + 1) & 15;
    return true;
}

/* The APDU of the next frame that is data, in `apdu`; the count of its bytes. Acknowledgements are passed over. */
static size_t get(int bus, uint8_t apdu[16])
{
    uint8_t frame[BUS_PACKET];
    for (;;) {
        ssize_t got = recv(bus, frame, sizeof frame, 0);
        if (got <= 0)
            end(TROUBLE, "the device is gone");
        kelindap_frame f = kelindap_frame_read(frame, (size_t)got);
        if (f.event == KELINDAP_EVENT_DISCONNECT)
            end(REFUSED, "the device ends the connection");
        if (f.event != KELINDAP_EVENT_CONNECTED && f.event != KELINDAP_EVENT_CONNECTIONLESS)
            continue;
        if (f.event == KELINDAP_EVENT_CONNECTED && !is_next(bus, f.transport))
            continue;
        memcpy(apdu, frame + f.tpdu_offset, f.tpdu_length);
        return f.tpdu_length;
    }
}

/* Asks with a PDU, and gives the answer, which must be of the kind; its data is in `apdu`. */
static kelindap_pdu ask(int bus, bool connected, kelindap_pdu pdu, const uint8_t *data, size_t length, uint8_t kind,
                        uint8_t apdu[16])
{
    kelindap_written written = kelindap_write(pdu, data, length, apdu, 16);
    if (written.outcome != KELINDAP_OK)
        end(TROUBLE, kelindap_outcome_name(written.outcome));
    put(bus, connected ? (uint8_t)(T_DATA >> 2 | (next++ & 15)) : 0, apdu, written.count);
    kelindap_pdu answer = kelindap_read(apdu, get(bus, apdu));
    if (answer.kind != kind) /* nothing that was refused has a kind */
        end(REFUSED, "the device does not answer as it should");
    return answer;
}

static const kelindap_pdu height = { .s = 1, .object = 1, .id = 51, .n = 1 };

/* The height in an answer. */
static unsigned told(kelindap_pdu answer, const uint8_t apdu[16])
{
    if (answer.n == 0 || answer.data_length != 2)
        end(REFUSED, "the device refuses");
    return (unsigned)(apdu[answer.data_offset] << 8 | apdu[answer.data_offset + 1]);
}

static void show(int bus)
{
    uint8_t apdu[16];
    kelindap_pdu pdu = height;
    pdu.kind = KELINDAP_PROPERTY_READ;
    kelindap_pdu answer = ask(bus, false, pdu, NULL, 0, KELINDAP_PROPERTY_RESPONSE, apdu);
    printf("%u\n", told(answer, apdu));
}

static unsigned long number(const char *word, int base, unsigned long most)
{
    char *rest;
    errno = 0;
    unsigned long value = strtoul(word, &rest, base);
    if (errno != 0 || rest == word || *rest != '\0' || value > most)
        end(TROUBLE, "a word is no number, or one too big");
    return value;
}

static void set(int bus, unsigned long value)
{
    uint8_t apdu[16], data[2] = { (uint8_t)(value >> 8), (uint8_t)value };
    kelindap_pdu pdu = height;
    pdu.kind = KELINDAP_PROPERTY_WRITE;
    kelindap_pdu answer = ask(bus, true, pdu, data, sizeof data, KELINDAP_PROPERTY_RESPONSE, apdu);
    printf("%u\n", told(answer, apdu));
    fflush(stdout);
}

static void connect_with(int bus, const char *key)
{
    uint8_t apdu[16];
    kelindap_pdu offer = { .key = (uint32_t)number(key, 16, UINT32_MAX), .kind = KELINDAP_AUTHORIZE_REQUEST };
    control(bus, T_CONNECT);
    ask(bus, true, offer, NULL, 0, KELINDAP_AUTHORIZE_RESPONSE, apdu);
}

static void write_heights(int bus, const char *key, char **heights)
{
    connect_with(bus, key);
    for (; *heights != NULL; heights++)
        set(bus, number(*heights, 10, UINT16_MAX));
    control(bus, T_DISCONNECT);
}

/* One word about versions. */
static void keep(int bus, const char *word)
{
    static const struct {
        const char *word;
        uint8_t what;
        uint8_t done; /* the outcome if it is carried out */
    } calls[] = {
        { "save", BUS_SAVE, KELINDAP_OK },
        { "restore=", BUS_RESTORE, KELINDAP_DONE },
        { "remove=", BUS_REMOVE, KELINDAP_DONE },
    };
    size_t k = 0;
    while (k < 3 && strncmp(word, calls[k].word, strlen(calls[k].word)) != 0)
        k++;
    if (k == 3)
        end(TROUBLE, "a word is none of save, restore=N, remove=N");
    const char *rest = word + strlen(calls[k].word);
    uint16_t version = *rest == '\0' && calls[k].what == BUS_SAVE ? 0 : (uint16_t)number(rest, 10, UINT16_MAX);
    uint8_t packet[BUS_PACKET] = { calls[k].what, 0, (uint8_t)(version >> 8), (uint8_t)version };
    if (send(bus, packet, BUS_VERSION, 0) < 0)
        end(TROUBLE, "the device is gone");
    ssize_t got;
    do /* an acknowledgement may be on its way */
        got = recv(bus, packet, sizeof packet, 0);
    while (got > BUS_VERSION);
    if (got != BUS_VERSION)
        end(TROUBLE, "the device is gone");
    if (packet[0] != calls[k].done)
        end(REFUSED, kelindap_outcome_name(packet[0]));
    printf("%.*s %d\n", (int)strcspn(word, "="), word, packet[2] << 8 | packet[3]);
    fflush(stdout);
}

static void keep_versions(int bus, const char *key, char **steps)
{
    connect_with(bus, key);
    for (; *steps != NULL; steps++)
        keep(bus, *steps);
    control(bus, T_DISCONNECT);
}

int main(int count, char **words)
{
    struct sockaddr_un at;
    bool reads = count == 3 && strcmp(words[2], "read") == 0;
    bool versions = count >= 5 && strcmp(words[2], "versions") == 0;
    if (!reads && !versions && (count < 5 || strcmp(words[2], "write") != 0))
        end(TROUBLE, "usage: height SOCKET read, height SOCKET write KEY HEIGHT .., or height SOCKET versions KEY WORD ..");
    signal(SIGPIPE, SIG_IGN);
    own = (uint16_t)(0x2000 | (getpid() & 0x1FFF));
    int bus = bus_socket(words[1], &at);
    if (bus < 0 || connect(bus, (struct sockaddr *)&at, sizeof at) != 0)
        end(TROUBLE, "there is no such bus");
    if (reads)
        show(bus);
    else if (versions)
        keep_versions(bus, words[3], words + 4);
    else
        write_heights(bus, words[3], words + 4);
    return fflush(stdout) == 0 ? EXIT_SUCCESS : TROUBLE;
}
