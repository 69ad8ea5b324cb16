/*
 * A small tool in C: reads and writes the mounting height of a unit, element 1 of property 51 of object 1, on a KNX bus behind an
 * interface that serves KNXnet/IP tunnelling: kelindap-device, knxd, a device on the network.
 *
 *   height HOST PORT ADDRESS read                  shows the height
 *   height HOST PORT ADDRESS write FILE HEIGHT     offers the key in FILE, eight hex digits, and sets the height, shown once it is set
 *
 * HOST is an IPv4 address, ADDRESS an individual one, such as 1.1.5. Exit status 0; 1 if the unit refuses, 2 if it can't be reached or
 * a word is wrong.
 *
 * PDUs and frames are written and read by libkelindap_pdu. Tunnel and transport stand here, as far as one request at a time needs
 * them; kelindap-tool has the whole of both, and is the tool that one runs.
 */
#define _POSIX_C_SOURCE 200809L
#include "kelindap_frame.h"
#include "kelindap_names.h"
#include "kelindap_pdu.h"

#include <arpa/inet.h>
#include <poll.h>
#include <stdio.h>
#include <stdlib.h>
#include <string.h>
#include <sys/socket.h>
#include <time.h>
#include <unistd.h>

enum { REFUSED = 1, TROUBLE = 2 };

/* KNXnet/IP's services, and transport's octets; a number of connected data stands at bit 2. */
enum { CONNECT = 0x0205, CONNECTED, DISCONNECT = 0x0209, REQUEST = 0x0420, ACKNOWLEDGED };
enum { T_CONNECT = 0x80, T_DISCONNECT = 0x81, T_ACK = 0xC2, T_DATA = 0x40 };

static int interface_ = -1;
static uint8_t channel, sent, expected; /* of the tunnel, with the numbers of both directions */
static uint16_t unit, own;
static uint8_t next, due; /* of the connection, the same */
static bool open_, connected;
static uint8_t endpoint[8] = { 8, 1 }; /* 0.0.0.0:0, answer to where this comes from */

/* Frames that came while something else was waited for. */
static struct { uint8_t bytes[64]; size_t length; } line[8];
static size_t waiting;

static void put(uint16_t service, const uint8_t *body, size_t length)
{
    uint8_t d[128] = { 6, 16, (uint8_t)(service >> 8), (uint8_t)service, 0, (uint8_t)(6 + length) };
    memcpy(d + 6, body, length);
    (void)!send(interface_, d, 6 + length, 0);
}

static void control(uint8_t octet);

/* What was opened is closed, whatever happened. */
static _Noreturn void end(int status, const char *why)
{
    if (why != NULL)
        fprintf(stderr, "height: %s\n", why);
    if (connected) {
        connected = false;
        control(T_DISCONNECT);
    }
    if (open_) {
        uint8_t body[10] = { channel };
        memcpy(body + 2, endpoint, sizeof endpoint);
        put(DISCONNECT, body, sizeof body);
    }
    exit(status);
}

static long long now(void)
{
    struct timespec t;
    clock_gettime(CLOCK_MONOTONIC, &t);
    return t.tv_sec * 1000LL + t.tv_nsec / 1000000;
}

/* A datagram of the service before `until`: its body is in d from byte 6 on. Requests of the interface are acknowledged and kept. */
static size_t get(uint16_t service, uint8_t d[128], long long until)
{
    for (;;) {
        struct pollfd p = { .fd = interface_, .events = POLLIN };
        long long left = until - now();
        if (left <= 0 || poll(&p, 1, (int)left) <= 0)
            return 0;
        ssize_t got = recv(interface_, d, 128, 0);
        if (got < 0)
            end(TROUBLE, "nobody listens there");
        if (got < 8 || d[0] != 6 || d[1] != 16 || (d[4] << 8 | d[5]) != got)
            continue;
        uint16_t is = (uint16_t)(d[2] << 8 | d[3]);
        if (is == REQUEST && got >= 11 && got <= 10 + 64 && d[7] == channel && waiting < 8) {
            if (d[8] == expected || d[8] == (uint8_t)(expected - 1))
                put(ACKNOWLEDGED, (uint8_t[]){ 4, channel, d[8], 0 }, 4);
            if (d[8] == expected) {
                expected++;
                line[waiting].length = (size_t)got - 10;
                memcpy(line[waiting++].bytes, d + 10, (size_t)got - 10);
            }
            if (service == REQUEST && waiting > 0)
                return (size_t)got;
        } else if (is == service) {
            return (size_t)got;
        }
    }
}

/* A frame to the unit, transport's bits being these; it is sent again once. */
static void frame(uint8_t transport, const uint8_t *apdu, size_t length)
{
    uint8_t body[64] = { 4, channel, sent }, d[128];
    kelindap_frame f = { .destination = unit, .code = KELINDAP_L_DATA_REQ, .control1 = 0xB0, .control2 = 0x60, .transport = transport };
    kelindap_framed framed = kelindap_frame_write(f, NULL, 0, apdu, length, body + 4, sizeof body - 4);
    if (framed.outcome != KELINDAP_OK)
        end(TROUBLE, kelindap_outcome_name(framed.outcome));
    for (int tries = 0; tries < 2; tries++) {
        put(REQUEST, body, 4 + framed.count);
        long long until = now() + 1000;
        while (get(ACKNOWLEDGED, d, until) == 10)
            if (d[7] == channel && d[8] == sent && d[9] == 0) {
                sent++;
                return;
            }
    }
    if (connected)
        end(TROUBLE, "the interface is gone");
}

static void control(uint8_t octet)
{
    uint8_t low = octet & 3;
    frame(octet >> 2, &low, 1);
}

/* The unit's next frame before `until`, with its TPDU; false if there is none. */
static bool hear(kelindap_frame *f, uint8_t tpdu[16], long long until)
{
    uint8_t d[128];
    for (;;) {
        if (waiting == 0 && get(REQUEST, d, until) == 0)
            return false;
        uint8_t bytes[64];
        size_t length = line[0].length;
        memcpy(bytes, line[0].bytes, length);
        memmove(line, line + 1, --waiting * sizeof line[0]);
        *f = kelindap_frame_read(bytes, length); /* confirmations are no frames to it */
        if (f->outcome == KELINDAP_OK && f->source == unit && f->destination == own && f->tpdu_length <= 16) {
            memcpy(tpdu, bytes + f->tpdu_offset, f->tpdu_length);
            return true;
        }
    }
}

/* Asks with a PDU on the connection, and gives the answer, which must be of the kind; its data is in `apdu`. */
static kelindap_pdu ask(kelindap_pdu pdu, const uint8_t *data, size_t length, uint8_t kind, uint8_t apdu[16])
{
    uint8_t question[16];
    kelindap_written written = kelindap_write(pdu, data, length, question, sizeof question);
    if (written.outcome != KELINDAP_OK)
        end(TROUBLE, kelindap_outcome_name(written.outcome));
    bool acknowledged = false;
    for (int tries = 0; tries < 4; tries++) {
        if (!acknowledged)
            frame((uint8_t)(T_DATA >> 2 | next), question, written.count);
        kelindap_frame f;
        for (long long until = now() + 3000; hear(&f, apdu, until);) {
            if (f.event == KELINDAP_EVENT_DISCONNECT) {
                connected = false;
                end(REFUSED, "the unit ends the connection");
            }
            if (f.event == KELINDAP_EVENT_ACKNOWLEDGED && apdu[0] == (T_ACK | next << 2) && !acknowledged) {
                acknowledged = true;
                next = (next + 1) & 15;
            }
            if (f.event != KELINDAP_EVENT_CONNECTED)
                continue;
            uint8_t number = f.transport & 15;
            control((uint8_t)(T_ACK | number << 2));
            if (number != due)
                continue; /* one that came before */
            due = (due + 1) & 15;
            kelindap_pdu answer = kelindap_read(apdu, f.tpdu_length);
            if (answer.kind == kind) /* nothing that was refused has a kind */
                return answer;
        }
    }
    end(TROUBLE, "the unit does not answer");
}

/* A tunnel to the interface, and a connection to the unit. */
static void reach(const char *host, const char *port)
{
    struct sockaddr_in to = { .sin_family = AF_INET, .sin_port = htons((uint16_t)atoi(port)) };
    interface_ = socket(AF_INET, SOCK_DGRAM, 0);
    if (interface_ < 0 || inet_pton(AF_INET, host, &to.sin_addr) != 1 || connect(interface_, (struct sockaddr *)&to, sizeof to) != 0)
        end(TROUBLE, "no such interface");
    uint8_t body[20], d[128];
    memcpy(body, endpoint, 8);
    memcpy(body + 8, endpoint, 8);
    memcpy(body + 16, (uint8_t[]){ 4, 4, 2, 0 }, 4); /* a tunnel at the link layer */
    put(CONNECT, body, sizeof body);
    if (get(CONNECTED, d, now() + 10000) != 20 || d[7] != 0)
        end(TROUBLE, "the interface gives no tunnel");
    channel = d[6];
    own = (uint16_t)(d[18] << 8 | d[19]);
    open_ = connected = true;
    control(T_CONNECT);
}

static const kelindap_pdu height = { .s = 1, .object = 1, .id = 51, .n = 1 };

/* The height in an answer. */
static void show(kelindap_pdu answer, const uint8_t apdu[16])
{
    if (answer.n == 0 || answer.data_length != 2)
        end(REFUSED, "the unit refuses");
    printf("%u\n", (unsigned)(apdu[answer.data_offset] << 8 | apdu[answer.data_offset + 1]));
}

int main(int count, char **words)
{
    bool reads = count == 5 && strcmp(words[4], "read") == 0;
    unsigned area, of_area, number, value = 0, key = 0;
    if (!reads && (count != 7 || strcmp(words[4], "write") != 0 || sscanf(words[6], "%u", &value) != 1 || value > 65535))
        end(TROUBLE, "height HOST PORT ADDRESS read, or height HOST PORT ADDRESS write FILE HEIGHT");
    if (sscanf(words[3], "%u.%u.%u", &area, &of_area, &number) != 3 || area > 15 || of_area > 15 || number > 255)
        end(TROUBLE, "no individual address");
    if (!reads) {
        FILE *f = fopen(words[5], "r");
        if (f == NULL || fscanf(f, "%8x", &key) != 1)
            end(TROUBLE, "no key in the file");
        fclose(f);
    }
    unit = (uint16_t)(area << 12 | of_area << 8 | number);
    reach(words[1], words[2]);
    uint8_t apdu[16];
    kelindap_pdu pdu = height;
    if (reads) {
        pdu.kind = KELINDAP_PROPERTY_READ;
        show(ask(pdu, NULL, 0, KELINDAP_PROPERTY_RESPONSE, apdu), apdu);
    } else {
        kelindap_pdu offer = { .key = key, .kind = KELINDAP_AUTHORIZE_REQUEST };
        ask(offer, NULL, 0, KELINDAP_AUTHORIZE_RESPONSE, apdu);
        pdu.kind = KELINDAP_PROPERTY_WRITE;
        uint8_t data[2] = { (uint8_t)(value >> 8), (uint8_t)value };
        show(ask(pdu, data, sizeof data, KELINDAP_PROPERTY_RESPONSE, apdu), apdu);
    }
    end(fflush(stdout) == 0 ? EXIT_SUCCESS : TROUBLE, NULL);
}
