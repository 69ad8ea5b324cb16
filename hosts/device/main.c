/*
 * kelindap-device: a device on a KNX bus by KNXnet/IP tunnelling. kelindap-device.txt, which --help shows, tells what it takes; here
 * are its options, sockets, clock and loop. All state is one record; nothing is allocated after the start.
 */
#define _GNU_SOURCE
#include "control.h"
#include "log.h"
#include "meaning.h"

#include <arpa/inet.h>
#include <errno.h>
#include <fcntl.h>
#include <netinet/in.h>
#include <poll.h>
#include <signal.h>
#include <stdio.h>
#include <stdlib.h>
#include <string.h>
#include <sys/socket.h>
#include <time.h>
#include <unistd.h>

const char files_program[] = "kelindap-device";

enum { KNX_PORT = 3671, BATCH = 16, USAGE = 2 };
static const uint32_t KNX_GROUP = 0xE000170C; /* 224.0.23.12 */
static const uint32_t LOOPBACK = 0x7F000001;

static const char *const help[] = {
#include "device_help.inc"
};

typedef struct host {
    device device;
    tunnel tunnel;
    control control;
    char control_name[FILES_NAME + sizeof ".control"];
    int udp, group; /* group: -1 if it is not listened to */
} host;

typedef struct wishes {
    const char *sheet, *control, *name;
    endpoint own;
    long first_address; /* -1: it follows from the sheet */
} wishes;

static int stop_pipe[2];

static void on_stop(int signal)
{
    int kept = errno;
    (void)signal;
    (void)!write(stop_pipe[1], "", 1);
    errno = kept;
}

static uint64_t clock_now(void)
{
    struct timespec t;
    clock_gettime(CLOCK_MONOTONIC, &t);
    return (uint64_t)t.tv_sec * 1000 + (uint64_t)t.tv_nsec / 1000000;
}

/* ---- the parts, tied ---- */

static void send_datagram(void *to, endpoint where, const uint8_t *datagram, size_t length)
{
    host *h = to;
    struct sockaddr_in at = { .sin_family = AF_INET, .sin_port = htons(where.port), .sin_addr.s_addr = htonl(where.address) };
    (void)!sendto(h->udp, datagram, length, MSG_DONTWAIT, (struct sockaddr *)&at, sizeof at); /* UDP: what is lost is repeated */
}

static bool frame_to_device(void *to, const uint8_t *frame, size_t length, uint64_t now)
{
    return device_take(&((host *)to)->device, frame, length, now);
}

static void address_lost(void *to, uint16_t address)
{
    device_lost(&((host *)to)->device, address);
}

static const uint8_t *sheet_of(void *to)
{
    return ((host *)to)->device.sheet.bytes;
}

static void frame_to_bus(void *to, const uint8_t *frame, size_t length)
{
    tunnel_put(&((host *)to)->tunnel, frame, length);
}

/* ---- the network ---- */

static int open_udp(endpoint at)
{
    char where[DATAGRAM_ENDPOINT];
    int s = socket(AF_INET, SOCK_DGRAM | SOCK_CLOEXEC, 0);
    struct sockaddr_in a = { .sin_family = AF_INET, .sin_port = htons(at.port), .sin_addr.s_addr = htonl(at.address) };
    if (s < 0 || bind(s, (struct sockaddr *)&a, sizeof a) != 0)
        files_give_up(datagram_endpoint(where, at), "can't be listened on");
    return s;
}

/*
 * The group to which searches go, on the interface of our own address alone, also if another program has joined it elsewhere. Other
 * servers of this machine hear it too. Where there is no multicast the host goes on: it is found by its address.
 */
static int open_group(endpoint own)
{
    int on = 1, off = 0, s = socket(AF_INET, SOCK_DGRAM | SOCK_CLOEXEC, 0);
    struct sockaddr_in a = { .sin_family = AF_INET, .sin_port = htons(KNX_PORT), .sin_addr.s_addr = htonl(KNX_GROUP) };
    struct ip_mreq join = { .imr_multiaddr.s_addr = htonl(KNX_GROUP), .imr_interface.s_addr = htonl(own.address) };
    if (s >= 0 && setsockopt(s, SOL_SOCKET, SO_REUSEADDR, &on, sizeof on) == 0 &&
        setsockopt(s, IPPROTO_IP, IP_MULTICAST_ALL, &off, sizeof off) == 0 && bind(s, (struct sockaddr *)&a, sizeof a) == 0 &&
        setsockopt(s, IPPROTO_IP, IP_ADD_MEMBERSHIP, &join, sizeof join) == 0)
        return s;
    log_line("searches by multicast are not heard: %s", strerror(errno));
    if (s >= 0)
        close(s);
    return -1;
}

static uint16_t port_of(int s)
{
    struct sockaddr_in a = { 0 };
    socklen_t length = sizeof a;
    getsockname(s, (struct sockaddr *)&a, &length);
    return ntohs(a.sin_port);
}

/* Some datagrams that are there: not all, so that a flood leaves time for the rest. What is longer than any right one is cut off,
   and then has another length than it states. */
static void take_datagrams(host *h, int s)
{
    for (int i = 0; i < BATCH; i++) {
        uint8_t datagram[TUNNEL_DATAGRAM];
        struct sockaddr_in at = { 0 };
        socklen_t at_length = sizeof at;
        ssize_t n = recvfrom(s, datagram, sizeof datagram, MSG_DONTWAIT | MSG_TRUNC, (struct sockaddr *)&at, &at_length);
        if (n < 0)
            return;
        endpoint from = { ntohl(at.sin_addr.s_addr), ntohs(at.sin_port) };
        size_t length = (size_t)n > sizeof datagram ? 0 : (size_t)n;
        uint64_t now = clock_now();
        if (s == h->group)
            tunnel_take_search(&h->tunnel, from, datagram, length, now);
        else
            tunnel_take(&h->tunnel, from, datagram, length, now);
        tunnel_tick(&h->tunnel, now);
    }
}

/* ---- the loop ---- */

static int wait_for(const host *h, uint64_t now)
{
    uint64_t a = device_due(&h->device), b = tunnel_due(&h->tunnel), due = a < b ? a : b;
    if (due == UINT64_MAX)
        return -1;
    return due <= now ? 0 : due - now > 60000 ? 60000 : (int)(due - now);
}

/* Waits until somebody wants something or something is due, and sees to it; false when the host is to end. */
static bool turn(host *h)
{
    enum { UDP, GROUP, STOP, CONTROL, CLIENTS, ALL = CLIENTS + CONTROL_CLIENTS };
    struct pollfd at[ALL] = { [UDP] = { .fd = h->udp }, [GROUP] = { .fd = h->group }, [STOP] = { .fd = stop_pipe[0] },
                              [CONTROL] = { .fd = h->control.local.socket } };
    for (int i = 0; i < CONTROL_CLIENTS; i++)
        at[CLIENTS + i].fd = h->control.clients[i].socket;
    for (int i = 0; i < ALL; i++)
        at[i].events = POLLIN;
    if (poll(at, ALL, wait_for(h, clock_now())) < 0) {
        if (errno == EINTR)
            return true;
        files_give_up("poll", "fails");
    }
    if (at[UDP].revents != 0)
        take_datagrams(h, h->udp);
    if (at[GROUP].revents != 0)
        take_datagrams(h, h->group);
    for (int i = 0; i < CONTROL_CLIENTS; i++)
        if (at[CLIENTS + i].revents != 0)
            control_take(&h->control, (size_t)i, &h->device, &h->tunnel);
    if (at[CONTROL].revents != 0)
        control_accept(&h->control);
    uint64_t now = clock_now();
    device_tick(&h->device, now);
    tunnel_tick(&h->tunnel, now);
    return at[STOP].revents == 0;
}

/* ---- words ---- */

static _Noreturn void wrong(const char *what, const char *word)
{
    fprintf(stderr, "%s: %s \"%s\"; --help says more\n", files_program, what, word);
    exit(USAGE);
}

static _Noreturn void missing(const char *what)
{
    fprintf(stderr, "%s: %s is missing; --help says more\n", files_program, what);
    exit(USAGE);
}

static uint32_t read_address(const char *word)
{
    struct in_addr a;
    if (inet_pton(AF_INET, word, &a) != 1)
        wrong("--listen takes an IPv4 address, not", word);
    if (a.s_addr == 0 || ntohl(a.s_addr) >= 0xE0000000) /* the answers name it, so it has to be one of this machine's */
        wrong("--listen takes the address of one interface, which is not", word);
    return ntohl(a.s_addr);
}

static uint16_t read_port(const char *word)
{
    char *rest;
    unsigned long n = strtoul(word, &rest, 10);
    if (*word < '0' || *word > '9' || *rest != 0 || n > 65535)
        wrong("--port takes a number up to 65535, not", word);
    return (uint16_t)n;
}

static uint16_t read_individual(const char *word)
{
    unsigned a, l, d;
    char more;
    if (sscanf(word, "%2u.%2u.%3u%c", &a, &l, &d, &more) != 3 || a > 15 || l > 15 || d > 256 - TUNNEL_CHANNELS || d == 0)
        wrong("--addresses takes the first of eight, like 1.1.240, not", word);
    return (uint16_t)(a << 12 | l << 8 | d);
}

/* A search shows so many bytes of a name: what would be cut is refused. */
static const char *read_name(const char *word)
{
    if (strlen(word) >= DATAGRAM_NAME)
        wrong("--name takes up to 29 bytes, not", word);
    return word;
}

/* The value of the option that this word is, in it or in the word after it; NULL if it is another. */
static const char *value_of(const char *option, char ***word)
{
    size_t n = strlen(option);
    if (strncmp(**word, option, n) != 0 || ((**word)[n] != 0 && (**word)[n] != '='))
        return NULL;
    if ((**word)[n] == '=')
        return **word + n + 1;
    if ((*word)[1] == NULL)
        wrong("there is nothing after", **word);
    return *++*word;
}

/* An option is given once: of two values one would be passed over. */
static void none_twice(char **words)
{
    static const char *const options[] = { "--port", "--listen", "--control", "--addresses", "--name" };
    for (size_t i = 0; i < sizeof options / sizeof *options; i++) {
        int times = 0;
        for (char **word = words; *word != NULL; word++)
            times += value_of(options[i], &word) != NULL;
        if (times > 1)
            wrong("there are two values of", options[i]);
    }
}

static wishes read_wishes(char **word)
{
    wishes w = { .name = "kelindap", .own = { LOOPBACK, KNX_PORT }, .first_address = -1 };
    none_twice(word);
    for (const char *value; *word != NULL; word++)
        if ((value = value_of("--port", &word)) != NULL)
            w.own.port = read_port(value);
        else if ((value = value_of("--listen", &word)) != NULL)
            w.own.address = read_address(value);
        else if ((value = value_of("--control", &word)) != NULL)
            w.control = value;
        else if ((value = value_of("--addresses", &word)) != NULL)
            w.first_address = read_individual(value);
        else if ((value = value_of("--name", &word)) != NULL)
            w.name = read_name(value);
        else if (**word == '-')
            wrong("there is no option", *word);
        else if (w.sheet != NULL)
            wrong("one sheet is served, so there is one word too many:", *word);
        else
            w.sheet = *word;
    if (w.sheet == NULL)
        missing("SHEET");
    return w;
}

/* The control socket of a sheet, where none is named: beside it. */
static void name_control(char name[FILES_NAME + sizeof ".control"], const char *path)
{
    snprintf(name, FILES_NAME + sizeof ".control", "%s.control", path);
}

static int show_help(void)
{
    for (size_t i = 0; i < sizeof help / sizeof *help; i++)
        puts(help[i]);
    return fflush(stdout) == 0 ? EXIT_SUCCESS : EXIT_FAILURE;
}

static int ctl(char **words)
{
    if (*words != NULL && strcmp(*words, "--help") == 0)
        return show_help();
    char path[FILES_NAME], name[FILES_NAME + sizeof ".control"];
    const char *given = *words == NULL ? NULL : value_of("--control", &words);
    if (*words != NULL && given == NULL) {
        if (**words == '-')
            wrong("there is no option", *words);
        if (!files_find(path, *words)) {
            fprintf(stderr, "%s: %s: can't be read: %s\n", files_program, *words, strerror(errno));
            return USAGE;
        }
        name_control(name, path);
        given = name;
    }
    if (given == NULL)
        missing("SHEET, or --control SOCKET,");
    if (words[1] == NULL)
        missing("COMMAND");
    return control_ask(given, words + 1);
}

/* ---- the start ---- */

/* Tells the service manager, if there is one, by the datagram that it waits for. */
static void notify(const char *state)
{
    struct sockaddr_un at;
    const char *name = getenv("NOTIFY_SOCKET");
    int s = name != NULL && local_name(&at, name) ? socket(AF_UNIX, SOCK_DGRAM | SOCK_CLOEXEC, 0) : -1;
    if (s < 0)
        return;
    if (at.sun_path[0] == '@')
        at.sun_path[0] = 0;
    (void)!sendto(s, state, strlen(state), MSG_NOSIGNAL, (struct sockaddr *)&at,
                  (socklen_t)(offsetof(struct sockaddr_un, sun_path) + strlen(name)));
    close(s);
}

/* Where the channels' addresses begin if it was not said: behind 240, in the device's own line. */
static uint16_t first_address(const device *d, long wish)
{
    return (uint16_t)(wish >= 0 ? wish : (device_address(d) & 0xFF00) | 0xF0);
}

static void start(host *h, wishes w)
{
    char path[FILES_NAME];
    struct sigaction stop = { .sa_handler = on_stop };
    if (!files_find(path, w.sheet))
        files_give_up(w.sheet, "can't be read");
    device_open(&h->device, path, w.sheet);
    name_control(h->control_name, path);
    if (w.control != NULL)
        snprintf(h->control_name, sizeof h->control_name, "%s", w.control);
    h->udp = open_udp(w.own);
    h->group = open_group(w.own);
    control_open(&h->control, h->control_name);
    h->device.bus = h;
    h->device.send = frame_to_bus;
    h->tunnel.host = (tunnel_host){ h, send_datagram, frame_to_device, address_lost, sheet_of };
    h->tunnel.own = (endpoint){ w.own.address, port_of(h->udp) };
    h->tunnel.first_address = first_address(&h->device, w.first_address);
    memcpy(h->tunnel.name, w.name, strnlen(w.name, sizeof h->tunnel.name - 1));
    if (pipe2(stop_pipe, O_CLOEXEC | O_NONBLOCK) != 0 || sigaction(SIGTERM, &stop, NULL) != 0 || sigaction(SIGINT, &stop, NULL) != 0)
        files_give_up("signals", "can't be had");
    signal(SIGPIPE, SIG_IGN);
    signal(SIGXFSZ, SIG_IGN); /* a limit of the files' size is an error of the write */
}

static int serve(wishes w)
{
    static host h;
    char name[MEANING_ADDRESS], where[DATAGRAM_ENDPOINT];
    start(&h, w);
    log_line("device %s serves on %s", meaning_address(name, device_address(&h.device)), datagram_endpoint(where, h.tunnel.own));
    printf("ready %d\n", h.tunnel.own.port);
    fflush(stdout);
    notify("READY=1");
    while (turn(&h))
        ;
    notify("STOPPING=1");
    tunnel_close(&h.tunnel);
    unlink(h.control_name);
    return EXIT_SUCCESS;
}

int main(int count, char **words)
{
    if (count < 2)
        missing("SHEET");
    if (strcmp(words[1], "--help") == 0)
        return show_help();
    if (strcmp(words[1], "--version") == 0) {
        puts("kelindap-device of kelindap " KELINDAP_VERSION_TEXT);
        return fflush(stdout) == 0 ? EXIT_SUCCESS : EXIT_FAILURE;
    }
    return strcmp(words[1], "ctl") == 0 ? ctl(words + 2) : serve(read_wishes(words + 1));
}
