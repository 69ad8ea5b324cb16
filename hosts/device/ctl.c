/* kelindap-device ctl: words to the control socket of a host that runs. Its answer on standard output; a refusal is status 1. */
#define _GNU_SOURCE
#include "control.h"

#include <errno.h>
#include <stdio.h>
#include <string.h>
#include <sys/socket.h>
#include <sys/time.h>
#include <unistd.h>

enum { REFUSED = 1, TROUBLE = 2, PATIENCE = 10 /* seconds */ };

static int trouble(const char *name, const char *what)
{
    fprintf(stderr, "%s: %s: %s%s%s\n", files_program, name, what, errno != 0 ? ": " : "", errno != 0 ? strerror(errno) : "");
    return TROUBLE;
}

/* The words as one line; false if they are too many. */
static bool join(char line[CONTROL_WORDS], char **words)
{
    size_t at = 0;
    line[0] = 0;
    for (; *words != NULL; words++) {
        int n = snprintf(line + at, CONTROL_WORDS - at, "%s%s", at > 0 ? " " : "", *words);
        if (n < 0 || (at += (size_t)n) >= CONTROL_WORDS - 1 || strchr(*words, '\n') != NULL)
            return false;
    }
    strcat(line, "\n");
    return true;
}

/* The start of the last line, if the answer is whole; else NULL. */
static char *last_line(char *answer, size_t length)
{
    if (length == 0 || answer[length - 1] != '\n')
        return NULL;
    char *at = answer + length - 1;
    while (at > answer && at[-1] != '\n')
        at--;
    return strncmp(at, "ok", 2) == 0 || strncmp(at, "refused", 7) == 0 ? at : NULL;
}

int control_ask(const char *name, char **words)
{
    static char answer[CONTROL_ANSWER + 1];
    char line[CONTROL_WORDS], *last = NULL;
    struct sockaddr_un at;
    struct timeval patience = { .tv_sec = PATIENCE };
    size_t length = 0;
    errno = 0;
    if (!join(line, words))
        return trouble("ctl", "too many words");
    errno = ENAMETOOLONG;
    int s = local_name(&at, name) ? socket(AF_UNIX, SOCK_STREAM | SOCK_CLOEXEC, 0) : -1;
    if (s < 0 || connect(s, (struct sockaddr *)&at, sizeof at) != 0)
        return trouble(name, "no host answers");
    setsockopt(s, SOL_SOCKET, SO_RCVTIMEO, &patience, sizeof patience);
    if (send(s, line, strlen(line), MSG_NOSIGNAL) < 0)
        return trouble(name, "the host does not listen");
    while (last == NULL && length < CONTROL_ANSWER) {
        ssize_t n = recv(s, answer + length, CONTROL_ANSWER - length, 0);
        if (n < 0)
            return trouble(name, "the host does not answer");
        errno = 0;
        if (n == 0)
            return trouble(name, "the host ended before it answered");
        length += (size_t)n;
        last = last_line(answer, length);
    }
    close(s);
    bool refused = last == NULL || strncmp(last, "refused", 7) == 0;
    fputs(answer, refused ? stderr : stdout);
    return fflush(stdout) != 0 ? TROUBLE : refused ? REFUSED : 0;
}
