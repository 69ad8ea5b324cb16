/* A socket with a name in the file system, as local.h tells. */
#define _GNU_SOURCE
#include "local.h"
#include "files.h"

#include <errno.h>
#include <fcntl.h>
#include <stdio.h>
#include <string.h>
#include <sys/file.h>
#include <sys/socket.h>
#include <unistd.h>

enum { QUEUE = 8, TRIES = 100, BETWEEN = 10000 /* microseconds */ };

_Bool local_name(struct sockaddr_un *at, const char *name)
{
    memset(at, 0, sizeof *at);
    at->sun_family = AF_UNIX;
    if (strlen(name) >= sizeof at->sun_path)
        return false;
    strcpy(at->sun_path, name);
    return true;
}

/* Whether a socket stands there on which nobody answers. Ends the program if something else does. */
static _Bool left_behind(const struct sockaddr_un *at, int type)
{
    struct stat is;
    if (lstat(at->sun_path, &is) != 0) {
        if (errno != ENOENT)
            files_give_up(at->sun_path, "is no name for a socket");
        return false;
    }
    errno = 0;
    if (!S_ISSOCK(is.st_mode))
        files_give_up(at->sun_path, "is there already, and is no socket: it stays as it is");
    int ask = socket(AF_UNIX, type | SOCK_NONBLOCK | SOCK_CLOEXEC, 0);
    if (ask >= 0 && connect(ask, (const struct sockaddr *)at, sizeof *at) != 0 && errno == ECONNREFUSED) {
        close(ask);
        return true;
    }
    errno = ask < 0 ? errno : 0;
    files_give_up(at->sun_path, "is the socket of another program");
}

/* Starts of two programs in one folder come one after the other; where that can't be had they go on all the same. */
static int hold_folder(const char *name)
{
    char folder[sizeof((struct sockaddr_un *)0)->sun_path];
    const char *slash = strrchr(name, '/');
    snprintf(folder, sizeof folder, "%.*s", slash == NULL ? 1 : (int)(slash - name) + 1, slash == NULL ? "." : name);
    int fd = open(folder, O_RDONLY | O_DIRECTORY | O_CLOEXEC);
    for (int i = 0; fd >= 0 && i < TRIES && flock(fd, LOCK_EX | LOCK_NB) != 0; i++)
        usleep(BETWEEN);
    return fd;
}

void local_open(local *l, const char *name, int type, mode_t mask)
{
    struct sockaddr_un at;
    errno = ENAMETOOLONG;
    if (!local_name(&at, name))
        files_give_up(name, "is no name for a socket");
    int folder = hold_folder(name);
    if (left_behind(&at, type) && unlink(name) != 0)
        files_give_up(name, "can't be replaced");
    mode_t before = umask(mask);
    l->socket = socket(AF_UNIX, type | SOCK_NONBLOCK | SOCK_CLOEXEC, 0);
    if (l->socket < 0 || bind(l->socket, (struct sockaddr *)&at, sizeof at) != 0 || listen(l->socket, QUEUE) != 0)
        files_give_up(name, "can't be listened on");
    umask(before);
    l->spare = dup(l->socket);
    if (folder >= 0)
        close(folder);
}

int local_accept(local *l)
{
    int s = accept4(l->socket, NULL, NULL, SOCK_CLOEXEC);
    bool out = s < 0 && (errno == EMFILE || errno == ENFILE);
    int one_more = s < 0 ? -1 : dup(s);
    if (s >= 0 && one_more >= 0) {
        close(one_more);
        return s;
    }
    if (s >= 0)
        close(s);
    if (out && l->spare >= 0) { /* taken, so that it need not wait, and closed */
        close(l->spare);
        s = accept4(l->socket, NULL, NULL, SOCK_CLOEXEC);
        if (s >= 0)
            close(s);
        l->spare = dup(l->socket);
    }
    return -1;
}
