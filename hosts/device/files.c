/* Bytes kept in a file, as files.h tells. */
#define _GNU_SOURCE
#include "files.h"

#include <errno.h>
#include <fcntl.h>
#include <limits.h>
#include <stdio.h>
#include <stdlib.h>
#include <string.h>
#include <sys/file.h>
#include <sys/stat.h>
#include <unistd.h>

_Static_assert(FILES_NAME >= PATH_MAX + sizeof ".store.new", "a path has room, with every ending");

_Noreturn void files_give_up(const char *name, const char *what)
{
    fprintf(stderr, "%s: %s: %s%s%s\n", files_program, name, what, errno != 0 ? ": " : "", errno != 0 ? strerror(errno) : "");
    exit(EXIT_FAILURE);
}

bool files_find(char path[FILES_NAME], const char *given)
{
    char found[PATH_MAX];
    if (realpath(given, found) == NULL)
        return false;
    snprintf(path, FILES_NAME, "%s", found);
    return true;
}

/* The lock's file stays: removing it would let two programs hold two locks. */
void files_lock(const char *path, const char *given)
{
    char file[FILES_NAME + sizeof ".lock"];
    struct stat is;
    errno = 0;
    if (stat(path, &is) != 0 || !S_ISREG(is.st_mode))
        files_give_up(given, errno != 0 ? "can't be read" : "is no file");
    snprintf(file, sizeof file, "%s.lock", path);
    int fd = open(file, O_RDWR | O_CREAT | O_NOFOLLOW | O_CLOEXEC, 0600);
    if (fd < 0)
        files_give_up(file, "can't be opened, and without the lock nothing is served");
    if (flock(fd, LOCK_EX | LOCK_NB) == 0)
        return;
    bool taken = errno == EWOULDBLOCK;
    errno = taken ? 0 : errno;
    files_give_up(given, taken ? "is served by another program" : "can't be locked");
}

/* Folder and names, of the file behind a link if it is one. */
static void name_files(kept *k, const char *path, const char *ending, const char *given)
{
    char whole[2 * FILES_NAME], found[PATH_MAX];
    snprintf(whole, sizeof whole, "%s%s", path, ending);
    snprintf(k->name, sizeof k->name, "%.*s%s", FILES_NAME - 16, given, ending);
    if (realpath(whole, found) != NULL)
        snprintf(whole, sizeof whole, "%s", found);
    char *slash = strrchr(whole, '/');
    snprintf(k->file, sizeof k->file, "%.*s", FILES_NAME - 16, slash + 1);
    snprintf(k->fresh, sizeof k->fresh, "%.*s.new", FILES_NAME - 16, slash + 1);
    slash[1] = 0;
    k->folder = open(whole, O_RDONLY | O_DIRECTORY | O_CLOEXEC);
    if (k->folder < 0)
        files_give_up(whole, "can't be opened");
}

bool files_load(kept *k, const char *path, const char *ending, const char *given)
{
    struct stat is;
    name_files(k, path, ending, given);
    memset(k->bytes, 0, sizeof k->bytes);
    k->length = 0;
    int from = openat(k->folder, k->file, O_RDONLY | O_NONBLOCK | O_CLOEXEC);
    if (from < 0 && errno == ENOENT)
        return false;
    if (from < 0 || fstat(from, &is) != 0)
        files_give_up(k->name, "can't be read");
    errno = 0;
    if (!S_ISREG(is.st_mode))
        files_give_up(k->name, "is no file");
    for (ssize_t n; k->length < sizeof k->bytes; k->length += (size_t)n) {
        n = read(from, k->bytes + k->length, sizeof k->bytes - k->length);
        if (n < 0)
            files_give_up(k->name, "can't be read");
        if (n == 0)
            break;
    }
    close(from);
    memcpy(k->saved, k->bytes, sizeof k->saved);
    return true;
}

/* All bytes into a new file that belongs to whom the old one belonged, on the disk. */
static bool write_fresh(const kept *k, int to)
{
    struct stat old;
    if (fstatat(k->folder, k->file, &old, 0) == 0 && (old.st_uid != geteuid() || old.st_gid != getegid()))
        (void)!fchown(to, old.st_uid, old.st_gid);
    for (size_t at = 0; at < k->length;) {
        ssize_t n = write(to, k->bytes + at, k->length - at);
        if (n < 0 && errno == EINTR)
            continue;
        if (n <= 0)
            return false;
        at += (size_t)n;
    }
    return fsync(to) == 0;
}

bool files_save(kept *k)
{
    /* of a program that was killed; and whatever else stands there, no new file is opened through it */
    if (unlinkat(k->folder, k->fresh, 0) != 0 && errno != ENOENT)
        return false;
    int to = openat(k->folder, k->fresh, O_WRONLY | O_CREAT | O_EXCL | O_NOFOLLOW | O_CLOEXEC, 0600); /* the keys are in it */
    if (to < 0)
        return false;
    bool written = write_fresh(k, to);
    int why = errno;
    if (close(to) != 0 && written)
        written = false, why = errno;
    if (!written || renameat(k->folder, k->fresh, k->folder, k->file) != 0) {
        why = written ? errno : why;
        unlinkat(k->folder, k->fresh, 0);
        errno = why;
        return false;
    }
    if (fsync(k->folder) != 0)
        files_give_up(k->name, "can't be brought to the disk");
    memcpy(k->saved, k->bytes, sizeof k->saved);
    return true;
}

void files_back(kept *k)
{
    memcpy(k->bytes, k->saved, sizeof k->bytes);
}
