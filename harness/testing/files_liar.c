/* Writes of files in a folder, step by step: a part of the liar.
 *
 * With LIE_FILES, LIE_LOG has a line for each step of such a write: `create FILE`, `write FILE`, `fsync
 * FILE`, `rename FILE` and `fsync folder`, which is what LIE_TARGET names; and `told WRITE` for each write
 * that `drive` is told as done. LIE_FILES=kill:N kills the process before the Nth step; fail:N has that
 * fail, and not be made. With LIE_NO_DIRECT no file in a folder takes O_DIRECT, and
 * with LIE_SYNCFS_FAILS the file system of the target can't be written out. */
#include "liar.h"

#include <dlfcn.h>
#include <endian.h>
#include <errno.h>
#include <fcntl.h>
#include <signal.h>
#include <stdarg.h>
#include <stdatomic.h>
#include <stdint.h>
#include <stdio.h>
#include <stdlib.h>
#include <string.h>
#include <unistd.h>

enum { NOTICE = 16, MOST_NOTICES = 8, DONE = 1, MAX_LINE = 128 };

/* Takes a step, and notes it. Returns whether it is to fail. */
static bool fails_at(const char *step, const char *file) {
    static atomic_long count;
    char line[MAX_LINE], what[8] = "";
    long at = 0;
    sscanf(getenv("LIE_FILES"), "%7[^:]:%ld", what, &at);
    bool is_here = ++count == at;
    if (is_here && !strcmp(what, "kill")) kill(getpid(), SIGKILL);
    snprintf(line, sizeof line, "%s %.*s", step, (int)strcspn(file, "."), file);
    note_line(line);
    if (is_here) errno = EIO;
    return is_here;
}

/* The name in its folder that a write in flight has, or NULL where a path is none. */
static const char *in_flight(const char *path) {
    const char *name = strrchr(path, '/') ? strrchr(path, '/') + 1 : path;
    return strstr(name, ".new-") ? name : NULL;
}

bool fails_in_files(int fd, const char *step) {
    char path[4096];
    if (!getenv("LIE_FILES")) return false;
    path_of(fd, path);
    if (in_flight(path)) return fails_at(step, in_flight(path));
    return !strcmp(step, "fsync") && is_target(fd) && fails_at(step, "folder");
}

void note_told(const void *bytes, size_t length) {
    uint64_t notice[2];
    char line[MAX_LINE];
    if (!getenv("LIE_FILES") || length > MOST_NOTICES * NOTICE) return; /* (an order is longer) */
    for (size_t at = 0; at + NOTICE <= length; at += NOTICE) {
        memcpy(notice, (const uint8_t *)bytes + at, NOTICE);
        if (be64toh(notice[0]) != DONE) return;
        snprintf(line, sizeof line, "told %llu", (unsigned long long)be64toh(notice[1]));
        note_line(line);
    }
}

int openat64(int folder, const char *path, int how, ...) {
    static int (*real)(int, const char *, int, ...);
    if (!real) *(void **)&real = dlsym(RTLD_NEXT, "openat64");
    va_list given;
    va_start(given, how);
    mode_t mode = how & O_CREAT ? va_arg(given, mode_t) : 0;
    va_end(given);
    if (getenv("LIE_NO_DIRECT") && how & O_DIRECT) return errno = EINVAL, -1;
    if (getenv("LIE_FILES") && how & O_EXCL && in_flight(path) && fails_at("create", in_flight(path))) return -1;
    return real(folder, path, how, mode);
}

int syncfs(int fd) {
    static int (*real)(int);
    if (!real) *(void **)&real = dlsym(RTLD_NEXT, "syncfs");
    return getenv("LIE_SYNCFS_FAILS") && is_target(fd) ? (errno = EIO, -1) : real(fd);
}

int renameat(int folder, const char *from, int other, const char *to) {
    static int (*real)(int, const char *, int, const char *);
    if (!real) *(void **)&real = dlsym(RTLD_NEXT, "renameat");
    if (getenv("LIE_FILES") && fails_at("rename", to)) return -1;
    return real(folder, from, other, to);
}
