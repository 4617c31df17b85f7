/* How a target is read, a part of the liar. LIE_READS tells each read of it: `read NAME`, and LIE_PLACES where:
 * `read at BYTE, LENGTH`. LIE_UNREADABLE=BYTE,BYTE.. fails each read of the target that has one of these bytes, and
 * LIE_READS_FALL each one while the file LIE_UNTIL is there. LIE_TOGETHER=N has the first N reads wait for each
 * other, up to eight seconds, and end in the opposite order; a line `alone` tells where one of them hasn't
 * N - 1 others. */
#include "liar.h"

#include <dlfcn.h>
#include <errno.h>
#include <pthread.h>
#include <stdio.h>
#include <stdlib.h>
#include <string.h>
#include <time.h>
#include <unistd.h>

enum { LONGEST = 8000, A_STEP = 2000 };

static pthread_mutex_t lock = PTHREAD_MUTEX_INITIALIZER;
static long begun, ended;

/* The reads so far that have begun, or that have ended. */
static long look(const long *count) {
    pthread_mutex_lock(&lock);
    long now = *count;
    pthread_mutex_unlock(&lock);
    return now;
}

/* Waits for N reads to have begun, and then for those that began behind this one to end. */
static void wait_for_others(long most) {
    pthread_mutex_lock(&lock);
    const long own = begun++;
    pthread_mutex_unlock(&lock);
    if (own >= most) return;
    for (int step = 0; step < LONGEST / 2 && look(&begun) < most; step++) usleep(A_STEP);
    if (look(&begun) < most) note_line("alone");
    for (int step = 0; step < LONGEST / 2 && look(&ended) < most - 1 - own; step++) usleep(A_STEP);
    pthread_mutex_lock(&lock);
    ended++;
    pthread_mutex_unlock(&lock);
}

/* Whether a read has one of the bytes that can't be read. */
static bool is_unreadable(size_t length, off_t at) {
    const char *bad = getenv("LIE_UNREADABLE");
    for (; bad; bad = strchr(bad, ',') ? strchr(bad, ',') + 1 : NULL)
        if (at <= atoll(bad) && atoll(bad) < at + (off_t)length) return true;
    return false;
}

static void note_read(size_t length, off_t at) {
    char line[128];
    snprintf(line, sizeof line, "read %s", getenv("LIE_TARGET"));
    if (getenv("LIE_READS")) note_line(line);
    snprintf(line, sizeof line, "read at %lld, %zu", (long long)at, length);
    if (getenv("LIE_PLACES")) note_line(line);
}

ssize_t read_or_lie(int fd, void *bytes, size_t length, off_t at) {
    static reader *real;
    const char *until = getenv("LIE_UNTIL"), *together = getenv("LIE_TOGETHER");
    if (!real) *(void **)&real = dlsym(RTLD_NEXT, "pread64");
    if (!is_target(fd)) return real(fd, bytes, length, at);
    note_read(length, at);
    if (getenv("LIE_READS_FALL") && until && access(until, F_OK) == 0) return errno = EIO, -1;
    ssize_t count = is_unreadable(length, at) ? (errno = EIO, -1) : real(fd, bytes, length, at);
    int why = errno;
    if (together) wait_for_others(atol(together));
    errno = why;
    return count;
}

ssize_t pread64(int fd, void *bytes, size_t length, off_t at) {
    return read_or_lie(fd, bytes, length, at);
}
