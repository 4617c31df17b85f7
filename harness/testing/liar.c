/* A target that lies, in front of a harness that is tested: a library for LD_PRELOAD.
 *
 * LIE=KIND:EVERY[:FROM] harms each EVERYth write of a block, from the FROMth on. Kinds: lost; torn,
 * its first half alone; misdirected, to the block behind it; flipped, its last bit; late, behind
 * LIE_HELD further writes; failed, and not made; fallen, failed once the file LIE_UNTIL is there,
 * with LIE_FALLS_SLOWLY after seven seconds; doubtful, failed but made; short, half of it written
 * and told; slow, it takes a while, and with LIE_ENDS a line `came` tells its end; stalled, it
 * never comes back; cut, nor does it, and its first half is made, or of an atomic write all or
 * nothing, by turns (atomic_liar.c); forgotten, made, but with each of them the target loses a
 * block that this process hasn't written, as a line `forgotten` tells (forgetting.c). LIE=cached:N
 * is a drive with a volatile cache of N blocks: each write is told at once, whatever O_DSYNC says,
 * and another one, by chance, makes room for it; LIE_FLUSHES has fdatasync empty it. As its process
 * ends, it loses the rest. LIE_FLUSH_FAILS=N has the Nth fdatasync of the target empty nothing and
 * fail, and LIE_SYNC_FAILS each fsync of it. LIE_LOG=FILE has a line for each: `KIND BLOCK WRITE`,
 * in the order in which they were told: `made` or `atomic` for one that isn't harmed; LIE_SYNCS has
 * it tell each fsync, too: `synced PATH`, and LIE_READS and LIE_PLACES each read of the target, of which
 * more may be harmed (reading_liar.c). LIE_TARGET=NAME is the end of the target's path. LIE_PIECES
 * has standard output take five bytes at a time, with other threads' turn behind them. The kernel's
 * io_uring passes a library by: LIE_RING has one of this library's own in its place (ring_liar.c),
 * and without it there is none, so that the harness writes by threads. LIE_DIES=N kills the process
 * behind the Nth flush by that. LIE_LEAVES=link kills it once it has given a file a second name,
 * and LIE_LEAVES=rename once it has put another file in the place of one, behind that.
 * LIE_STOPS=before/NAME kills it before it puts a file at a place of that name,
 * LIE_STOPS=behind/NAME behind that. LIE_FILES is of files in a folder (files_liar.c). */
#include "liar.h"

#include <dlfcn.h>
#include <endian.h>
#include <errno.h>
#include <limits.h>
#include <pthread.h>
#include <sched.h>
#include <signal.h>
#include <stdarg.h>
#include <stdatomic.h>
#include <stdint.h>
#include <stdio.h>
#include <stdlib.h>
#include <string.h>
#include <unistd.h>

enum { MAX_HELD = 4096, WRITE_AT = 16, SLOW = 500000 };

static pthread_mutex_t lock = PTHREAD_MUTEX_INITIALIZER;
static writer *real_write;
static reader *real_read;
static char kind[32];
static long every, from, count;
static FILE *noted;
static struct { void *bytes; size_t length; off_t at; int fd; long due; } held[MAX_HELD];
static int held_count;

__attribute__((constructor)) static void begin(void) {
    *(void **)&real_write = dlsym(RTLD_NEXT, "pwrite64");
    *(void **)&real_read = dlsym(RTLD_NEXT, "pread64"); /* (of forgetting.c) */
    const char *lie = getenv("LIE"), *file = getenv("LIE_LOG");
    if (lie) sscanf(lie, "%31[^:]:%ld:%ld", kind, &every, &from);
    if (file && (noted = fopen(file, "ae"))) setvbuf(noted, NULL, _IOLBF, 4096);
}

void path_of(int fd, char path[4096]) {
    char link[64];
    snprintf(link, sizeof link, "/proc/self/fd/%d", fd);
    ssize_t length = readlink(link, path, 4095);
    path[length < 0 ? 0 : length] = 0;
}

bool is_target(int fd) {
    char path[4096];
    const char *name = getenv("LIE_TARGET");
    path_of(fd, path);
    return name && strlen(path) >= strlen(name) && strcmp(path + strlen(path) - strlen(name), name) == 0;
}

void note_line(const char *line) {
    if (noted) fprintf(noted, "%s\n", line);
}

static void note(const char *what, const void *bytes, size_t length, off_t at) {
    uint64_t write_number;
    memcpy(&write_number, (const char *)bytes + WRITE_AT, sizeof write_number);
    if (noted) fprintf(noted, "%s %lld %llu\n", what, (long long)at / (long long)length, (unsigned long long)be64toh(write_number));
}

static void *copy_of(const void *bytes, size_t length) {
    void *copy = NULL;
    if (posix_memalign(&copy, 4096, length)) abort();
    memcpy(copy, bytes, length);
    return copy;
}

/* Makes the held writes that are due. */
static void let_go(void) {
    for (int at = 0; at < held_count; at++) {
        if (held[at].due > count) continue;
        real_write(held[at].fd, held[at].bytes, held[at].length, held[at].at);
        free(held[at].bytes);
        held[at--] = held[--held_count];
    }
}

static ssize_t lie(int fd, const void *bytes, size_t length, off_t at) {
    const char *until = getenv("LIE_UNTIL");
    if (!strcmp(kind, "fallen")) {
        if (!until || access(until, F_OK)) return real_write(fd, bytes, length, at);
        if (getenv("LIE_FALLS_SLOWLY")) sleep(7);
        return errno = EIO, -1;
    }
    if (!strcmp(kind, "forgotten")) {
        forget_at_rest(fd, length, real_write, real_read, note);
        return real_write(fd, bytes, length, at);
    }
    if (!strcmp(kind, "lost")) return (ssize_t)length;
    if (!strcmp(kind, "torn")) return real_write(fd, bytes, length / 2, at), (ssize_t)length;
    if (!strcmp(kind, "misdirected")) return real_write(fd, bytes, length, at + (off_t)length), (ssize_t)length;
    if (!strcmp(kind, "short")) return real_write(fd, bytes, length / 2, at);
    if (!strcmp(kind, "doubtful")) real_write(fd, bytes, length, at);
    if (!strcmp(kind, "failed") || !strcmp(kind, "doubtful")) return errno = EIO, -1;
    char *copy = copy_of(bytes, length);
    if (!strcmp(kind, "late") && held_count < MAX_HELD) {
        const char *writes = getenv("LIE_HELD");
        held[held_count].bytes = copy, held[held_count].length = length, held[held_count].at = at;
        held[held_count].fd = fd, held[held_count++].due = count + (writes ? atol(writes) : 100);
        return (ssize_t)length;
    }
    copy[length - 1] ^= 1; /* flipped */
    ssize_t told = real_write(fd, copy, length, at);
    free(copy);
    return told;
}

/* Keeps a write in the cache, in the place of an earlier one to its block, or of one that then
 * lands. */
static void keep_cached(int fd, const void *bytes, size_t length, off_t at) {
    for (int place = 0; place < held_count; place++) {
        if (held[place].at != at) continue;
        memcpy(held[place].bytes, bytes, length);
        return;
    }
    if (held_count == every || held_count == MAX_HELD) {
        int place = (int)(random() % held_count);
        real_write(held[place].fd, held[place].bytes, held[place].length, held[place].at);
        free(held[place].bytes);
        held[place] = held[--held_count];
    }
    held[held_count].bytes = copy_of(bytes, length), held[held_count].length = length, held[held_count].at = at;
    held[held_count].fd = fd, held[held_count++].due = LONG_MAX;
}

int fdatasync(int fd) {
    static int (*real)(int);
    if (!real) *(void **)&real = dlsym(RTLD_NEXT, "fdatasync");
    static long flushes;
    const char *bad = getenv("LIE_FLUSH_FAILS");
    pthread_mutex_lock(&lock);
    bool fails = bad && is_target(fd) && ++flushes == atol(bad);
    if (!fails && getenv("LIE_FLUSHES"))
        for (int place = 0; place < held_count; place++) held[place].due = 0;
    let_go();
    pthread_mutex_unlock(&lock);
    return fails ? (errno = EIO, -1) : real(fd);
}

int fsync(int fd) {
    static int (*real)(int);
    char path[4096];
    if (!real) *(void **)&real = dlsym(RTLD_NEXT, "fsync");
    path_of(fd, path);
    if (noted && getenv("LIE_SYNCS")) fprintf(noted, "synced %s\n", path);
    if (fails_in_files(fd, "fsync") || (getenv("LIE_SYNC_FAILS") && is_target(fd))) return errno = EIO, -1;
    return real(fd);
}

/* Ends the process, where it is to leave here. */
static void leave_at(const char *step) {
    const char *leaves = getenv("LIE_LEAVES");
    if (leaves && !strcmp(leaves, step)) kill(getpid(), SIGKILL);
}

/* The same where it is to leave before it puts a file at this place, or behind that. */
static void leave_beside(const char *when, const char *place) {
    const char *leaves = getenv("LIE_STOPS");
    size_t length = strlen(when), end = leaves ? strlen(leaves) : 0;
    if (end <= length || strncmp(leaves, when, length)) return;
    if (strlen(place) + length >= end && !strcmp(place + strlen(place) - (end - length), leaves + length)) kill(getpid(), SIGKILL);
}

static atomic_bool has_linked;

int link(const char *from, const char *to) {
    static int (*real)(const char *, const char *);
    if (!real) *(void **)&real = dlsym(RTLD_NEXT, "link");
    int answer = real(from, to);
    has_linked = true;
    leave_at("link");
    return answer;
}

int rename(const char *from, const char *to) {
    static int (*real)(const char *, const char *);
    if (!real) *(void **)&real = dlsym(RTLD_NEXT, "rename");
    leave_beside("before", to);
    int answer = real(from, to);
    if (has_linked) leave_at("rename");
    leave_beside("behind", to);
    return answer;
}

ssize_t write(int fd, const void *bytes, size_t length) {
    static ssize_t (*real)(int, const void *, size_t);
    if (!real) *(void **)&real = dlsym(RTLD_NEXT, "write");
    if (fails_in_files(fd, "write")) return -1;
    note_told(bytes, length);
    if (fd != STDOUT_FILENO || length < 5 || !getenv("LIE_PIECES")) return real(fd, bytes, length);
    ssize_t told = real(fd, bytes, 5);
    sched_yield();
    return told;
}

long syscall(long number, ...) {
    static long (*real)(long, ...);
    if (!real) *(void **)&real = dlsym(RTLD_NEXT, "syscall");
    long words[6];
    va_list given;
    va_start(given, number);
    for (int at = 0; at < 6; at++) words[at] = va_arg(given, long);
    va_end(given);
    long answer;
    if (answers_for_ring(number, words, &answer)) return answer;
    return real(number, words[0], words[1], words[2], words[3], words[4], words[5]);
}

/* Makes what there is of a write when its drive is cut within it. */
static void cut_within(int fd, const void *bytes, size_t length, off_t at, bool is_atomic) {
    if (!is_atomic || count % 2) real_write(fd, bytes, is_atomic ? length : length / 2, at);
}

static ssize_t write_slowly(int fd, const void *bytes, size_t length, off_t at) {
    usleep(SLOW);
    ssize_t told = real_write(fd, bytes, length, at);
    if (getenv("LIE_ENDS")) note("came", bytes, length, at);
    return told;
}

ssize_t write_or_lie(int fd, const void *bytes, size_t length, off_t at, bool is_atomic, bool *never) {
    *never = false;
    if (!is_target(fd)) return real_write(fd, bytes, length, at);
    pthread_mutex_lock(&lock);
    if (!strcmp(kind, "cached")) {
        note(kind, bytes, length, at);
        keep_cached(fd, bytes, length, at);
        pthread_mutex_unlock(&lock);
        return (ssize_t)length;
    }
    int harms = every && ++count >= from && count % every == 0, cuts = harms && !strcmp(kind, "cut"), forgets = !strcmp(kind, "forgotten");
    if (forgets) note_write(length, at);
    note(harms && !forgets ? kind : is_atomic ? "atomic" : "made", bytes, length, at);
    *never = cuts || (harms && !strcmp(kind, "stalled"));
    if (cuts) cut_within(fd, bytes, length, at, is_atomic);
    if (*never || (harms && !strcmp(kind, "slow"))) {
        pthread_mutex_unlock(&lock);
        return *never ? 0 : write_slowly(fd, bytes, length, at);
    }
    ssize_t told = harms ? lie(fd, bytes, length, at) : real_write(fd, bytes, length, at);
    int why = errno;
    let_go();
    pthread_mutex_unlock(&lock);
    errno = why;
    return told;
}

ssize_t pwrite64(int fd, const void *bytes, size_t length, off_t at) {
    bool never;
    ssize_t told = write_or_lie(fd, bytes, length, at, false, &never);
    while (never) sleep(1000);
    return told;
}
