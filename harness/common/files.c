#include "files.h"

#include "bytes.h"
#include "contents.h"
#include "say.h"

#include <dirent.h>
#include <errno.h>
#include <fcntl.h>
#include <inttypes.h>
#include <stdatomic.h>
#include <stdio.h>
#include <stdlib.h>
#include <string.h>
#include <sys/stat.h>
#include <unistd.h>

/* How the name of a block's file begins, and what stands between that and a number in the name that a
 * write has until it is renamed. So many files are looked at, and a page is what O_DIRECT wants at most. */
#define FRONT "block-"
#define BESIDE ".new-"
#define PROBE FRONT "0" BESIDE "0"
enum { MAX_NAME = 64, PROBES = 256, SECTOR = 512, PAGE = 4096 };

static void name_file(char name[MAX_NAME], uint64_t number) {
    snprintf(name, MAX_NAME, FRONT "%" PRIu64, number);
}

/* Whether a run gives files this name, and whether it is that of a write in flight. */
static bool is_own_name(const char *name, bool *is_beside) {
    char own[MAX_NAME];
    if (strncmp(name, FRONT, strlen(FRONT))) return false;
    name_file(own, strtoull(name + strlen(FRONT), NULL, 10));
    const size_t length = strlen(own);
    if (strncmp(name, own, length)) return false;
    *is_beside = !strncmp(name + length, BESIDE, strlen(BESIDE));
    const char *rest = name + length + (*is_beside ? strlen(BESIDE) : 0);
    return *is_beside ? *rest && !rest[strspn(rest, "0123456789")] : !*rest;
}

static _Noreturn void refuse_file(const struct target *target, const char *name, const char *why) {
    char words[MAX_NAME + 200];
    snprintf(words, sizeof words, "%.63s in it %s", name, why);
    give_up(target->name, words);
}

/* Refuses a file that begins with other bytes than a run's. */
static void refuse_bytes(const struct target *target, const char *name) {
    uint8_t sector[SECTOR] = {0};
    int fd = openat(target->fd, name, O_RDONLY | O_NOFOLLOW | O_CLOEXEC);
    if (fd < 0 || read_all(fd, sector, sizeof sector) < 0) refuse_file(target, name, strerror(errno));
    close(fd);
    if (!is_of_a_run(sector)) refuse_file(target, name, "holds other bytes: --yes writes over them");
}

/* Whether a name is that of a file. */
static bool is_file(const struct target *target, const char *name) {
    struct stat is;
    return fstatat(target->fd, name, &is, AT_SYMLINK_NOFOLLOW) == 0 && S_ISREG(is.st_mode);
}

/* Refuses a folder whose files take no O_DIRECT, before the first write: a check would find that out. */
static void refuse_cached(const struct target *target) {
    int fd = openat(target->fd, PROBE, O_RDWR | O_CREAT | O_CLOEXEC | O_DIRECT, 0644), why = errno;
    if (fd >= 0) close(fd);
    unlinkat(target->fd, PROBE, 0); /* (it may be there though it couldn't be opened) */
    if (fd < 0) give_up(target->name, why == EINVAL ? NO_DIRECT : strerror(why));
}

/* Looks at each name that isn't the folder's own, or removes those of writes that were in flight. */
static void go_through(const struct target *target, bool removes, bool yes) {
    int fd = openat(target->fd, ".", O_RDONLY | O_DIRECTORY | O_CLOEXEC), looked_at = 0;
    DIR *names = fd < 0 ? NULL : fdopendir(fd);
    if (!names) give_up_by_errno(target->name);
    for (struct dirent *it; (it = readdir(names));) {
        bool is_beside = false;
        if (!strcmp(it->d_name, ".") || !strcmp(it->d_name, "..")) continue;
        if (!is_own_name(it->d_name, &is_beside)) refuse_file(target, it->d_name, "is no file of a run's: take a folder that holds nothing else");
        if (removes && is_beside && unlinkat(target->fd, it->d_name, 0)) give_up_by_errno(target->name);
        if (removes) continue;
        if (!is_file(target, it->d_name)) refuse_file(target, it->d_name, "is no file: take a folder that holds nothing else");
        if (!yes && !is_beside && looked_at++ < PROBES) refuse_bytes(target, it->d_name);
    }
    closedir(names);
}

void make_folder(const char *name) {
    if (mkdir(name, 0755)) give_up_by_errno(name);
}

void take_folder(const struct target *target, bool yes) {
    go_through(target, false, yes);
    go_through(target, true, yes);
    if (target->is_direct) refuse_cached(target);
    if (sync_folder(target->name)) give_up_by_errno(target->name);
}

/* Closes what is open. Returns whether all went well until then and by that, and else leaves errno. */
static bool close_well(int fd, bool is_well) {
    const int why = errno;
    if (fd >= 0 && close(fd) && is_well) return false;
    errno = why;
    return is_well;
}

ssize_t write_block_file(const struct target *target, const void *bytes, size_t length, uint64_t place) {
    static atomic_uint count; /* (what is in flight to one block may be written twice at once) */
    const bool syncs = target->is_direct;
    char name[MAX_NAME], beside[2 * MAX_NAME];
    name_file(name, place / length);
    snprintf(beside, sizeof beside, "%s" BESIDE "%u", name, atomic_fetch_add(&count, 1));
    /* (it has the folder open for itself: an error is told once to each that has) */
    int folder = openat(target->fd, ".", O_RDONLY | O_DIRECTORY | O_CLOEXEC);
    int fd = folder < 0 ? -1 : openat(folder, beside, O_WRONLY | O_CREAT | O_EXCL | O_CLOEXEC, 0644);
    bool is_done = fd >= 0 && write_all(fd, bytes, length) == 0;
    is_done = is_done && (!syncs || fsync(fd) == 0);
    is_done = close_well(fd, is_done);
    is_done = is_done && renameat(folder, beside, folder, name) == 0;
    is_done = is_done && (!syncs || fsync(folder) == 0);
    return close_well(folder, is_done) ? (ssize_t)length : -1;
}

/* Reads an open file whole. */
static bool read_whole(int fd, void *bytes, size_t length, char why[MAX_UNREAD]) {
    struct stat is;
    if (fstat(fd, &is)) snprintf(why, MAX_UNREAD, "%s", strerror(errno));
    else if (!S_ISREG(is.st_mode)) snprintf(why, MAX_UNREAD, "there is no file");
    else if (is.st_size != (off_t)length) snprintf(why, MAX_UNREAD, "its file has %lld bytes, and not %zu", (long long)is.st_size, length);
    else {
        const ssize_t count = pread(fd, bytes, (length + PAGE - 1) / PAGE * PAGE, 0);
        if (count == (ssize_t)length) return true;
        snprintf(why, MAX_UNREAD, "%s", count < 0 ? strerror(errno) : "its file ends early");
    }
    return false;
}

bool read_block_file(const struct target *target, void *bytes, size_t length, uint64_t place, char why[MAX_UNREAD]) {
    char name[MAX_NAME];
    name_file(name, place / length);
    int fd = openat(target->fd, name, O_RDONLY | O_NOFOLLOW | O_NONBLOCK | O_CLOEXEC | (target->is_direct ? O_DIRECT : 0));
    if (fd < 0 && errno == ENOENT) {
        memset(bytes, 0, length);
        return true;
    }
    if (fd < 0) snprintf(why, MAX_UNREAD, "%s", strerror(errno));
    if (fd < 0 && target->is_direct && errno == EINVAL && is_file(target, name)) give_up(target->name, NO_DIRECT);
    bool is_read = fd >= 0 && read_whole(fd, bytes, length, why);
    if (fd >= 0) close(fd);
    return is_read;
}

void flush_files(const struct target *target) {
    char why[128];
    if (syncfs(target->fd) == 0) return;
    snprintf(why, sizeof why, CANT_FLUSH ": %s", strerror(errno));
    give_up(target->name, why);
}
