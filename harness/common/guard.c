#include "guard.h"

#include "bytes.h"
#include "say.h"

#include <glob.h>
#include <inttypes.h>
#include <limits.h>
#include <linux/fs.h>
#include <linux/magic.h>
#include <stdio.h>
#include <string.h>
#include <sys/ioctl.h>
#include <sys/stat.h>
#include <sys/vfs.h>

static bool is_file(const struct stat *is, const char *path) {
    struct stat its;
    return stat(path, &its) == 0 && its.st_dev == is->st_dev && its.st_ino == is->st_ino;
}

/* Whether a loop device lies over a file: what is mounted of that would be written over. */
static bool is_below_loop(const struct stat *is) {
    glob_t found;
    bool is_below = false;
    if (glob("/sys/block/loop*/loop/backing_file", 0, NULL, &found)) return false;
    for (size_t at = 0; at < found.gl_pathc; at++) {
        char path[PATH_MAX] = "";
        if (read_file(found.gl_pathv[at], path, sizeof path - 1) <= 0) continue;
        path[strcspn(path, "\n")] = 0;
        is_below = is_below || is_file(is, path);
    }
    globfree(&found);
    return is_below;
}

static bool is_swap(const struct stat *is) {
    FILE *swaps = fopen("/proc/swaps", "r");
    char line[PATH_MAX + 128], path[PATH_MAX];
    bool is_one = false;
    while (swaps && fgets(line, sizeof line, swaps)) is_one = is_one || (sscanf(line, "%4095s", path) == 1 && is_file(is, path));
    if (swaps) fclose(swaps);
    return is_one;
}

static void refuse_device(const struct target *target, uint64_t block_size) {
    int sector = 0, is_read_only = 0;
    char why[120];
    if (ioctl(target->fd, BLKROGET, &is_read_only) == 0 && is_read_only) give_up(target->name, "it is read-only");
    if (ioctl(target->fd, BLKSSZGET, &sector) || sector <= 0 || block_size % (uint64_t)sector == 0) return;
    snprintf(why, sizeof why, "it takes blocks of %d bytes and multiples, and not of %" PRIu64, sector, block_size);
    give_up(target->name, why);
}

static void refuse_file(const struct target *target, const struct stat *is, const struct opening *opening) {
    struct statfs system;
    if (is_swap(is)) give_up(target->name, "it is used for swap");
    if (is_below_loop(is)) give_up(target->name, "a loop device lies over it");
    bool is_memory = fstatfs(target->fd, &system) == 0 && ((unsigned long)system.f_type == TMPFS_MAGIC || (unsigned long)system.f_type == RAMFS_MAGIC);
    if (is_memory && !opening->cached) give_up(target->name, "it lies in memory, which no cut tests; --cached takes it");
}

void refuse_unfit(const struct target *target, const struct opening *opening, uint64_t block_size) {
    struct stat is;
    if (fstat(target->fd, &is)) give_up_by_errno(target->name);
    if (S_ISBLK(is.st_mode)) refuse_device(target, block_size);
    else refuse_file(target, &is, opening);
}
