#include "target.h"

#include "bytes.h"
#include "contents.h"
#include "files.h"
#include "guard.h"
#include "identity.h"
#include "say.h"

#include <errno.h>
#include <fcntl.h>
#include <inttypes.h>
#include <libgen.h>
#include <limits.h>
#include <stdio.h>
#include <stdlib.h>
#include <string.h>
#include <sys/file.h>
#include <sys/stat.h>
#include <sys/sysmacros.h>
#include <time.h>
#include <unistd.h>

/* Reads what the system tells of a device's queue. Above a partition stands its device. */
static void read_queue(dev_t device, const char *field, char *text, size_t size) {
    char path[256];
    memset(text, 0, size);
    for (int up = 0; up < 2; up++) {
        snprintf(path, sizeof path, "/sys/dev/block/%u:%u/%squeue/%s", major(device), minor(device), up ? "../" : "", field);
        if (read_file(path, text, size - 1) > 0) break;
    }
    text[strcspn(text, "\n")] = 0;
}

/* A file that isn't there may be made. Below /dev a name that is gone is a drive's: what is made
 * there lies in memory. */
static void refuse_below_dev(const char *name) {
    char copy[PATH_MAX], folder[PATH_MAX];
    if ((size_t)snprintf(copy, sizeof copy, "%s", name) >= sizeof copy) give_up(name, strerror(ENAMETOOLONG));
    if (!realpath(dirname(copy), folder)) give_up_by_errno(name);
    if (!strcmp(folder, "/dev") || !strncmp(folder, "/dev/", 5)) give_up(name, "there is no such device, and no file is made below /dev");
}

/* Returns how a folder is to be opened. One that isn't there is made. */
static int way_to_folder(const struct opening *opening, bool writes, bool *is_new) {
    struct stat is;
    *is_new = stat(opening->name, &is) != 0;
    if (*is_new && (!writes || errno != ENOENT || opening->drive)) give_up_by_errno(opening->name);
    if (*is_new) refuse_below_dev(opening->name), make_folder(opening->name);
    else if (!S_ISDIR(is.st_mode)) give_up(opening->name, "it is no folder, as --files wants");
    return O_RDONLY | O_DIRECTORY | O_CLOEXEC;
}

/* Returns how the target is to be opened, by what stands there now. */
static int way_to_open(const struct opening *opening, bool writes, bool *is_new) {
    int how = O_CLOEXEC | O_NOCTTY | (opening->cached ? 0 : O_DIRECT);
    how |= writes ? O_RDWR | (opening->cached || opening->flushed ? 0 : O_DSYNC) : O_RDONLY;
    struct stat is;
    if (opening->files) return way_to_folder(opening, writes, is_new);
    *is_new = stat(opening->name, &is) != 0;
    if (*is_new && (!writes || errno != ENOENT || opening->drive)) give_up_by_errno(opening->name);
    if (*is_new) {
        refuse_below_dev(opening->name);
        return how | O_CREAT | O_EXCL;
    }
    if (!S_ISREG(is.st_mode) && !S_ISBLK(is.st_mode)) give_up(opening->name, "it is neither a file nor a block device");
    return S_ISBLK(is.st_mode) ? how | O_EXCL : how;
}

/* Notes what there is to know of a target that is open. */
static void look_at(struct target *target, const struct stat *is) {
    char whole[32];
    off_t end = S_ISBLK(is->st_mode) ? lseek(target->fd, 0, SEEK_END) : is->st_size;
    if (end < 0) give_up_by_errno(target->name);
    target->size = (uint64_t)end;
    target->device = S_ISBLK(is->st_mode) ? is->st_rdev : is->st_dev;
    if (target->is_folder) return;
    read_queue(target->device, "physical_block_size", whole, sizeof whole);
    target->whole = strtoull(whole, NULL, 10);
    read_queue(target->device, "write_cache", target->cache, sizeof target->cache);
    target->unit = atomic_unit_of(target->fd, S_ISBLK(is->st_mode) ? is->st_rdev : 0);
}

/* Has the target for itself, or with others that read it. A harness that was just killed may still
 * be ending: it is waited for, two seconds at most. */
static void lock_target(const struct target *target, bool writes) {
    for (int look = 0; flock(target->fd, (writes ? LOCK_EX : LOCK_SH) | LOCK_NB); look++) {
        if (errno != EWOULDBLOCK) give_up_by_errno(target->name);
        if (look == 200) give_up(target->name, "another harness is at work on it");
        nanosleep(&(struct timespec){0, 10000000}, NULL);
    }
}

/* Refuses another drive than the one that it has to be, where both are known. */
static void refuse_other(const struct target *target, const char *wanted) {
    char drive[MAX_DRIVE], why[MAX_DRIVE + 40];
    tell_drive(target, drive);
    if (!*drive || !strcmp(drive, wanted)) return;
    snprintf(why, sizeof why, "it is another drive (%s)", drive);
    give_up(target->name, why);
}

static struct target open_target(const struct opening *opening, bool writes, bool *is_new) {
    struct target target = {.name = opening->name, .is_direct = !opening->cached, .is_folder = opening->files};
    struct stat is;
    target.fd = open(target.name, way_to_open(opening, writes, is_new), 0644);
    if (target.fd < 0 && errno == EINVAL) give_up(target.name, NO_DIRECT);
    if (target.fd < 0 && errno == EBUSY) give_up(target.name, "it is mounted, or in use");
    if (target.fd < 0 || fstat(target.fd, &is)) give_up_by_errno(target.name);
    lock_target(&target, writes);
    look_at(&target, &is);
    if (opening->drive) refuse_other(&target, opening->drive);
    return target;
}

static bool is_device(const struct target *target) {
    struct stat is;
    return fstat(target->fd, &is) == 0 && S_ISBLK(is.st_mode);
}

bool may_tear(const struct target *target, uint64_t block_size) {
    return target->whole > 0 && block_size > target->whole;
}

/* Refuses blocks that may be torn by a cut, where that is known. */
static void refuse_torn(const struct target *target, uint64_t block_size, bool torn) {
    if (target->whole == 0) say("nobody tells how many bytes %s writes whole", target->name);
    if (may_tear(target, block_size) && !torn) {
        char why[200];
        const char *other = is_atomic_size(&target->unit, block_size) ? ", --atomic" : "";
        snprintf(why, sizeof why, "a block of %" PRIu64 " bytes may be torn, as it writes %" PRIu64 " whole: take bs=%" PRIu64 "%s, or --torn, and --unit %" PRIu64 " for the check", block_size, target->whole, target->whole, other, target->whole);
        give_up(target->name, why);
    }
}

/* Has blocks written by atomic writes: the most that one may have is then what the target writes
 * whole. */
static void make_atomic(struct target *target) {
    target->is_atomic = true, target->whole = target->unit.most;
}

/* Refuses blocks that are no atomic write. */
static void refuse_other_sizes(const struct target *target, uint64_t block_size) {
    char why[200];
    const struct atomic_unit *unit = &target->unit;
    if (unit->most) snprintf(why, sizeof why, "--atomic: an atomic write to it has %" PRIu64 " to %" PRIu64 " bytes, a power of two, and a block has %" PRIu64, unit->least, unit->most, block_size);
    else snprintf(why, sizeof why, "--atomic: the system tells of no atomic write to it (0 bytes), and a block has %" PRIu64, block_size);
    if (!is_atomic_size(unit, block_size)) give_up(target->name, why);
}

/* Makes a file as large as the region wants, and has the disk keep that. */
static void make_room(struct target *target, uint64_t bytes) {
    if (ftruncate(target->fd, (off_t)bytes) || fsync(target->fd) || sync_folder(target->name)) give_up_by_errno(target->name);
    target->size = bytes;
}

struct target open_for_later(const struct opening *opening, bool *is_new) {
    struct target target = open_target(opening, true, is_new);
    refuse_unfit(&target, opening, 0);
    if (*is_new) make_room(&target, 0);
    if (opening->atomic && !target.unit.most) give_up(target.name, "--atomic: the system tells of no atomic write to it");
    if (opening->atomic) make_atomic(&target);
    return target;
}

struct target open_to_write(const struct opening *opening, const struct region *region) {
    bool is_new;
    struct target target = open_target(opening, true, &is_new);
    refuse_unfit(&target, opening, region->block_size);
    if (target.is_folder) {
        take_folder(&target, opening->yes);
        target.size = end_of(region);
        return target;
    }
    if (!is_new && !opening->yes) refuse_other_bytes(&target, region);
    if (is_device(&target) && target.size < end_of(region)) give_up(target.name, "it is shorter than the job's region");
    if (opening->atomic) refuse_other_sizes(&target, region->block_size), make_atomic(&target);
    refuse_torn(&target, region->block_size, opening->torn);
    if (target.size < end_of(region)) make_room(&target, end_of(region));
    return target;
}

struct target open_to_read(const struct opening *opening, const struct region *region) {
    bool is_new;
    struct target target = open_target(opening, false, &is_new);
    if (target.is_folder) target.size = end_of(region);
    return target;
}

void flush_target(const struct target *target) {
    char why[128];
    if (target->is_folder) flush_files(target);
    if (fsync(target->fd) == 0) return;
    snprintf(why, sizeof why, CANT_FLUSH ": %s", strerror(errno));
    give_up(target->name, why);
}
