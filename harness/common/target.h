/* The file or block device that is tested. */
#ifndef TARGET_H
#define TARGET_H

#include "atomic.h"
#include "region.h"

#include <stdbool.h>
#include <sys/types.h>

/* How a target is to be opened. */
struct opening {
    const char *name;
    bool cached;  /* as any program opens it, without O_DIRECT and O_DSYNC */
    bool flushed; /* without O_DSYNC: who writes makes it keep what was written */
    bool yes;     /* over what it holds */
    bool torn;    /* also for blocks larger than what it writes whole */
    bool atomic;  /* each block by an atomic write, of the sizes that the system tells of */
    bool files;   /* it is a folder, and each block a file of its own: files.h */
    const char *drive; /* the drive that it has to be, as `tell_drive` tells it; NULL: any */
};

struct target {
    int fd;
    const char *name;
    uint64_t size; /* of a device, and of a file as it is once it is open; of a folder up to the region's end */
    bool is_direct;     /* of a folder: its files are read so, and written with an fsync of each */
    bool is_folder;     /* each block is a file in it: files.h */
    dev_t device;       /* a device itself, or that of the file system where a file lies */
    uint64_t whole;     /* how many bytes its device writes whole, or 0 where nobody tells; of
                         * atomic writes the most that one may have */
    struct atomic_unit unit; /* what is told of atomic writes to it */
    bool is_atomic;          /* its blocks are written by these */
    /* What its device says of its cache: "write back" or "write through", or nothing. */
    char cache[32];
};

/* Opens a target for writes to a region. A file that isn't there is made, as large as the region
 * wants, but never below /dev. Refused are what is mounted, in use, or tested by another harness; a
 * device that is too short; what holds other bytes than zeros and stamps, unless `yes` is set;
 * blocks that are larger than what the device writes whole, unless `torn` is; and with `atomic`
 * those that are no atomic write. Before this has returned, no byte of what was there has
 * changed. */
struct target open_to_write(const struct opening *opening, const struct region *region);

/* The same where the region isn't known yet: a file that is made is empty, and nothing is refused
 * for its blocks or their number; nor for what it holds, which is for who calls to look at, unless it is
 * new. */
struct target open_for_later(const struct opening *opening, bool *is_new);

/* Whether a cut may tear a block of so many bytes, by what is told of its device. */
bool may_tear(const struct target *target, uint64_t block_size);

/* Opens a target for a check of a region. */
struct target open_to_read(const struct opening *opening, const struct region *region);

/* What is said of a target that is to be opened past the cache, and can't be. */
#define NO_DIRECT "it takes no O_DIRECT; --cached does without"

/* What is said of a target whose cache can't be written out. */
#define CANT_FLUSH "it can't be flushed"

/* Has its cache written out, so that what is read from then on stays. Where it can't be, the harness
 * gives up. */
void flush_target(const struct target *target);

#endif
