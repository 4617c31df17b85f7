#include "contents.h"

#include "say.h"

#include <errno.h>
#include <inttypes.h>
#include <stdio.h>
#include <stdlib.h>
#include <string.h>
#include <unistd.h>

/* A stamped sector: run 8, server 4, job 4, write 8, block 8, sector 4, and 476 bytes that count on
 * from the write's number. */
enum { SECTOR = 512, WRITE_END = 24, TAIL = 36, PAGE = 4096, LOOKED = 1 << 20, PROBES = 256 };

static bool is_zeros(const uint8_t *sector) {
    for (int at = 0; at < SECTOR; at++)
        if (sector[at]) return false;
    return true;
}

static bool is_stamp(const uint8_t *sector) {
    for (int at = TAIL; at < SECTOR; at++)
        if (sector[at] != (uint8_t)(sector[WRITE_END - 1] + (at - TAIL))) return false;
    return true;
}

bool is_of_a_run(const uint8_t *sector) {
    return is_zeros(sector) || is_stamp(sector);
}

/* Looks at the sectors of so many bytes from here on; a part of a sector at a file's end counts as
 * other bytes, unless it is zeros. */
static void look_at(const struct target *target, uint8_t *bytes, uint64_t from, size_t length) {
    ssize_t count = pread(target->fd, bytes, length, (off_t)from);
    if (count < 0) give_up_by_errno(target->name);
    memset(bytes + count, 0, SECTOR);
    for (ssize_t at = 0; at < count; at += SECTOR) {
        if (is_of_a_run(bytes + at)) continue;
        char why[160];
        snprintf(why, sizeof why, "it holds other bytes, at %" PRIu64 ": --yes writes over them", from + (uint64_t)at);
        give_up(target->name, why);
    }
}

/* Looks at a mebibyte, and the rest of a page. */
static void look(const struct target *target, uint8_t *bytes, uint64_t from) {
    look_at(target, bytes, from, LOOKED + PAGE);
}

/* Looks at blocks of a region: at what its first and last mebibyte has, and at some between them. */
static void look_at_region(const struct target *target, uint8_t *bytes, const struct region *region) {
    uint64_t step = region->blocks / PROBES + 1, last = end_of(region) > LOOKED ? (end_of(region) - LOOKED) / PAGE * PAGE : 0;
    look(target, bytes, region->offset / PAGE * PAGE);
    look(target, bytes, last);
    for (uint64_t block = 0; block < region->blocks; block += step) look_at(target, bytes, place_of(region, block) / PAGE * PAGE, region->block_size < LOOKED ? (region->block_size + PAGE - 1) / PAGE * PAGE : LOOKED);
}

void refuse_other_bytes(const struct target *target, const struct region *region) {
    void *bytes;
    if (posix_memalign(&bytes, PAGE, LOOKED + PAGE + SECTOR)) give_up("memory", strerror(ENOMEM));
    look(target, bytes, 0);
    if (target->size > LOOKED) look(target, bytes, (target->size - LOOKED) / PAGE * PAGE);
    if (region) look_at_region(target, bytes, region);
    free(bytes);
}
