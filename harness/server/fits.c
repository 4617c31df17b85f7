#include "fits.h"

#include <inttypes.h>
#include <stdio.h>
#include <sys/stat.h>

bool is_fit(const struct lane *lane, uint64_t block_size, char why[MOST_WHY]) {
    if (!lane->target) {
        snprintf(why, MOST_WHY, "job %" PRIu32 " has no target", lane->job);
        return false;
    }
    bool lies = lane->offset % block_size == 0 && (lane->stride == 0 || (lane->stride % block_size == 0 && lane->stride >= block_size));
    const struct atomic_unit *unit = &lane->target->unit;
    bool tears = may_tear(lane->target, block_size) && !lane->torn;
    bool is_written = !lane->target->is_atomic || is_atomic_size(unit, block_size);
    if (!lies) snprintf(why, MOST_WHY, "job %" PRIu32 ": blocks of %" PRIu64 " bytes don't lie at its offset and stride", lane->job, block_size);
    else if (tears)
        snprintf(why, MOST_WHY, "job %" PRIu32 ": a cut may tear a block of %" PRIu64 " bytes, as %s writes %" PRIu64 " whole: --torn takes that", lane->job, block_size, lane->target->name, lane->target->whole);
    if (lies && !is_written) snprintf(why, MOST_WHY, "job %" PRIu32 ": an atomic write to %s has %" PRIu64 " to %" PRIu64 " bytes, a power of two, and a block has %" PRIu64, lane->job, lane->target->name, unit->least, unit->most, block_size);
    return lies && !tears && is_written;
}

/* Where the blocks of a job lie. */
static struct region region_of_wish(const struct lane *lanes, const struct wish *wish) {
    const struct lane *lane = &lanes[wish->job];
    return (struct region){wish->block_size, wish->blocks, lane->offset, lane->stride ? lane->stride : wish->block_size};
}

/* Whether two regions have a byte in common: of each block of the first, whether a block of the second
 * begins before its end and ends behind its front. */
static bool meet(const struct region *one, const struct region *other) {
    for (uint64_t block = 0; block < one->blocks; block++) {
        uint64_t front = place_of(one, block), end = front + one->block_size;
        if (end <= other->offset) continue;
        /* (the last block of the other that begins before this one ends) */
        uint64_t last = (end - 1 - other->offset) / other->stride;
        if (last >= other->blocks) last = other->blocks - 1;
        if (place_of(other, last) + other->block_size > front) return true;
    }
    return false;
}

/* Whether a device is long enough. A file grows as it is written. */
static bool is_long_enough(const struct target *target, const struct region *region) {
    struct stat is;
    return fstat(target->fd, &is) || !S_ISBLK(is.st_mode) || end_of(region) <= target->size;
}

static bool is_one_fit(const struct lane *lanes, size_t lane_count, const struct wish *wish, char why[MOST_WHY]) {
    if (wish->job >= lane_count || !wish->block_size || !wish->blocks) {
        snprintf(why, MOST_WHY, "there is no job %" PRIu32 " of such blocks", wish->job);
        return false;
    }
    const struct lane *lane = &lanes[wish->job];
    if (!is_fit(lane, wish->block_size, why)) return false;
    struct region region = region_of_wish(lanes, wish);
    if (is_long_enough(lane->target, &region)) return true;
    snprintf(why, MOST_WHY, "job %" PRIu32 ": it wants %" PRIu64 " bytes of %s, which has %" PRIu64, wish->job, end_of(&region), lane->target->name, lane->target->size);
    return false;
}

bool are_fit(const struct lane *lanes, size_t lane_count, const struct wish *wishes, size_t count, char why[MOST_WHY]) {
    for (size_t at = 0; at < count; at++) {
        if (!is_one_fit(lanes, lane_count, &wishes[at], why)) return false;
        struct region region = region_of_wish(lanes, &wishes[at]);
        for (size_t other = 0; other < at; other++) {
            struct region before = region_of_wish(lanes, &wishes[other]);
            if (lanes[wishes[at].job].target != lanes[wishes[other].job].target || !meet(&region, &before)) continue;
            snprintf(why, MOST_WHY, "jobs %" PRIu32 " and %" PRIu32 " write to the same bytes of %s", wishes[other].job, wishes[at].job, lanes[wishes[at].job].target->name);
            return false;
        }
    }
    return true;
}
