#include "flushed.h"

#include "taken.h"

#include <errno.h>
#include <inttypes.h>
#include <stdio.h>
#include <string.h>
#include <unistd.h>

bool have_flushed(struct lane *lanes, size_t lane_count, uint32_t job, char words[FLUSHED_WORDS]) {
    char drive[MAX_DRIVE];
    if (job >= lane_count) {
        snprintf(words, FLUSHED_WORDS, "there is no target for that job");
        return false;
    }
    const struct lane *lane = &lanes[job];
    rest_lanes(lanes, lane_count);
    if (fsync(lane->target->fd)) {
        snprintf(words, FLUSHED_WORDS, "%.200s: " CANT_FLUSH ": %s", lane->target->name, strerror(errno));
        return false;
    }
    tell_drive(lane->target, drive);
    snprintf(words, FLUSHED_WORDS, "offset %" PRIu64 " stride %" PRIu64 " of %s", lane->offset, lane->stride, *drive ? drive : "-");
    return true;
}
