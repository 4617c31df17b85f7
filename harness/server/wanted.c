#include "wanted.h"

#include "say.h"
#include "taken.h"

#include <errno.h>
#include <stdlib.h>
#include <string.h>
#include <unistd.h>

/* What O_DIRECT wants of a place in memory; and nobody wants more at once than LONGEST bytes. */
enum { PAGE = 4096, LONGEST = 64 << 20 };

struct want want_in(const uint8_t *bytes) {
    return (struct want){get_32(bytes), get_32(bytes + 4), get_32(bytes + 8), get_32(bytes + 12)};
}

bool is_want(const struct want *want) {
    return want->count && want->block_size && want->count <= LONGEST / want->block_size;
}

/* Reads blocks into these bytes, and returns how many bytes of whole ones came before what can't be
 * read, or -1 with errno where there is none. */
static ssize_t read_blocks(const struct lane *lane, const struct want *want, uint8_t *bytes) {
    uint64_t stride = lane->stride ? lane->stride : want->block_size;
    bool is_one_piece = stride == want->block_size;
    off_t place = (off_t)(lane->offset + want->first * stride);
    ssize_t have = is_one_piece ? pread(lane->target->fd, bytes, (size_t)want->count * want->block_size, place) : 0, count = have;
    if (have < 0) have = 0;
    have -= have % want->block_size;
    while (have < (ssize_t)want->count * want->block_size) { /* one by one, up to what can't be read */
        uint32_t at = (uint32_t)(have / want->block_size);
        count = pread(lane->target->fd, bytes + have, want->block_size, (off_t)(lane->offset + (want->first + at) * stride));
        if (count != want->block_size) break;
        have += count;
    }
    if (have == 0 && count >= 0) errno = ENODATA;
    return have ? have : -1;
}

struct found read_wanted(struct lane *lanes, size_t lane_count, const struct want *want) {
    if (want->job >= lane_count) return (struct found){.name = "no target", .why = "there is none for that job"};
    struct found found = {.name = lanes[want->job].target->name};
    rest_lanes(lanes, lane_count);
    if (posix_memalign(&found.bytes, PAGE, (size_t)want->count * want->block_size)) give_up("memory", strerror(ENOMEM));
    ssize_t have = read_blocks(&lanes[want->job], want, found.bytes);
    if (have < 0) {
        found.why = errno == ENODATA ? "the target ends there" : strerror(errno);
        free(found.bytes);
        found.bytes = NULL;
    }
    found.length = have < 0 ? 0 : (size_t)have;
    return found;
}
