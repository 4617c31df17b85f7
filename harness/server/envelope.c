#include "envelope.h"

#include "bytes.h"
#include "clock.h"
#include "record.h"
#include "say.h"
#include "sum.h"

#include <errno.h>
#include <poll.h>
#include <stdlib.h>
#include <string.h>
#include <unistd.h>

/* Where its length and its sum stand in a head, and where the length of the rest stands in a frame's
 * head. What has begun to come has to be there within so many milliseconds. */
enum { LENGTH_AT = 4, SUM_AT = 8, REST_AT = 12, WITHIN = 5000 };

static const uint8_t MAGIC[LENGTH_AT] = {'F', 'L', 2, 0};

bool is_query(const uint8_t *bytes) {
    return memcmp(bytes, "FH", 2) == 0;
}

static uint32_t sum_of(const uint8_t head[LINK_HEAD], const uint8_t *bytes, size_t length) {
    return zip_sum_over(zip_sum_over(0, head, SUM_AT), bytes, length);
}

void put_link_head(uint8_t head[LINK_HEAD], const uint8_t *bytes, size_t length) {
    memcpy(head, MAGIC, sizeof MAGIC);
    put_32(head + LENGTH_AT, (uint32_t)length);
    put_32(head + SUM_AT, sum_of(head, bytes, length));
}

/* Reads so many bytes, all within the time that one envelope has. */
static bool read_within(int link, uint8_t *bytes, size_t length, uint64_t until) {
    while (length > 0) {
        uint64_t now = milliseconds();
        int ready = now < until ? poll(&(struct pollfd){link, POLLIN, 0}, 1, (int)(until - now)) : 0;
        if (ready < 0 && errno == EINTR) continue;
        ssize_t count = ready > 0 ? read(link, bytes, length) : 0;
        if (count <= 0) return false;
        bytes += count, length -= (size_t)count;
    }
    return true;
}

/* Whether a head is one, and says how long the rest is. */
static bool is_head(const uint8_t head[LINK_HEAD], size_t *length) {
    *length = get_32(head + LENGTH_AT);
    return !memcmp(head, MAGIC, sizeof MAGIC) && *length >= FRAME_HEAD && *length <= LONGEST_QUERY;
}

/* Whether bytes are a frame or a query, whole. */
static bool is_whole(const uint8_t *bytes, size_t length) {
    bool is_known = is_query(bytes) || (!memcmp(bytes, "FC", 2) && length <= LONGEST_FRAME);
    return is_known && length == FRAME_HEAD + (size_t)get_32(bytes + REST_AT);
}

uint8_t *read_envelope(int link, size_t *length) {
    uint8_t head[LINK_HEAD];
    if (read(link, head, 1) != 1) return NULL;
    uint64_t until = milliseconds() + WITHIN;
    if (!read_within(link, head + 1, sizeof head - 1, until)) return NULL;
    if (!is_head(head, length)) return say("what came over the link is no frame: it is closed"), NULL;
    uint8_t *bytes = malloc(*length);
    if (!bytes) give_up("memory", strerror(ENOMEM));
    bool has_come = read_within(link, bytes, *length, until);
    if (has_come && is_whole(bytes, *length) && get_32(head + SUM_AT) == sum_of(head, bytes, *length)) return bytes;
    say(has_come ? "what came over the link isn't what was sent: it is closed" : "the rest of a frame doesn't come over the link: it is closed");
    free(bytes);
    return NULL;
}
