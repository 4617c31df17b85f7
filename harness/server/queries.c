#include "queries.h"

#include "flushed.h"
#include "say.h"
#include "wanted.h"

#include <errno.h>
#include <inttypes.h>
#include <stdlib.h>
#include <string.h>

/* What an answer has of each job, and how many bytes a query may want at once. */
enum { ENDS_HEAD = 12, ENDS_BYTES = 28, WISH_BYTES = 12, FLUSH_BYTES = 12, MOST_AT_ONCE = 4 << 20, KIND_AT = 3, LENGTH_AT = 12 };

/* An answer with room for so many bytes behind its head. */
static uint8_t *answer_of(enum query_kind kind, size_t length) {
    uint8_t *bytes = malloc(FRAME_HEAD + length);
    if (!bytes) give_up("memory", strerror(ENOMEM));
    memset(bytes, 0, FRAME_HEAD);
    memcpy(bytes, "FH\1", KIND_AT);
    bytes[KIND_AT] = (uint8_t)kind;
    return bytes;
}

/* Sends it, with so many bytes behind its head. */
static void send_answer(const struct queries *queries, uint8_t *bytes, size_t length) {
    put_32(bytes + LENGTH_AT, (uint32_t)length);
    send_bytes(queries->door, bytes, FRAME_HEAD + length);
    free(bytes);
}

/* The rows of the jobs that have a target, or a write that failed for want of one. */
static void tell_ends(const struct queries *queries) {
    uint8_t *bytes = answer_of(ANSWER_ENDS, ENDS_HEAD + MOST_JOBS * ENDS_BYTES + MOST_WHY), *row = bytes + FRAME_HEAD + ENDS_HEAD;
    char why[MOST_WHY] = "";
    uint32_t rows = 0;
    uint64_t last = 0;
    for (size_t job = 0; job < MOST_JOBS; job++) {
        struct ends ends = ends_of(&queries->lanes[job]);
        if (job >= queries->lane_count && !ends.run) continue;
        put_32(row, (uint32_t)job), put_64(row + 4, ends.run), put_64(row + 12, ends.done), put_64(row + 20, ends.failed);
        row += ENDS_BYTES, rows++;
        if (*ends.why && ends.run > last) memcpy(why, ends.why, MOST_WHY), last = ends.run;
    }
    memcpy(row, why, strlen(why));
    put_32(bytes + FRAME_HEAD, rows), put_64(bytes + FRAME_HEAD + 4, queries->checks->read);
    send_answer(queries, bytes, (size_t)(row - bytes) - FRAME_HEAD + strlen(why));
}

static bool tell_fit(const struct queries *queries, const uint8_t *asked, size_t length) {
    struct wish wishes[MOST_JOBS];
    size_t count = length / WISH_BYTES;
    if (length % WISH_BYTES || count > MOST_JOBS) return false;
    for (size_t at = 0; at < count; at++, asked += WISH_BYTES) wishes[at] = (struct wish){get_32(asked), get_32(asked + 4), get_32(asked + 8)};
    char why[MOST_WHY] = "";
    if (!are_fit(queries->lanes, queries->lane_count, wishes, count, why)) say("a run isn't begun: %s", why);
    uint8_t *bytes = answer_of(ANSWER_FIT, strlen(why));
    memcpy(bytes + FRAME_HEAD, why, strlen(why));
    send_answer(queries, bytes, strlen(why));
    return true;
}

static bool tell_blocks(const struct queries *queries, const uint8_t *asked) {
    struct want want = want_in(asked);
    if (!is_want(&want) || want.count > MOST_AT_ONCE / want.block_size) return false;
    struct found found = read_wanted(queries->lanes, queries->lane_count, &want);
    size_t length = found.why ? strlen(found.why) : found.length;
    uint8_t *bytes = answer_of(found.why ? ANSWER_UNREAD : ANSWER_BLOCKS, WANTED_BYTES + length);
    memcpy(bytes + FRAME_HEAD, asked, WANTED_BYTES);
    memcpy(bytes + FRAME_HEAD + WANTED_BYTES, found.why ? found.why : found.bytes, length);
    send_answer(queries, bytes, WANTED_BYTES + length);
    free(found.bytes);
    return true;
}

static void tell_flushed(const struct queries *queries, const uint8_t *asked) {
    char words[FLUSHED_WORDS];
    bool is_flushed = have_flushed(queries->lanes, queries->lane_count, get_32(asked), words);
    if (!is_flushed) say("no check by a ledger of job %" PRIu32 ": %s", get_32(asked), words);
    uint8_t *bytes = answer_of(is_flushed ? ANSWER_FLUSHED : ANSWER_UNFLUSHED, FLUSH_BYTES + strlen(words));
    memcpy(bytes + FRAME_HEAD, asked, FLUSH_BYTES);
    memcpy(bytes + FRAME_HEAD + FLUSH_BYTES, words, strlen(words));
    send_answer(queries, bytes, FLUSH_BYTES + strlen(words));
}

bool answer_query(void *queries, const uint8_t *bytes, size_t length) {
    switch (bytes[KIND_AT]) {
    case QUERY_ENDS: return tell_ends(queries), true;
    case QUERY_FIT: return tell_fit(queries, bytes + FRAME_HEAD, length - FRAME_HEAD);
    case QUERY_BLOCKS: return length == FRAME_HEAD + WANTED_BYTES && tell_blocks(queries, bytes + FRAME_HEAD);
    case QUERY_FLUSH: return length == FRAME_HEAD + FLUSH_BYTES && (tell_flushed(queries, bytes + FRAME_HEAD), true);
    default: return false;
    }
}
