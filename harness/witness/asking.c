#include "asking.h"

#include "bytes.h"
#include "chunk.h"
#include "clock.h"
#include "request.h"
#include "say.h"

#include <endian.h>
#include <string.h>

enum { MAX_CHUNK = 1 << 20 };

bool ask_blocks(const struct link *link, const struct asked *asked) {
    static uint8_t bytes[REQUEST_BYTES];
    if (asked->count > MOST_ASKED) give_up("the link", "no request is of so many blocks");
    return write_all(link->child.to, bytes, write_request(bytes, asked)) == 0;
}

/* An answer under way. */
struct answer {
    const struct link *link;
    uint64_t quiet;
    const struct asked *asked;
    uint64_t next; /* the block that comes next */
    const struct sink *sink;
    bool is_wanted; /* more of it */
};

static bool read_piece(const struct answer *answer, void *bytes, size_t length) {
    return read_until(answer->link->child.from, bytes, length, milliseconds() + answer->quiet) == length;
}

/* What stands behind the head of a part. False where the link ends before it does, or it is other
 * bytes than were sent. */
static bool read_rest(const struct answer *answer, const struct chunk *chunk, uint8_t *bytes, size_t *length) {
    uint64_t kind = be64toh(chunk->kind), number = be64toh(chunk->number);
    *length = kind == CHUNK_BYTES ? (size_t)number : kind == CHUNK_MISSED ? MAX_WHY : 0;
    if (*length > MAX_CHUNK || !read_piece(answer, bytes, *length)) return false;
    return chunk_of((enum chunk_kind)kind, number, bytes, *length).sum == chunk->sum;
}

/* Takes the bytes of the next blocks. False where so many weren't asked for. */
static bool take_bytes(struct answer *answer, const uint8_t *bytes, size_t length) {
    const uint64_t size = answer->link->hello.region.block_size, end = answer->asked->first + answer->asked->count;
    for (size_t at = 0; at < length; at += size, answer->next = next_asked(answer->asked, answer->next + 1))
        if (answer->next == end || length - at < size) return false;
    answer->is_wanted = answer->sink->take(answer->sink->whose, bytes, length);
    return true;
}

/* Takes that the next block can't be read. False where it is another one. */
static bool take_missed(struct answer *answer, uint64_t block, uint8_t *why) {
    if (block != answer->next || block == answer->asked->first + answer->asked->count) return false;
    why[MAX_WHY - 1] = 0;
    answer->next = next_asked(answer->asked, block + 1);
    answer->is_wanted = answer->sink->miss(answer->sink->whose, block, (const char *)why);
    return true;
}

bool hear_blocks(const struct link *link, uint64_t quiet, const struct asked *asked, const struct sink *sink) {
    static uint8_t bytes[MAX_CHUNK];
    struct answer answer = {link, quiet, asked, next_asked(asked, asked->first), sink, true};
    struct chunk chunk;
    size_t length;
    while (answer.is_wanted) {
        if (!read_piece(&answer, &chunk, sizeof chunk) || !read_rest(&answer, &chunk, bytes, &length)) return false;
        const uint64_t kind = be64toh(chunk.kind), number = be64toh(chunk.number);
        if (kind == CHUNK_END) return answer.next == asked->first + asked->count;
        if (kind == CHUNK_MISSED ? !take_missed(&answer, number, bytes) : kind != CHUNK_BYTES || !take_bytes(&answer, bytes, length)) return false;
    }
    return true;
}
