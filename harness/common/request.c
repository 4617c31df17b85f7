#include "request.h"

#include "bytes.h"
#include "say.h"
#include "sum.h"

#include <endian.h>
#include <string.h>

size_t write_request(uint8_t bytes[REQUEST_BYTES], const struct asked *asked) {
    const uint64_t head[] = {htobe64(asked->first), htobe64(asked->count)};
    const size_t bits = bytes_of_bits(asked->count), length = sizeof head + bits;
    memcpy(bytes, head, sizeof head);
    if (asked->bits) memcpy(bytes + sizeof head, asked->bits, bits);
    else memset(bytes + sizeof head, 0xff, bits);
    const uint32_t sum = htobe32(sum_over(0, bytes, length));
    memcpy(bytes + length, &sum, REQUEST_SUM);
    return length + REQUEST_SUM;
}

/* Whether the head of a request is one of blocks that there are. */
static bool take_head(const uint8_t *bytes, uint64_t blocks, struct asked *asked) {
    uint64_t head[2];
    memcpy(head, bytes, sizeof head);
    *asked = (struct asked){be64toh(head[0]), be64toh(head[1]), bytes + sizeof head};
    return asked->count && asked->count <= MOST_ASKED && asked->count <= blocks && asked->first <= blocks - asked->count;
}

bool read_request(int from, uint64_t blocks, uint8_t bytes[REQUEST_BYTES], struct asked *asked) {
    const ssize_t head = read_all(from, bytes, REQUEST_HEAD);
    if (head == 0) return false;
    if (head != REQUEST_HEAD) give_up("the link", "it ended within what the witness asks for");
    if (!take_head(bytes, blocks, asked)) give_up("the link", "the witness asks for blocks that there aren't");
    const size_t length = REQUEST_HEAD + bytes_of_bits(asked->count);
    uint32_t sum;
    if (read_all(from, bytes + REQUEST_HEAD, length - REQUEST_HEAD + REQUEST_SUM) != (ssize_t)(length - REQUEST_HEAD + REQUEST_SUM)) give_up("the link", "it ended within what the witness asks for");
    memcpy(&sum, bytes + length, REQUEST_SUM);
    if (be32toh(sum) != sum_over(0, bytes, length)) give_up("the link", "what the witness asks for came otherwise than it was sent");
    return true;
}
