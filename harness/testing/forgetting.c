/* A target that forgets at rest, a part of the liar: what it was told long ago and has shown since. */
#include "liar.h"

#include <stdint.h>
#include <stdlib.h>
#include <string.h>

enum { BLOCKS = 65536, PAGE = 4096 };

static bool is_written[BLOCKS];

void note_write(size_t length, off_t at) {
    if (at / (off_t)length < BLOCKS) is_written[at / (off_t)length] = true;
}

/* Whether a block holds anything. */
static bool is_filled(const uint8_t *bytes, size_t length) {
    for (size_t at = 0; at < length; at++)
        if (bytes[at]) return true;
    return false;
}

void forget_at_rest(int fd, size_t length, writer *write_block, reader *read_block, teller *tell) {
    static off_t next;
    void *held;
    if (posix_memalign(&held, PAGE, length)) abort();
    for (bool has_found = false; !has_found && next < BLOCKS; next++) {
        off_t at = next * (off_t)length;
        if (is_written[next] || read_block(fd, held, length, at) != (ssize_t)length || !is_filled(held, length)) continue;
        tell("forgotten", held, length, at);
        memset(held, 0, length);
        has_found = write_block(fd, held, length, at) == (ssize_t)length;
    }
    free(held);
}
