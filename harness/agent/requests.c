#include "requests.h"

#include "answers.h"
#include "chunk.h"
#include "hello.h"
#include "reading.h"
#include "request.h"

#include <stdio.h>
#include <unistd.h>

static bool give_back_bytes(void *none, const void *bytes, size_t length) {
    const struct chunk chunk = chunk_of(CHUNK_BYTES, length, bytes, length);
    (void)none;
    answer(&chunk, sizeof chunk);
    answer(bytes, length);
    return true;
}

static bool tell_missed(void *none, uint64_t block, const char *why) {
    char words[MAX_WHY] = "";
    (void)none;
    snprintf(words, sizeof words, "%s", why);
    const struct chunk chunk = chunk_of(CHUNK_MISSED, block, words, sizeof words);
    answer(&chunk, sizeof chunk);
    answer(words, sizeof words);
    return true;
}

void answer_requests(const struct target *target, const struct region *region) {
    static uint8_t bytes[REQUEST_BYTES];
    static struct reader reader;
    const struct chunk end = chunk_of(CHUNK_END, 0, NULL, 0);
    struct asked asked;
    open_reader(&reader, target, region);
    while (read_request(STDIN_FILENO, region->blocks, bytes, &asked)) {
        read_asked(&reader, &asked, &(struct sink){NULL, give_back_bytes, tell_missed});
        answer(&end, sizeof end);
    }
    close_reader(&reader);
}
