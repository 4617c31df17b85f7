#include "way.h"

#include "ring.h"
#include "say.h"

#include <inttypes.h>
#include <stdio.h>
#include <stdlib.h>
#include <string.h>

static bool is_word(const char *given, const char *word) {
    return given && !strcmp(given, word);
}

/* Whether the kernel gives a ring. */
static bool has_ring(void) {
    struct ring ring;
    void *memory = calloc(1, 4096);
    bool has_one = memory && open_ring(&ring, 4, memory, 4096);
    if (has_one) close_ring(&ring);
    free(memory);
    return has_one;
}

static enum by calls_of(const char *by) {
    if (by && !is_word(by, "ring") && !is_word(by, "threads")) give_up("--by", "this wants ring or threads");
    if (is_word(by, "ring") && !has_ring()) give_up("--by ring", "the kernel gives no io_uring here");
    if (by) return is_word(by, "ring") ? BY_RING : BY_THREADS;
    return has_ring() ? BY_RING : BY_THREADS;
}

/* What is promised, in words, where nothing contradicts it. */
static const char *promise_of(const struct way *way, const struct opening *opening) {
    const char *promise = way->promise;
    if (promise && !is_word(promise, "fua") && !is_word(promise, "flush") && !is_word(promise, "through")) give_up("--promise", "this wants fua, flush or through");
    if (promise && opening->cached) give_up("--promise", "with --cached no drive promises anything");
    if (promise && is_word(promise, "flush") != (way->flush > 0)) give_up("--promise", "flush wants --flush N, and the others none");
    if (opening->cached) return way->flush ? "cached, behind a flush" : "cached";
    return promise ? promise : way->flush ? "flush" : "fua";
}

/* The same of files, which are kept in one way alone. */
static enum by settle_files(const struct way *way, const struct opening *opening, char words[MAX_WAY]) {
    if (way->flush) give_up("--flush", "with --files each is told as done behind an fsync of its own and of its folder");
    if (way->promise) give_up("--promise", "with --files there is but one, which is that of fsync");
    if (way->by) give_up("--by", "with --files threads write");
    if (opening->atomic) give_up("--atomic", "with --files a block is as whole as its file");
    if (opening->torn) give_up("--torn", "with --files a block is as whole as its file, of whatever size");
    snprintf(words, MAX_WAY, "files: %s", opening->cached ? "cached" : "fsync, rename, fsync of the folder");
    return BY_THREADS;
}

enum by settle_way(const struct way *way, struct opening *opening, char words[MAX_WAY]) {
    if (opening->files) return settle_files(way, opening, words);
    const char *promise = promise_of(way, opening);
    opening->flushed = way->flush > 0 || is_word(promise, "through");
    if (opening->cached && way->by) give_up("--by", "with --cached writes go to memory by turns");
    if (opening->cached && opening->atomic) give_up("--atomic", "with --cached writes go to memory, and no write there is atomic");
    enum by by = opening->cached ? BY_ANY : calls_of(way->by);
    snprintf(words, MAX_WAY, "%s%s%s", promise, opening->atomic ? " atomic" : "", by == BY_RING ? " by io_uring" : by == BY_THREADS ? " by threads" : "");
    return by;
}
