#include "reads.h"

#include "say.h"

#include <errno.h>
#include <stdlib.h>
#include <string.h>
#include <unistd.h>

/* What O_DIRECT wants of a place in memory is a multiple of a page at most, and of a block's size where that is
 * less: so reads of whole blocks may lie side by side. */
enum { PAGE = 4096 };

static struct a_read *read_at(struct reads *reads, uint64_t number) {
    return reads->all + number % MOST_READS;
}

/* Does the reads that nobody has taken, one after the other, without the lock. */
static void *work(void *given) {
    struct reads *reads = given;
    pthread_mutex_lock(&reads->lock);
    for (;;) {
        while (reads->taken == reads->begun && !reads->is_over) pthread_cond_wait(&reads->is_begun, &reads->lock);
        if (reads->taken == reads->begun) break;
        struct a_read *read = read_at(reads, reads->taken++);
        pthread_mutex_unlock(&reads->lock);
        ssize_t count = pread(reads->fd, read->bytes, read->length, (off_t)read->place);
        const long answer = count < 0 ? -errno : count;
        pthread_mutex_lock(&reads->lock);
        read->answer = answer, read->has_come = true;
        pthread_cond_signal(&reads->is_come);
    }
    pthread_mutex_unlock(&reads->lock);
    return NULL;
}

void open_reads(struct reads *reads, int fd, size_t size) {
    void *memory;
    if (posix_memalign(&memory, PAGE, size)) give_up("memory", strerror(ENOMEM));
    *reads = (struct reads){.fd = fd, .size = size, .memory = memory, .lock = PTHREAD_MUTEX_INITIALIZER, .is_begun = PTHREAD_COND_INITIALIZER, .is_come = PTHREAD_COND_INITIALIZER};
    reads->has_ring = open_ring(&reads->ring, MOST_READS, memory, size);
}

/* The place in memory of the next read, or NULL where so many bytes have none. The oldest one's begin the part that
 * is taken, and the newest one's end it: behind the end of all memory it goes on at the front. */
static uint8_t *next_bytes(const struct reads *reads, size_t length) {
    if (reads->begun == reads->ended) return length <= reads->size ? reads->memory : NULL;
    const struct a_read *oldest = reads->all + reads->ended % MOST_READS, *newest = reads->all + (reads->begun - 1) % MOST_READS;
    uint8_t *next = newest->bytes + newest->length;
    if (newest->bytes < oldest->bytes) return (size_t)(oldest->bytes - next) >= length ? next : NULL;
    if ((size_t)(reads->memory + reads->size - next) >= length) return next;
    return (size_t)(oldest->bytes - reads->memory) >= length ? reads->memory : NULL;
}

bool has_room(const struct reads *reads, size_t length) {
    return reads->begun - reads->ended < MOST_READS && next_bytes(reads, length);
}

/* There are as many threads as ever were out. */
static void start_thread_if_due(struct reads *reads) {
    if (reads->begun - reads->ended <= reads->thread_count) return;
    int error = pthread_create(reads->threads + reads->thread_count++, NULL, work, reads);
    if (error) give_up("threads", strerror(error));
}

void begin_read(struct reads *reads, struct a_read read) {
    struct a_read *at = read_at(reads, reads->begun);
    read.bytes = next_bytes(reads, read.length), read.answer = 0, read.has_come = false;
    if (reads->has_ring) {
        put_read_at(&reads->ring, reads->begun++ % MOST_READS, reads->fd, read.bytes, read.length, read.place);
        *at = read;
        return;
    }
    pthread_mutex_lock(&reads->lock);
    *at = read;
    reads->begun++;
    pthread_cond_signal(&reads->is_begun);
    pthread_mutex_unlock(&reads->lock);
    start_thread_if_due(reads);
}

static void take_ends(struct reads *reads) {
    uint64_t at;
    for (int answer; next_end(&reads->ring, &at, &answer);) reads->all[at].answer = answer, reads->all[at].has_come = true;
}

struct a_read *await_oldest(struct reads *reads) {
    struct a_read *oldest = read_at(reads, reads->ended);
    if (reads->has_ring) {
        take_ends(reads);
        give_calls(&reads->ring);
        for (; !oldest->has_come; take_ends(reads)) await_ends(&reads->ring);
        return oldest;
    }
    pthread_mutex_lock(&reads->lock);
    while (!oldest->has_come) pthread_cond_wait(&reads->is_come, &reads->lock);
    pthread_mutex_unlock(&reads->lock);
    return oldest;
}

struct a_read *next_in_memory(struct reads *reads, size_t behind) {
    if (reads->begun - reads->ended <= behind) return NULL;
    struct a_read *read = read_at(reads, reads->ended + behind);
    const struct a_read *before = behind ? read_at(reads, reads->ended + behind - 1) : NULL;
    if (!reads->has_ring) pthread_mutex_lock(&reads->lock);
    const bool has_come = read->has_come;
    if (!reads->has_ring) pthread_mutex_unlock(&reads->lock);
    return has_come && (!before || before->bytes + before->length == read->bytes) ? read : NULL;
}

void end_reads(struct reads *reads, size_t count) {
    reads->ended += count;
}

static void end_threads(struct reads *reads) {
    pthread_mutex_lock(&reads->lock);
    reads->is_over = true;
    pthread_cond_broadcast(&reads->is_begun);
    pthread_mutex_unlock(&reads->lock);
    for (size_t at = 0; at < reads->thread_count; at++) pthread_join(reads->threads[at], NULL);
}

void close_reads(struct reads *reads) {
    while (reads->begun > reads->ended) await_oldest(reads), end_reads(reads, 1);
    if (reads->has_ring) close_ring(&reads->ring);
    else end_threads(reads);
    free(reads->memory);
}
