/* The kernel's io_uring, as far as an executor wants it: reads, writes and flushes that are given
 * to it together and end in any order. */
#ifndef RING_H
#define RING_H

#include <stdbool.h>
#include <stddef.h>
#include <stdint.h>
#include <sys/uio.h>

struct io_uring_sqe;
struct io_uring_cqe;

struct ring {
    int fd;
    unsigned *given_tail, given_mask, *given_places;
    struct io_uring_sqe *given; /* what is asked for */
    unsigned *ended_head, *ended_tail, ended_mask;
    struct io_uring_cqe *ended; /* what became of it */
    unsigned waiting;           /* how many were put there and not yet given to the kernel */
    bool has_memory;            /* the kernel knows the memory of the blocks */
    struct iovec mapped[2];     /* where the above lies */
};

/* Opens a ring for at most so many calls at once, which write from this memory, or read into it. False where the
 * kernel has none, or gives none. What uses it has to be the thread that opened it. */
bool open_ring(struct ring *ring, unsigned entries, void *memory, size_t length);

/* Closes a ring all of whose calls have ended. */
void close_ring(struct ring *ring);

/* Puts a call there; `what` is told again once it has ended. */
void put_read(struct ring *ring, uint64_t what, int fd, const struct iovec *pieces, int count);
void put_read_at(struct ring *ring, uint64_t what, int fd, void *bytes, uint64_t length, uint64_t at);
void put_write(struct ring *ring, uint64_t what, int fd, const void *bytes, uint64_t length, uint64_t at, bool is_atomic);
void put_flush(struct ring *ring, uint64_t what, int fd);

/* Gives the kernel what was put there. */
void give_calls(struct ring *ring);

/* The same, and waits until a call has ended. */
void await_ends(struct ring *ring);

/* The next call that has ended, and what it answered: a number of bytes, or an error as a negative
 * number. */
bool next_end(struct ring *ring, uint64_t *what, int *answer);

#endif
