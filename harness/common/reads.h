/* Reads at a target, many at once, by the kernel's io_uring where it has that, and else by threads. They are
 * begun and ended in one order, whatever the order in which their bytes come, and these lie in one piece of
 * memory, those of neighbouring reads side by side as far as that goes. */
#ifndef READS_H
#define READS_H

#include "ring.h"

#include <pthread.h>
#include <stdbool.h>
#include <stddef.h>
#include <stdint.h>

/* So many are out at once, at most. */
enum { MOST_READS = 32 };

struct a_read {
    uint64_t block, blocks; /* what is read, for who began it */
    uint64_t place;         /* the byte of the target that it begins at */
    size_t length;
    uint8_t *bytes; /* where they come to */
    long answer;    /* how many came, or an error as a negative number */
    bool has_come;
};

struct reads {
    int fd;
    uint8_t *memory;
    size_t size; /* of that */
    struct a_read all[MOST_READS];
    uint64_t begun, ended; /* the read of number N stands at N % MOST_READS */
    bool has_ring;
    struct ring ring;
    /* Without a ring these have their turns under the lock. */
    pthread_mutex_t lock;
    pthread_cond_t is_begun, is_come;
    pthread_t threads[MOST_READS];
    size_t thread_count;
    uint64_t taken; /* by a thread */
    bool is_over;
};

/* Makes room for so many bytes in all. Who calls has to be one thread. */
void open_reads(struct reads *reads, int fd, size_t size);

/* Whether one more of so many bytes may begin. There is room for one where none is out and the memory is as large. */
bool has_room(const struct reads *reads, size_t length);

/* Begins one for which there is room, of this length and place. It may go to the target only once one is awaited. */
void begin_read(struct reads *reads, struct a_read read);

/* Has all that have begun go to the target, and waits for the oldest one, which there has to be. */
struct a_read *await_oldest(struct reads *reads);

/* The read that began so many behind the oldest one, where it has come and its bytes lie behind those of the one
 * before it; or NULL. */
struct a_read *next_in_memory(struct reads *reads, size_t behind);

/* Ends the oldest ones, so many, whose memory is free then. */
void end_reads(struct reads *reads, size_t count);

/* Waits for those that are out, and gives the memory back. */
void close_reads(struct reads *reads);

#endif
