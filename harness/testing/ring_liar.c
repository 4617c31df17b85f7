/* An io_uring of the liar's own, so that what it does to writes and flushes meets an executor that
 * writes by a ring, or reads. A few writes are made each time that the executor comes, and a flush begins as it
 * is given, and ends only once nothing else has: so writes end behind its front and before its end,
 * and it doesn't cover them. Reads at a place of the target are made once they are waited for, a few each time and the
 * last one first; LIE_PLACES has a line tell how many were out then: `together N`. */
#include "liar.h"

#include <errno.h>
#include <linux/io_uring.h>
#include <poll.h>
#include <pthread.h>
#include <signal.h>
#include <stdatomic.h>
#include <stdint.h>
#include <stdio.h>
#include <stdlib.h>
#include <string.h>
#include <sys/mman.h>
#include <sys/syscall.h>
#include <sys/uio.h>
#include <unistd.h>

/* Where the fields of a ring stand in its memory; for how many milliseconds a flush lets more orders
 * come; and how many writes are made at once. */
enum { GIVEN_HEAD = 0, GIVEN_TAIL = 4, GIVEN_MASK = 8, ENDED_HEAD = 24, ENDED_TAIL = 28, ENDED_MASK = 32, ENDS = 64, MAX_RINGS = 64, A_WHILE = 2, A_FEW = 3 };

struct ring {
    int fd;
    uint8_t *memory;
    struct io_uring_sqe *calls;
    unsigned entries;
    struct io_uring_sqe read, flush, *writes; /* those that are out; the writes stand in a ring, too */
    struct io_uring_sqe *placed;              /* reads at a place of the target */
    unsigned first, writing, placed_count;
    bool reads, flushes;
    int flushed;                     /* what the flush will answer */
};

static struct ring rings[MAX_RINGS];
static atomic_long ended_flushes;
static pthread_mutex_t lock = PTHREAD_MUTEX_INITIALIZER;

static unsigned *field(const struct ring *ring, int at) {
    return (unsigned *)(void *)(ring->memory + at);
}

static struct ring *ring_of(int fd) {
    struct ring *found = NULL;
    pthread_mutex_lock(&lock);
    for (int at = 0; at < MAX_RINGS && !found; at++)
        if (rings[at].memory && rings[at].fd == fd) found = rings + at;
    pthread_mutex_unlock(&lock);
    return found;
}

/* A place for a ring: that of one that had this number, or an unused one. */
static struct ring *place_for(int fd) {
    struct ring *found = ring_of(fd);
    pthread_mutex_lock(&lock);
    for (int at = 0; at < MAX_RINGS && !found; at++)
        if (!rings[at].memory) found = rings + at;
    if (!found) abort();
    *found = (struct ring){.fd = fd};
    pthread_mutex_unlock(&lock);
    return found;
}

static long set_up(unsigned wanted, struct io_uring_params *params) {
    unsigned entries = 1;
    while (entries < wanted) entries *= 2;
    size_t length = ENDS + 2 * entries * sizeof(struct io_uring_cqe) + entries * sizeof(unsigned);
    int fd = (int)memfd_create("ring", MFD_CLOEXEC);
    if (fd < 0 || ftruncate(fd, (off_t)(IORING_OFF_SQES + entries * sizeof(struct io_uring_sqe)))) return -1;
    struct ring *ring = place_for(fd);
    ring->entries = entries;
    ring->writes = calloc(entries, sizeof *ring->writes), ring->placed = calloc(entries, sizeof *ring->placed);
    ring->calls = mmap(NULL, entries * sizeof *ring->calls, PROT_READ | PROT_WRITE, MAP_SHARED, fd, IORING_OFF_SQES);
    ring->memory = mmap(NULL, length, PROT_READ | PROT_WRITE, MAP_SHARED, fd, IORING_OFF_SQ_RING);
    if (!ring->writes || !ring->placed || (void *)ring->calls == MAP_FAILED || (void *)ring->memory == MAP_FAILED) abort();
    *field(ring, GIVEN_MASK) = entries - 1, *field(ring, ENDED_MASK) = 2 * entries - 1;
    params->features = IORING_FEAT_SINGLE_MMAP | IORING_FEAT_NODROP;
    params->sq_entries = entries, params->cq_entries = 2 * entries;
    params->sq_off.head = GIVEN_HEAD, params->sq_off.tail = GIVEN_TAIL, params->sq_off.ring_mask = GIVEN_MASK;
    params->sq_off.array = ENDS + 2 * entries * (unsigned)sizeof(struct io_uring_cqe);
    params->cq_off.head = ENDED_HEAD, params->cq_off.tail = ENDED_TAIL, params->cq_off.ring_mask = ENDED_MASK, params->cq_off.cqes = ENDS;
    return fd;
}

static void end_call(const struct ring *ring, const struct io_uring_sqe *call, int answer) {
    unsigned tail = *field(ring, ENDED_TAIL);
    struct io_uring_cqe *ends = (struct io_uring_cqe *)(void *)(ring->memory + ENDS);
    ends[tail % (2 * ring->entries)] = (struct io_uring_cqe){.user_data = call->user_data, .res = answer};
    *field(ring, ENDED_TAIL) = tail + 1;
}

static bool has_ends(const struct ring *ring) {
    return *field(ring, ENDED_HEAD) != *field(ring, ENDED_TAIL);
}

static int or_error(long answer) {
    return answer < 0 ? -errno : (int)answer;
}

/* What Linux answers to an atomic write by a ring: it makes none from memory that it knows. */
static int refusal_of(const struct io_uring_sqe *call) {
    return call->opcode == IORING_OP_WRITE_FIXED ? EINVAL : refuse_atomic(call->fd, call->len, (off_t)call->off);
}

/* Makes the next few writes that are out, but for those that never come back. */
static void make_writes(struct ring *ring) {
    for (int made = 0; made < A_FEW && ring->writing; made++, ring->first = (ring->first + 1) % ring->entries, ring->writing--) {
        const struct io_uring_sqe *call = ring->writes + ring->first;
        bool never = false, is_atomic = call->rw_flags & ATOMIC;
        int answer = is_atomic ? -refusal_of(call) : 0;
        if (!answer) answer = or_error(write_or_lie(call->fd, (const void *)(uintptr_t)call->addr, call->len, (off_t)call->off, is_atomic, &never));
        if (!never) end_call(ring, call, answer);
    }
}

/* Makes a few reads of the target that are out, the last one first. */
static void make_placed(struct ring *ring) {
    char line[32];
    snprintf(line, sizeof line, "together %u", ring->placed_count);
    if (ring->placed_count && getenv("LIE_PLACES")) note_line(line);
    for (int made = 0; made < A_FEW && ring->placed_count; made++, ring->placed_count--) {
        const struct io_uring_sqe *call = ring->placed + ring->placed_count - 1;
        end_call(ring, call, or_error(read_or_lie(call->fd, (void *)(uintptr_t)call->addr, call->len, (off_t)call->off)));
    }
}

static void begin_call(struct ring *ring, const struct io_uring_sqe *call) {
    if (call->opcode == IORING_OP_READ || call->opcode == IORING_OP_READ_FIXED) {
        ring->placed[ring->placed_count++] = *call;
    } else if (call->opcode == IORING_OP_READV) {
        ring->read = *call, ring->reads = true;
    } else if (call->opcode == IORING_OP_FSYNC) {
        ring->flushed = or_error(call->fsync_flags & IORING_FSYNC_DATASYNC ? fdatasync(call->fd) : fsync(call->fd));
        ring->flush = *call, ring->flushes = true;
    } else {
        ring->writes[(ring->first + ring->writing++) % ring->entries] = *call;
    }
}

/* Ends the read, where something comes within so many milliseconds, or for -1 once it comes. */
static void end_read(struct ring *ring, int milliseconds) {
    if (!ring->reads || poll(&(struct pollfd){ring->read.fd, POLLIN, 0}, 1, milliseconds) <= 0) return;
    end_call(ring, &ring->read, or_error(readv(ring->read.fd, (const struct iovec *)(uintptr_t)ring->read.addr, (int)ring->read.len)));
    ring->reads = false;
}

/* Kills the process where so many flushes have ended, and what they kept was told: it waits for what
 * ends next. */
static void die_if_due(bool waits) {
    const char *due = getenv("LIE_DIES");
    if (waits && due && ended_flushes >= atol(due)) raise(SIGKILL);
}

static long enter(struct ring *ring, unsigned count, bool waits) {
    die_if_due(waits);
    unsigned head = *field(ring, GIVEN_HEAD), *places = field(ring, ENDS + (int)(2 * ring->entries * sizeof(struct io_uring_cqe)));
    for (unsigned at = 0; at < count; at++) {
        const struct io_uring_sqe call = ring->calls[places[(head + at) % ring->entries]];
        begin_call(ring, &call);
    }
    *field(ring, GIVEN_HEAD) = head + count;
    make_writes(ring);
    if (waits) make_placed(ring);
    end_read(ring, ring->flushes && !has_ends(ring) ? A_WHILE : 0);
    if (ring->flushes && !has_ends(ring)) end_call(ring, &ring->flush, ring->flushed), ring->flushes = false, ended_flushes++;
    while (waits && !has_ends(ring)) {
        make_writes(ring);
        if (!ring->reads && !ring->writing && !has_ends(ring)) pause();
        if (!ring->writing && !has_ends(ring)) end_read(ring, -1);
    }
    return count;
}

bool answers_for_ring(long number, const long words[6], long *answer) {
    if (number == SYS_io_uring_setup) {
        *answer = getenv("LIE_RING") ? set_up((unsigned)words[0], (struct io_uring_params *)words[1]) : (errno = ENOSYS, -1);
        return true;
    }
    struct ring *ring = number == SYS_io_uring_enter || number == SYS_io_uring_register ? ring_of((int)words[0]) : NULL;
    if (ring) *answer = number == SYS_io_uring_enter ? enter(ring, (unsigned)words[1], words[2] > 0) : 0;
    return ring != NULL;
}
