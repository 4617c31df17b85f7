#include "ring.h"

#include "atomic.h"
#include "say.h"

#include <errno.h>
#include <linux/io_uring.h>
#include <string.h>
#include <sys/mman.h>
#include <sys/syscall.h>
#include <unistd.h>

static int set_up(unsigned entries, struct io_uring_params *params) {
    /* (newer kernels do less work for one thread that waits; older ones refuse the flags) */
    const unsigned flags[] = {IORING_SETUP_SINGLE_ISSUER | IORING_SETUP_DEFER_TASKRUN, IORING_SETUP_COOP_TASKRUN, 0};
    int fd = -1;
    for (size_t at = 0; fd < 0 && at < sizeof flags / sizeof *flags; at++) {
        memset(params, 0, sizeof *params);
        params->flags = flags[at];
        fd = (int)syscall(SYS_io_uring_setup, entries, params);
    }
    return fd;
}

static void *map(int fd, size_t length, off_t what) {
    void *mapped = mmap(NULL, length, PROT_READ | PROT_WRITE, MAP_SHARED | MAP_POPULATE, fd, what);
    return mapped == MAP_FAILED ? NULL : mapped;
}

bool open_ring(struct ring *ring, unsigned entries, void *memory, size_t length) {
    struct io_uring_params params;
    int fd = set_up(entries, &params);
    if (fd < 0) return false;
    const unsigned wanted = IORING_FEAT_SINGLE_MMAP | IORING_FEAT_NODROP;
    size_t calls = params.sq_off.array + params.sq_entries * sizeof(unsigned), ends = params.cq_off.cqes + params.cq_entries * sizeof(struct io_uring_cqe);
    uint8_t *both = (params.features & wanted) == wanted ? map(fd, calls > ends ? calls : ends, IORING_OFF_SQ_RING) : NULL;
    struct io_uring_sqe *given = both ? map(fd, params.sq_entries * sizeof *given, IORING_OFF_SQES) : NULL;
    if (!given) return close(fd), false;
    *ring = (struct ring){.fd = fd, .given = given, .mapped = {{both, calls > ends ? calls : ends}, {given, params.sq_entries * sizeof *given}}};
    ring->given_tail = (unsigned *)(void *)(both + params.sq_off.tail);
    ring->given_mask = *(unsigned *)(void *)(both + params.sq_off.ring_mask);
    ring->given_places = (unsigned *)(void *)(both + params.sq_off.array);
    ring->ended_head = (unsigned *)(void *)(both + params.cq_off.head);
    ring->ended_tail = (unsigned *)(void *)(both + params.cq_off.tail);
    ring->ended_mask = *(unsigned *)(void *)(both + params.cq_off.ring_mask);
    ring->ended = (struct io_uring_cqe *)(void *)(both + params.cq_off.cqes);
    struct iovec blocks = {memory, length};
    ring->has_memory = syscall(SYS_io_uring_register, fd, IORING_REGISTER_BUFFERS, &blocks, 1) == 0;
    return true;
}

void close_ring(struct ring *ring) {
    for (int at = 0; at < 2; at++) munmap(ring->mapped[at].iov_base, ring->mapped[at].iov_len);
    close(ring->fd);
}

/* Who opened the ring sees to it that there is room: it has as many entries as there are calls. */
static struct io_uring_sqe *next_call(struct ring *ring, uint64_t what, int fd, uint8_t operation) {
    unsigned tail = *ring->given_tail, place = tail & ring->given_mask;
    struct io_uring_sqe *call = ring->given + place;
    memset(call, 0, sizeof *call);
    call->opcode = operation, call->fd = fd, call->user_data = what;
    ring->given_places[place] = place;
    __atomic_store_n(ring->given_tail, tail + 1, __ATOMIC_RELEASE);
    ring->waiting++;
    return call;
}

void put_read(struct ring *ring, uint64_t what, int fd, const struct iovec *pieces, int count) {
    struct io_uring_sqe *call = next_call(ring, what, fd, IORING_OP_READV);
    call->addr = (uintptr_t)pieces, call->len = (unsigned)count, call->off = (uint64_t)-1;
}

void put_read_at(struct ring *ring, uint64_t what, int fd, void *bytes, uint64_t length, uint64_t at) {
    struct io_uring_sqe *call = next_call(ring, what, fd, ring->has_memory ? IORING_OP_READ_FIXED : IORING_OP_READ);
    call->addr = (uintptr_t)bytes, call->len = (unsigned)length, call->off = at;
}

void put_write(struct ring *ring, uint64_t what, int fd, const void *bytes, uint64_t length, uint64_t at, bool is_atomic) {
    bool is_known = ring->has_memory && !is_atomic; /* (Linux makes no atomic write from memory that it knows) */
    struct io_uring_sqe *call = next_call(ring, what, fd, is_known ? IORING_OP_WRITE_FIXED : IORING_OP_WRITE);
    call->addr = (uintptr_t)bytes, call->len = (unsigned)length, call->off = at;
    call->rw_flags = is_atomic ? ATOMIC_FLAG : 0;
}

void put_flush(struct ring *ring, uint64_t what, int fd) {
    next_call(ring, what, fd, IORING_OP_FSYNC)->fsync_flags = IORING_FSYNC_DATASYNC;
}

static void enter(struct ring *ring, unsigned ends, unsigned flags) {
    long given = syscall(SYS_io_uring_enter, ring->fd, ring->waiting, ends, flags, NULL, 0);
    if (given >= 0) ring->waiting -= (unsigned)given;
    if (given < 0 && errno != EINTR && errno != EAGAIN && errno != EBUSY) give_up_by_errno("io_uring");
}

void give_calls(struct ring *ring) {
    if (ring->waiting) enter(ring, 0, 0);
}

void await_ends(struct ring *ring) {
    enter(ring, 1, IORING_ENTER_GETEVENTS);
}

bool next_end(struct ring *ring, uint64_t *what, int *answer) {
    unsigned head = *ring->ended_head;
    if (head == __atomic_load_n(ring->ended_tail, __ATOMIC_ACQUIRE)) return false;
    *what = ring->ended[head & ring->ended_mask].user_data;
    *answer = ring->ended[head & ring->ended_mask].res;
    __atomic_store_n(ring->ended_head, head + 1, __ATOMIC_RELEASE);
    return true;
}
