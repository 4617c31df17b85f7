#include "atomic.h"

#include "bytes.h"

#include <assert.h>
#include <fcntl.h>
#include <stddef.h>
#include <stdio.h>
#include <stdlib.h>
#include <string.h>
#include <sys/stat.h>
#include <sys/sysmacros.h>

/* What statx is asked for, and where its answer has two numbers of 32 bits: struct statx has no
 * names for them in headers that are older than Linux 6.11. */
enum { WRITE_ATOMIC = 0x10000, LEAST_AT = 0xa8, MOST_AT = 0xac, STATX_BYTES = 256 };

union told {
    struct statx named;
    uint8_t bytes[STATX_BYTES];
};

static_assert(sizeof(struct statx) == STATX_BYTES, "the kernel's struct statx has 256 bytes");

static uint32_t number_at(const union told *told, size_t at) {
    uint32_t number;
    memcpy(&number, told->bytes + at, sizeof number);
    return number;
}

static struct atomic_unit unit_by_statx(int fd) {
    union told told;
    memset(&told, 0, sizeof told);
    if (statx(fd, "", AT_EMPTY_PATH, WRITE_ATOMIC, &told.named) || !(told.named.stx_mask & WRITE_ATOMIC)) return (struct atomic_unit){0};
    return (struct atomic_unit){number_at(&told, LEAST_AT), number_at(&told, MOST_AT)};
}

/* A number that stands in the folder of a device's queue. A part of a device has none. */
static uint64_t number_of_queue(dev_t device, const char *field) {
    char path[256], text[32] = "";
    snprintf(path, sizeof path, "/sys/dev/block/%u:%u/queue/%s", major(device), minor(device), field);
    return read_file(path, text, sizeof text - 1) > 0 ? strtoull(text, NULL, 10) : 0;
}

struct atomic_unit atomic_unit_of(int fd, dev_t device) {
    struct atomic_unit unit = unit_by_statx(fd);
    if (unit.most || !device) return unit;
    return (struct atomic_unit){number_of_queue(device, "atomic_write_unit_min_bytes"), number_of_queue(device, "atomic_write_unit_max_bytes")};
}

bool is_atomic_size(const struct atomic_unit *unit, uint64_t bytes) {
    bool is_power = bytes && (bytes & (bytes - 1)) == 0;
    return is_power && bytes >= unit->least && bytes <= unit->most;
}
