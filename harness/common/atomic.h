/* Writes that the system makes whole or not at all: of which sizes it promises that, and the flag
 * that asks for one. */
#ifndef ATOMIC_H
#define ATOMIC_H

#include <stdbool.h>
#include <stdint.h>
#include <sys/types.h>

/* RWF_ATOMIC of a write, which headers lack that are older than Linux 6.11. */
enum { ATOMIC_FLAG = 0x40 };

/* From the least to the most bytes of such a write, which are powers of two; both 0 where nobody
 * tells. */
struct atomic_unit {
    uint64_t least, most;
};

/* What the system tells of a file or a block device that is open, by this number of a device; of a
 * file it is 0. Of a file its file system's word counts, and of a part of a device the kernel's,
 * which looks at where it begins: what the device below promises isn't asked. */
struct atomic_unit atomic_unit_of(int fd, dev_t device);

/* Whether a write of so many bytes is one of these. */
bool is_atomic_size(const struct atomic_unit *unit, uint64_t bytes);

#endif
