/* Atomic writes to the liar's target: what is told of them, and which are made.
 *
 * LIE_ATOMIC=LEAST:MOST has statx tell that the target takes atomic writes of so many bytes, and
 * with 0:0 none. Those are made then, by writes that aren't, since there may be no such write where
 * the liar's files lie; all others are refused, as Linux refuses them, with LEAST:MOST:TAKEN those
 * above TAKEN, too. LIE_QUEUE=FOLDER has a file of this folder stand in the place of the one of its
 * name that tells of a device's queue. */
#include "liar.h"

#include <dlfcn.h>
#include <errno.h>
#include <fcntl.h>
#include <stdarg.h>
#include <stdint.h>
#include <stdio.h>
#include <stdlib.h>
#include <string.h>
#include <sys/stat.h>
#include <sys/uio.h>
#include <unistd.h>

/* What statx is asked for, and where its answer stands, by the kernel's struct statx. */
enum { WRITE_ATOMIC = 0x10000, LEAST_AT = 0xa8, MOST_AT = 0xac };

struct sizes {
    uint32_t least, most, taken;
};

/* What is said of atomic writes. False where nothing is. */
static bool read_sizes(struct sizes *sizes) {
    const char *said = getenv("LIE_ATOMIC");
    int count = said ? sscanf(said, "%u:%u:%u", &sizes->least, &sizes->most, &sizes->taken) : 0;
    if (count == 2) sizes->taken = sizes->most;
    return count >= 2;
}

int refuse_atomic(int fd, size_t length, off_t at) {
    struct sizes sizes;
    if (!read_sizes(&sizes) || !sizes.taken || !(fcntl(fd, F_GETFL) & O_DIRECT)) return EOPNOTSUPP;
    bool is_one = length >= sizes.least && length <= sizes.taken && (length & (length - 1)) == 0 && at % (off_t)length == 0;
    return is_one ? 0 : EINVAL;
}

ssize_t pwritev64v2(int fd, const struct iovec *pieces, int count, off_t at, int flags) {
    static ssize_t (*real)(int, const struct iovec *, int, off_t, int);
    if (!real) *(void **)&real = dlsym(RTLD_NEXT, "pwritev64v2");
    if (!is_target(fd) || count != 1 || flags & ~ATOMIC) return real(fd, pieces, count, at, flags);
    bool is_atomic = flags & ATOMIC, never;
    int why = is_atomic ? refuse_atomic(fd, pieces->iov_len, at) : 0;
    if (why) return errno = why, -1;
    ssize_t told = write_or_lie(fd, pieces->iov_base, pieces->iov_len, at, is_atomic, &never);
    while (never) sleep(1000);
    return told;
}

int statx(int folder, const char *restrict path, int flags, unsigned mask, struct statx *restrict told) {
    static int (*real)(int, const char *, int, unsigned, struct statx *);
    if (!real) *(void **)&real = dlsym(RTLD_NEXT, "statx");
    int failed = real(folder, path, flags, mask, told);
    struct sizes sizes;
    if (failed || !(mask & WRITE_ATOMIC) || !is_target(folder) || !read_sizes(&sizes)) return failed;
    told->stx_mask |= WRITE_ATOMIC;
    memcpy((uint8_t *)told + LEAST_AT, &sizes.least, sizeof sizes.least);
    memcpy((uint8_t *)told + MOST_AT, &sizes.most, sizeof sizes.most);
    return 0;
}

int open64(const char *path, int how, ...) {
    static int (*real)(const char *, int, ...);
    if (!real) *(void **)&real = dlsym(RTLD_NEXT, "open64");
    va_list given;
    va_start(given, how);
    mode_t mode = how & O_CREAT ? va_arg(given, mode_t) : 0;
    va_end(given);
    const char *folder = getenv("LIE_QUEUE"), *field = folder && !strncmp(path, "/sys/dev/block/", 15) ? strstr(path, "/queue/") : NULL;
    char other[4096] = "";
    if (field) snprintf(other, sizeof other, "%s/%s", folder, field + strlen("/queue/"));
    return real(*other && access(other, F_OK) == 0 ? other : path, how, mode);
}
