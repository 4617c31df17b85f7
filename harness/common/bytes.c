#include "bytes.h"

#include <errno.h>
#include <fcntl.h>
#include <libgen.h>
#include <limits.h>
#include <stdio.h>
#include <unistd.h>

int write_all(int fd, const void *bytes, size_t length) {
    for (const char *at = bytes; length > 0;) {
        ssize_t count = write(fd, at, length);
        if (count < 0 && errno == EINTR) continue;
        if (count < 0) return -1;
        at += count;
        length -= (size_t)count;
    }
    return 0;
}

ssize_t read_all(int fd, void *bytes, size_t length) {
    size_t have = 0;
    while (have < length) {
        ssize_t count = read(fd, (char *)bytes + have, length - have);
        if (count < 0 && errno == EINTR) continue;
        if (count < 0) return -1;
        if (count == 0) break;
        have += (size_t)count;
    }
    return (ssize_t)have;
}

ssize_t read_file(const char *path, void *bytes, size_t length) {
    int fd = open(path, O_RDONLY | O_CLOEXEC);
    if (fd < 0) return -1;
    ssize_t have = read_all(fd, bytes, length);
    int why = errno;
    close(fd);
    errno = why;
    return have;
}

int sync_folder(const char *path) {
    char copy[PATH_MAX];
    if ((size_t)snprintf(copy, sizeof copy, "%s", path) >= sizeof copy) {
        errno = ENAMETOOLONG;
        return -1;
    }
    int fd = open(dirname(copy), O_RDONLY | O_DIRECTORY | O_CLOEXEC);
    if (fd < 0) return -1;
    int failed = fsync(fd), why = errno;
    close(fd);
    errno = why;
    return failed;
}
