#include "keeping.h"

#include "bytes.h"
#include "say.h"

#include <errno.h>
#include <fcntl.h>
#include <limits.h>
#include <stdio.h>
#include <string.h>
#include <sys/stat.h>
#include <unistd.h>

static bool is_same(const struct stat *is, const char *other) {
    struct stat its;
    return other && stat(other, &its) == 0 && is->st_dev == its.st_dev && is->st_ino == its.st_ino;
}

static _Noreturn void refuse_place_of(const char *place, const char *what, const char *kind) {
    char why[96];
    snprintf(why, sizeof why, "it is %s: no %s is kept there", what, kind);
    give_up(place, why);
}

bool is_free(const char *place, const char *kind, const struct in_use *others) {
    struct stat is;
    if (stat(place, &is)) {
        if (errno == ENOENT) return true;
        give_up_by_errno(place);
    }
    if (!S_ISREG(is.st_mode)) refuse_place_of(place, "no file", kind);
    for (; others->what; others++)
        if (is_same(&is, others->path)) refuse_place_of(place, others->what, kind);
    return false;
}

void path_beside(char *path, const char *file, const char *ending) {
    if (snprintf(path, PATH_MAX, "%s%s", file, ending) >= PATH_MAX) give_up(file, strerror(ENAMETOOLONG));
}

void keep_file(const char *path, const void *bytes, size_t length) {
    char beside[PATH_MAX];
    path_beside(beside, path, ".new");
    int fd = open(beside, O_WRONLY | O_CREAT | O_TRUNC | O_NOFOLLOW | O_CLOEXEC, 0644); /* (others may have put a link there) */
    if (fd < 0 || write_all(fd, bytes, length) || fsync(fd) || close(fd) || rename(beside, path) || sync_folder(path)) give_up_by_errno(path);
}
