#include "note.h"

#include "bytes.h"
#include "keeping.h"
#include "record.h"
#include "say.h"
#include "sum.h"

#include <errno.h>
#include <fcntl.h>
#include <limits.h>
#include <stdbool.h>
#include <stdio.h>
#include <stdlib.h>
#include <string.h>
#include <sys/file.h>
#include <sys/stat.h>
#include <time.h>
#include <unistd.h>

/* Before the note, as harness/client/note.py keeps it: eight letters; whose it is, which fleet it is of, and
 * what only a client's says; and the checksum of these and the note. One of the first kind says whose it
 * is, and no more. */
#define MAGIC "FCNOTE3\n"
#define FIRST_MAGIC "FCNOTE1\n"
enum { WHOSE_AT = 8, FLEET_AT = 16, SUM_AT = 40, HEAD = 44, FIRST_SUM_AT = 12, FIRST_HEAD = 16, LONGEST = 64 << 20 };

void lock_note(const char *path) {
    char beside[PATH_MAX];
    path_beside(beside, path, ".lock");
    int fd = open(beside, O_RDWR | O_CREAT | O_NOFOLLOW | O_CLOEXEC, 0644);
    if (fd < 0) give_up_by_errno(beside);
    for (int look = 0; flock(fd, LOCK_EX | LOCK_NB); look++) {
        if (errno != EWOULDBLOCK) give_up_by_errno(beside);
        if (look == 200) give_up(path, "another node keeps its note there");
        nanosleep(&(struct timespec){0, 10000000}, NULL);
    }
}

/* The checksum of the bytes of a file, of which the one that is kept stands at this place. */
static uint32_t sum_of(const uint8_t *bytes, size_t length, size_t sum_at) {
    size_t head = sum_at + 4;
    return zip_sum_over(zip_sum_over(0, bytes + WHOSE_AT, sum_at - WHOSE_AT), bytes + head, length - head);
}

/* Takes the note out of the bytes of a file, where it is this server's. Returns its length. */
static size_t take_note(const char *path, struct whose *whose, uint8_t *bytes, size_t have) {
    bool is_first = have >= FIRST_HEAD && !memcmp(bytes, FIRST_MAGIC, WHOSE_AT);
    size_t sum_at = is_first ? FIRST_SUM_AT : SUM_AT, head = sum_at + 4;
    if (have < head || (!is_first && memcmp(bytes, MAGIC, WHOSE_AT))) give_up(path, "this is no note of a node");
    if (get_32(bytes + sum_at) != sum_of(bytes, have, sum_at)) give_up(path, "its bytes aren't those that were kept");
    if (get_32(bytes + WHOSE_AT) != whose->me) give_up(path, "this is another node's note");
    whose->fleet = is_first ? 0 : get_64(bytes + FLEET_AT);
    memmove(bytes, bytes + head, have - head);
    return have - head;
}

uint8_t *read_note(const char *path, struct whose *whose, size_t *length) {
    struct stat is;
    *length = 0;
    if (stat(path, &is)) {
        if (errno != ENOENT) give_up_by_errno(path);
        return NULL;
    }
    size_t have = is.st_size > 0 && is.st_size < LONGEST ? (size_t)is.st_size : 0;
    uint8_t *bytes = malloc(have + 1);
    if (!bytes) give_up("memory", strerror(ENOMEM));
    if (read_file(path, bytes, have) != (ssize_t)have) give_up_by_errno(path);
    *length = take_note(path, whose, bytes, have);
    return bytes;
}

void keep_note(const char *path, const struct whose *whose, const uint8_t *bytes, size_t length) {
    uint8_t *all = calloc(1, HEAD + length);
    if (!all) give_up("memory", strerror(ENOMEM));
    memcpy(all, MAGIC, WHOSE_AT);
    put_32(all + WHOSE_AT, whose->me), put_64(all + FLEET_AT, whose->fleet);
    if (length) memcpy(all + HEAD, bytes, length);
    put_32(all + SUM_AT, sum_of(all, HEAD + length, SUM_AT));
    keep_file(path, all, HEAD + length);
    free(all);
}

void put_note_aside(const char *path, const struct whose *whose) {
    char place[PATH_MAX], ending[32];
    bool is_taken = true;
    for (int at = 1; is_taken; at++) {
        snprintf(ending, sizeof ending, ".full-%d", at);
        path_beside(place, path, ending);
        is_taken = link(path, place) != 0;
        if (is_taken && errno != EEXIST) give_up_by_errno(place);
    }
    if (sync_folder(place)) give_up_by_errno(place);
    keep_note(path, whose, NULL, 0);
    say("%s: a new fleet takes the place of the one of this note, which is in %s", path, place);
}
