#include "map.h"

#include "bytes.h"
#include "drive.h"
#include "flight.h"
#include "kinds.h"
#include "say.h"

#include <errno.h>
#include <inttypes.h>
#include <stdio.h>
#include <stdlib.h>
#include <string.h>
#include <sys/uio.h>
#include <time.h>
#include <unistd.h>

/* So many pieces are written at once, and a block has three at most: those before it that aren't asked for, a
 * byte, and its own. */
enum { MOST_PIECES = 1024, OF_A_BLOCK = 3, STEP = 1 << 16, SHORT_LINE = 200 };

static void *read_all_lines(void *given) {
    struct map *map = given;
    size_t room = 0;
    for (;;) {
        if (map->length + STEP >= room) {
            room = 2 * room + 2 * STEP;
            map->text = realloc(map->text, room);
            if (!map->text) give_up("memory", strerror(ENOMEM));
        }
        ssize_t count = read_all(map->drive.from, map->text + map->length, STEP);
        if (count > 0) map->length += (size_t)count;
        if (count < STEP) break;
    }
    map->text[map->length] = 0;
    return NULL;
}

void open_map(struct map *map, const struct job *job, const struct region *region, const struct basis *basis) {
    const struct kept *kept = basis->kept;
    const struct ledger *ledger = basis->ledger;
    *map = (struct map){.region = *region, .total = region->blocks, .next_line = time(NULL) + 2, .basis = *basis, .asked = {.count = region->blocks}};
    struct job its = *job;
    its.server = is_state(kept->state, kept->length) ? server_of_state(kept->state) : 0;
    map->drive = start_drive(basis->command, kept->run, &its, CHILD_READS | CHILD_WRITES);
    if (!ledger || !strcmp(basis->command, "ledger")) feed(&map->drive, kept->state, kept->length);
    if (ledger) feed(&map->drive, ledger->bytes, ledger->length);
    int error = pthread_create(&map->reader, NULL, read_all_lines, map);
    if (error) give_up("threads", strerror(error));
}

/* Says how far it is, once in two seconds. */
static void say_progress(struct map *map) {
    if (time(NULL) < map->next_line) return;
    map->next_line = time(NULL) + 2;
    say("%" PRIu64 " of %" PRIu64 " blocks", map->seen, map->total);
}

/* Writes all pieces. */
static bool write_pieces(int to, struct iovec *pieces, int count) {
    while (count > 0) {
        ssize_t written = writev(to, pieces, count);
        if (written < 0 && errno == EINTR) continue;
        if (written < 0) return false;
        for (; count > 0 && (size_t)written >= pieces->iov_len; pieces++, count--) written -= (ssize_t)pieces->iov_len;
        if (count > 0) pieces->iov_base = (uint8_t *)pieces->iov_base + written, pieces->iov_len -= (size_t)written;
    }
    return true;
}

/* What is told of blocks that aren't read: a 0 of each. */
static const uint8_t not_read[1 << 16];

/* Puts there what is told of the blocks before the next one that is asked for, as far as that goes at once, and
 * returns in how many pieces. */
static int put_gap(struct map *map, struct iovec *piece) {
    uint64_t gap = next_asked(&map->asked, map->seen) - map->seen;
    if (gap > sizeof not_read) gap = sizeof not_read;
    *piece = (struct iovec){(void *)(uintptr_t)not_read, (size_t)gap};
    map->seen += gap;
    return gap > 0;
}

bool map_blocks(struct map *map, const void *bytes, size_t length) {
    static uint8_t is_read = 1;
    size_t size = map->region.block_size;
    for (size_t at = 0; at < length;) {
        struct iovec pieces[MOST_PIECES];
        int count = 0;
        while (count + OF_A_BLOCK <= MOST_PIECES && at < length) {
            count += put_gap(map, pieces + count);
            if (!is_asked(&map->asked, map->seen)) continue;
            pieces[count++] = (struct iovec){&is_read, 1};
            pieces[count++] = (struct iovec){(uint8_t *)(uintptr_t)bytes + at, size};
            map->seen++, at += size;
        }
        if (!write_pieces(map->drive.to, pieces, count)) return false;
    }
    say_progress(map);
    return true;
}

/* Tells it that so many blocks aren't read. */
static bool pass_over(struct map *map, uint64_t count) {
    bool goes_on = true;
    map->seen += count;
    while (goes_on && count) {
        size_t part = count < sizeof not_read ? (size_t)count : sizeof not_read;
        goes_on = write_all(map->drive.to, not_read, part) == 0;
        count -= part;
    }
    return goes_on;
}

bool map_missed(struct map *map) {
    return pass_over(map, next_asked(&map->asked, map->seen) + 1 - map->seen);
}

bool map_all_missed(struct map *map) {
    return pass_over(map, map->total - map->seen);
}

/* Cuts the ledger off, whose bytes may be any, and which stands behind a line that says how many. */
static void cut_ledger_off(struct map *map) {
    char *line = map->text, *end = map->text + map->length, *behind;
    size_t length;
    while (line < end && strncmp(line, "ledger ", 7)) {
        behind = memchr(line, '\n', (size_t)(end - line));
        line = behind ? behind + 1 : end;
    }
    if (line == end) return;
    behind = memchr(line, '\n', (size_t)(end - line));
    if (!behind || sscanf(line, "ledger %zu\n", &length) != 1 || (size_t)(end - behind - 1) != length) give_up("drive", "it ended within its ledger");
    map->ledger = (const uint8_t *)behind + 1, map->ledger_length = length;
    map->length = (size_t)(line - map->text);
    *line = 0;
}

void await_map(struct map *map) {
    pass_over(map, next_asked(&map->asked, map->seen) - map->seen);
    end_input(&map->drive);
    pthread_join(map->reader, NULL);
    if (wait_for(&map->drive) < 0) give_up("drive", "it was killed");
    if (map->basis.ledger) cut_ledger_off(map);
}

const char *report_of_map(const struct map *map) {
    const char *end = map->length > 1 ? memrchr(map->text, '\n', map->length - 1) : NULL;
    return end ? end + 1 : map->text;
}

/* How many blocks a line `unchecked 5-9 12-12` names. */
static uint64_t count_unchecked(const char *line) {
    uint64_t from, to, count = 0;
    int used;
    for (line += strlen("unchecked"); sscanf(line, " %" SCNu64 "-%" SCNu64 "%n", &from, &to, &used) == 2; line += used) count += to - from + 1;
    return count;
}

void print_map(const struct map *map, bool is_whole) {
    const char *line = map->text;
    if (is_whole && isatty(STDOUT_FILENO) && !strncmp(report_of_map(map), "report ", 7)) print_picture(map->text, map->total);
    while (!is_whole && *line && strncmp(line, "unchecked", 9)) line += strcspn(line, "\n") + (strchr(line, '\n') != NULL);
    size_t length = strcspn(line, "\n");
    bool is_short = is_whole || length <= SHORT_LINE;
    fwrite(map->text, 1, (size_t)(line - map->text), stdout);
    if (!is_short) printf("unchecked %" PRIu64 " blocks, which a map tells", count_unchecked(line));
    fputs(is_short ? line : line + length, stdout);
}

void keep_ledger_of(const struct map *map, const char drive[MAX_DRIVE]) {
    if (map->ledger) keep_ledger(&map->basis, &map->region, drive, map->ledger, map->ledger_length);
    else say("%s: this check gave no ledger: the one before it stands", map->basis.ledger->path);
}

void free_map(struct map *map) {
    free(map->text);
}
