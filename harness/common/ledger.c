#include "ledger.h"

#include "bytes.h"
#include "child.h"
#include "keeping.h"
#include "program.h"
#include "say.h"
#include "sealed.h"

#include <errno.h>
#include <limits.h>
#include <stdio.h>
#include <stdlib.h>
#include <string.h>
#include <sys/stat.h>

/* How the file begins. */
static const char WHAT[] = "fiocut ledger 1";

/* What stands behind that and its sum: lines, and behind the last one the ledger. */
#define FORM REGION_FORM "run %" PRIu64 "\nkept %s\nledger %zu\n\n"
#define SCANNED REGION_SCANNED "run %" SCNu64 "\nkept %31[^\n]\nledger %zu"
enum { MAX_LINES = 1024 };

/* It goes to `drive` behind a length of 4 bytes. */
static const size_t MAX_LEDGER = UINT32_MAX;

void refuse_ledger_place(const char *path, const char *job_file, const char *state, const char *target) {
    const struct in_use others[] = {{target, "the target"}, {job_file, "the job file"}, {state, "the state's file"}, {NULL, NULL}};
    is_free(path, "ledger", others); /* (reading it tells whether it is a ledger) */
}

/* Reads the whole of a file, with a 0 behind it. Where there is none, it is NULL. */
static uint8_t *read_whole(const char *path, size_t *length) {
    struct stat is;
    if (stat(path, &is)) {
        if (errno == ENOENT) return NULL;
        give_up_by_errno(path);
    }
    if (!S_ISREG(is.st_mode)) give_up(path, "it is no file, and no ledger");
    if ((uint64_t)is.st_size > MAX_LEDGER) give_up(path, "it is too long for a ledger");
    uint8_t *bytes = malloc((size_t)is.st_size + 1);
    if (!bytes) give_up("memory", strerror(ENOMEM));
    ssize_t have = read_file(path, bytes, (size_t)is.st_size);
    if (have < 0) give_up_by_errno(path);
    bytes[have] = 0;
    *length = (size_t)have;
    return bytes;
}

/* Takes what stands behind the sum. Returns where the ledger begins in it, or 0 where it isn't all there. */
static size_t take_lines(const char *lines, size_t length, struct ledger *ledger) {
    struct region *region = &ledger->region;
    const char *end = strstr(lines, "\n\n");
    size_t used = end ? (size_t)(end + 2 - lines) : 0;
    int count = sscanf(lines, SCANNED, &region->offset, &region->stride, &region->block_size, &region->blocks, ledger->drive, &ledger->run, ledger->when, &ledger->length);
    take_dash(ledger->drive);
    return count == 8 && length - used == ledger->length ? used : 0;
}

struct ledger read_ledger(const char *path) {
    struct ledger ledger = {.path = path};
    size_t length = 0, front = front_of(WHAT);
    uint8_t *bytes = read_whole(path, &length);
    if (!bytes) return ledger;
    if (!is_called(WHAT, bytes, length)) give_up(path, "it holds what is no ledger");
    size_t at = is_sealed(WHAT, bytes, length) ? take_lines((char *)bytes + front, length - front, &ledger) : 0;
    if (!at) give_up(path, "its bytes aren't those that were kept: a check without it is by the state alone");
    memmove(bytes, bytes + front + at, ledger.length);
    ledger.bytes = bytes;
    return ledger;
}

static void refuse_other_region(const struct ledger *ledger, const struct region *region) {
    char why[256];
    const struct region *its = &ledger->region;
    bool is_same = its->offset == region->offset && its->stride == region->stride && its->block_size == region->block_size && its->blocks == region->blocks;
    if (!ledger->bytes || is_same) return;
    snprintf(why, sizeof why, "it is the ledger of another region: of %" PRIu64 " blocks of %" PRIu64 " bytes, with --offset %" PRIu64 " --stride %" PRIu64, its->blocks, its->block_size, its->offset, its->stride);
    give_up(ledger->path, why);
}

static void refuse_ledger_of_other_drive(const struct ledger *ledger, const char drive[MAX_DRIVE]) {
    char why[2 * MAX_DRIVE + 80];
    if (!ledger->bytes || !*ledger->drive || !*drive || !strcmp(ledger->drive, drive)) return;
    snprintf(why, sizeof why, "it is the ledger of another drive (%s), and this is (%s); --other-drive takes it all the same", ledger->drive, drive);
    give_up(ledger->path, why);
}

static void refuse_earlier(const struct ledger *ledger, const char *state, const struct kept *kept) {
    if (!*kept->when) give_up(state, "it doesn't say when it was kept: a ledger takes the file of a state alone");
    if (!ledger->bytes || kept->run == ledger->run || strcmp(kept->when, ledger->when) > 0) return;
    char why[PATH_MAX + 160];
    snprintf(why, sizeof why, "it was kept at %s, and %s knows of a later run, of %s: check it without --ledger", kept->when, ledger->path, ledger->when);
    give_up(state, why);
}

/* Gives up where `drive` takes no ledgers: before the power is cut, and not behind that. */
static void refuse_old_drive(const char *path) {
    char name[] = "drive", command[] = "ledger-rest", run[] = "1", job[] = "0", said[32] = "";
    char *words[] = {name, command, run, job, NULL};
    struct child drive = start_child(program_of("DRIVE", name), words, CHILD_READS | CHILD_WRITES | CHILD_APART);
    end_input(&drive);
    read_all(drive.from, said, sizeof said - 1);
    wait_for(&drive);
    if (!strncmp(said, "bad command", strlen("bad command"))) give_up(path, "`drive` is older than this harness, and takes no ledgers: check without --ledger, and in a series with --no-ledger");
}

struct ledger ledger_to_check(const char *path, const struct region *region, const char drive[MAX_DRIVE], const char *state, const struct kept *kept) {
    const struct ledger ledger = read_ledger(path);
    refuse_old_drive(path);
    refuse_other_region(&ledger, region);
    refuse_ledger_of_other_drive(&ledger, drive);
    if (state) refuse_earlier(&ledger, state, kept);
    return ledger;
}

struct basis basis_of(const struct kept *kept, const struct ledger *ledger, bool is_lost) {
    const char *command = "map";
    if (ledger) command = is_lost ? "ledger-lost" : ledger->bytes && ledger->run == kept->run ? "ledger-rest" : "ledger";
    return (struct basis){command, kept, ledger};
}

void keep_ledger(const struct basis *basis, const struct region *region, const char drive[MAX_DRIVE], const void *bytes, size_t length) {
    const struct ledger *old = basis->ledger;
    const bool is_rest = !strcmp(basis->command, "ledger-rest");
    char when[MAX_WHEN];
    const size_t front = front_of(WHAT);
    uint8_t *kept = malloc(front + MAX_LINES + length);
    if (!kept) give_up("memory", strerror(ENOMEM));
    if (is_rest || *basis->kept->when) memcpy(when, is_rest ? old->when : basis->kept->when, MAX_WHEN);
    else tell_moment(when);
    size_t used = (size_t)snprintf((char *)kept + front, MAX_LINES, FORM, region->offset, region->stride, region->block_size, region->blocks, or_dash(drive), basis->kept->run, when, length);
    memcpy(kept + front + used, bytes, length);
    seal(WHAT, kept, used + length);
    keep_file(old->path, kept, front + used + length);
    free(kept);
}

void free_ledger(struct ledger *ledger) {
    free(ledger->bytes);
    ledger->bytes = NULL;
}
