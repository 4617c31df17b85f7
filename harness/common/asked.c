#include "asked.h"

#include "bytes.h"
#include "drive.h"
#include "flight.h"
#include "say.h"

#include <errno.h>
#include <stdlib.h>
#include <string.h>

/* A line that `drive` says in the place of the bits is shorter. */
enum { MAX_LINE = 512 };

size_t bytes_of_bits(uint64_t count) {
    return (size_t)((count + 7) / 8);
}

bool is_asked(const struct asked *asked, uint64_t block) {
    uint64_t at = block - asked->first;
    return !asked->bits || asked->bits[at / 8] >> at % 8 & 1;
}

uint64_t next_asked(const struct asked *asked, uint64_t block) {
    const uint64_t end = asked->first + asked->count;
    while (block < end && !is_asked(asked, block)) {
        uint64_t at = block - asked->first;
        block += at % 8 || asked->bits[at / 8] ? 1 : 8; /* (a byte that has no bit is passed over at once) */
    }
    return block < end ? block : end;
}

/* So many bytes of a ledger stand for a block that it asks for, about; and so many blocks are many. */
enum { LEDGER_BYTES = 16, MANY_BLOCKS = 16384 };

/* Whether all blocks are read sooner than it is said which: they are many, lie one behind the other, and a
 * quarter of them or more is asked for, by the state or by the ledger. */
static bool reads_all(const struct job *job, const struct region *region, const struct basis *basis) {
    const struct kept *kept = basis->kept;
    const uint64_t done = is_state(kept->state, kept->length) ? done_in(kept->state) : kept->length ? 0 : job->total;
    const uint64_t by_ledger = basis->ledger ? basis->ledger->length / LEDGER_BYTES : 0;
    return region->blocks >= MANY_BLOCKS && region->stride == region->block_size && (done >= region->blocks / 4 || by_ledger >= region->blocks / 4);
}

/* It has the words and the input of the check, but for the blocks. A map goes by a ledger that asks for nothing. */
struct child start_asking(const struct job *job, const struct region *region, const struct basis *basis) {
    if (reads_all(job, region, basis)) return (struct child){0};
    const bool is_lost = !strcmp(basis->command, "ledger-lost"), is_rest = !strcmp(basis->command, "ledger-rest");
    const struct kept *kept = basis->kept;
    struct job its = *job;
    its.unit = 0, its.server = is_state(kept->state, kept->length) ? server_of_state(kept->state) : 0;
    struct child drive = start_drive(is_lost ? "wanted-lost" : is_rest ? "wanted-rest" : "wanted", kept->run, &its, CHILD_READS | CHILD_WRITES);
    if (!is_lost && !is_rest) feed(&drive, kept->state, kept->length);
    feed(&drive, basis->ledger ? basis->ledger->bytes : NULL, basis->ledger ? basis->ledger->length : 0);
    end_input(&drive);
    return drive;
}

/* Says once that it is older. */
static void tell_older(void) {
    static bool is_told;
    if (!is_told) say("`drive` is older than this harness, and doesn't say which blocks a check goes by: all of them are read");
    is_told = true;
}

struct asked end_asking(struct child *drive, uint64_t blocks) {
    if (!drive->pid) return (struct asked){0, blocks, NULL};
    const size_t length = bytes_of_bits(blocks), room = length + MAX_LINE;
    uint8_t *said = calloc(room, 1);
    if (!said) give_up("memory", strerror(ENOMEM));
    ssize_t have = read_all(drive->from, said, room - 1);
    int status = wait_for(drive);
    if (status < 0) give_up("drive", "it was killed");
    if (status == STATUS_SOUND && have == (ssize_t)length) return (struct asked){0, blocks, said};
    if (status == STATUS_SOUND) give_up("drive", "it doesn't say of each block whether a check goes by it");
    if (!strncmp((char *)said, "bad command", strlen("bad command"))) tell_older();
    free(said);
    return (struct asked){0, blocks, NULL};
}

void free_asked(struct asked *asked) {
    free((void *)(uintptr_t)asked->bits);
    asked->bits = NULL;
}
