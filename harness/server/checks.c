#include "checks.h"

#include "bytes.h"
#include "say.h"
#include "wanted.h"

#include <inttypes.h>
#include <stdlib.h>
#include <string.h>

/* Where it stands in a record what a check wants: behind the attempt. */
enum { WANTED_AT = WANT_BYTES - WANTED_BYTES };

/* Tells the blocks that can be read from the first one on, or that it can't. */
static void answer_want(struct checks *checks, const uint8_t *bytes) {
    struct want want = want_in(bytes + WANTED_AT);
    if (!is_want(&want)) give_up("fiocut_node", "it wants more blocks than there are");
    struct found found = read_wanted(checks->lanes, checks->lane_count, &want);
    struct iovec pieces[] = {{(void *)(uintptr_t)bytes, BLOCKS_NAME}, {found.bytes, found.length}};
    if (found.why) say("%s: block %" PRIu32 " of job %" PRIu32 " can't be read: %s", found.name, want.first, want.job, found.why);
    tell_node(checks->node, found.why ? RECORD_UNREAD : RECORD_BLOCKS, pieces, found.why ? 1 : 2);
    checks->read += found.length;
    free(found.bytes);
}

static void *work(void *given) {
    struct checks *checks = given;
    uint8_t bytes[WANT_BYTES];
    while (read_all(checks->wants[0], bytes, sizeof bytes) == sizeof bytes) {
        await_room(checks->node);
        answer_want(checks, bytes);
    }
    return NULL;
}

void start_checks(struct checks *checks) {
    pthread_t thread;
    make_pipe(checks->wants);
    int error = pthread_create(&thread, NULL, work, checks);
    if (error) give_up("threads", strerror(error));
    pthread_detach(thread);
}

void take_want(struct checks *checks, const struct record *record) {
    if (record->length != WANT_BYTES) give_up("fiocut_node", "what its check wants can't be read");
    if (write_all(checks->wants[1], record->body, WANT_BYTES)) give_up_by_errno("pipe");
}
