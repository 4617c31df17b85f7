/* Tells each order of `drive write` as done and writes nothing, for harness/speed: what `drive` and
 * the pipes give at most. Called as sink JOBFILE, with FIOCUT and DRIVE. */
#include "bytes.h"
#include "drive.h"
#include "job.h"
#include "notice.h"
#include "say.h"
#include "slots.h"

#include <errno.h>
#include <signal.h>
#include <sys/uio.h>

enum { MAX_DEPTH = 64 };

int main(int count, char **words) {
    static uint8_t notices[MAX_DEPTH + 2][NOTICE_BYTES];
    struct iovec pieces[2 * MAX_DEPTH + 2];
    struct slots slots;
    speak_as("sink");
    signal(SIGPIPE, SIG_IGN);
    if (count != 2) give_up("sink", "wants a job file");
    const struct job job = read_job(words[1], 0);
    struct child drive = start_drive("write", 1, &job, CHILD_READS | CHILD_WRITES | way_of_orders(job.depth, true));
    make_slots(&slots, job.block_size, job.depth + 1, PLAIN_HEAD);
    for (uint64_t told = 0; told < job.total;) {
        ssize_t length = readv(drive.from, pieces, next_room(&slots, pieces, 2 * (int)job.depth + 2));
        size_t here = 0;
        if (length < 0 && errno == EINTR) continue;
        if (length <= 0) give_up("drive", "it ended early");
        slots.part += (size_t)length;
        for (size_t slot; next_order(&slots, &slot); told++) {
            put_notice(notices[here++], DONE, order_of(&slots, slot).write);
            give_back(&slots, slot);
        }
        if (told == job.total) put_notice(notices[here++], TAKE, 0);
        write_all(drive.to, notices, here * sizeof *notices);
    }
    return wait_for(&drive) == 0 ? STATUS_SOUND : STATUS_FAILED;
}
