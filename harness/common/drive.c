#include "drive.h"

#include "bytes.h"
#include "cpu.h"
#include "program.h"
#include "say.h"
#include "state.h"

#include <endian.h>
#include <inttypes.h>
#include <stdio.h>
#include <string.h>

/* So many notices are told in one write, which a pipe keeps whole. */
enum { AT_ONCE = 256 };

struct child start_drive(const char *command, uint64_t run, const struct job *job, int pipes) {
    char name[] = "drive", word[16], run_word[24], job_word[24], server_option[] = "--server", server_word[24], unit_option[] = "--unit", unit_word[24];
    char *words[] = {name, word, run_word, job_word, NULL, NULL, NULL, NULL, NULL}, **end = words + 4;
    bool writes = !strcmp(command, "write");
    snprintf(word, sizeof word, "%s", command);
    snprintf(run_word, sizeof run_word, "%" PRIu64, run);
    snprintf(job_word, sizeof job_word, "%" PRIu64, job->number);
    snprintf(server_word, sizeof server_word, "%" PRIu64, job->server);
    snprintf(unit_word, sizeof unit_word, "%" PRIu64, job->unit);
    if (!writes && job->server) *end++ = server_option, *end++ = server_word;
    if (!writes && job->unit) *end++ = unit_option, *end++ = unit_word;
    struct child child = start_child(program_of("DRIVE", name), words, pipes | CHILD_APART);
    feed(&child, job->text, job->text_length);
    return child;
}

struct child start_tour(const struct job *job) {
    char name[] = "drive", word[] = "tour", job_word[24];
    snprintf(job_word, sizeof job_word, "%" PRIu64, job->number);
    struct child child = start_child(program_of("DRIVE", name), (char *[]){name, word, job_word, NULL}, CHILD_READS | CHILD_WRITES | CHILD_APART);
    feed(&child, job->text, job->text_length);
    return child;
}

void feed(const struct child *child, const void *bytes, size_t length) {
    uint32_t front = htobe32((uint32_t)length);
    if (write_all(child->to, &front, sizeof front) == 0) write_all(child->to, bytes, length);
}

int way_of_orders(uint64_t depth, bool cached) {
    return cached && depth >= DEEP && own_processors() > 1 ? CHILD_BY_SOCKET : 0;
}

void open_drive(struct drive *drive, uint64_t run, const struct job *job, uint64_t after, int way) {
    *drive = (struct drive){.lock = PTHREAD_MUTEX_INITIALIZER, .changed = PTHREAD_COND_INITIALIZER};
    drive->after = after && after < job->total ? after : job->total;
    drive->child = start_drive("write", run, job, CHILD_READS | CHILD_WRITES | way);
}

/* Once `drive` has ended a notice reaches nobody, and what it said last says why. */
void tell_endings(struct drive *drive, const struct ending *endings, size_t count) {
    uint8_t notices[AT_ONCE][NOTICE_BYTES];
    size_t length = 0;
    pthread_mutex_lock(&drive->lock);
    for (size_t at = 0; at < count && !drive->is_taken; at++) {
        drive->done += endings[at].is_done;
        drive->failed += !endings[at].is_done;
        put_notice(notices[length++], endings[at].is_done ? DONE : FAILED, endings[at].write);
        drive->is_taken = drive->failed || drive->done >= drive->after;
        if (drive->is_taken) put_notice(notices[length++], TAKE, 0);
        if (length + 2 <= AT_ONCE && at + 1 < count && !drive->is_taken) continue;
        write_all(drive->child.to, notices, length * sizeof *notices);
        length = 0;
    }
    pthread_mutex_unlock(&drive->lock);
}

void tell_take(struct drive *drive) {
    uint8_t notice[NOTICE_BYTES];
    put_notice(notice, TAKE, 0);
    pthread_mutex_lock(&drive->lock);
    if (!drive->is_taken) write_all(drive->child.to, notice, sizeof notice);
    drive->is_taken = true;
    pthread_mutex_unlock(&drive->lock);
}

void note_last(struct drive *drive, const void *bytes, size_t length) {
    pthread_mutex_lock(&drive->lock);
    drive->last_length = length < MAX_LAST ? length : MAX_LAST;
    memcpy(drive->last, bytes, drive->last_length);
    drive->is_ended = true;
    pthread_cond_broadcast(&drive->changed);
    pthread_mutex_unlock(&drive->lock);
}

uint64_t done_by_now(struct drive *drive, bool *is_taken) {
    pthread_mutex_lock(&drive->lock);
    uint64_t done = drive->done;
    *is_taken = drive->is_taken;
    pthread_mutex_unlock(&drive->lock);
    return done;
}

/* Waits until it gives no more orders, and has ended; from then on nothing is told. Returns its
 * exit status, or -1 where a signal ended it. */
static int await_end(struct drive *drive) {
    pthread_mutex_lock(&drive->lock);
    while (!drive->is_ended) pthread_cond_wait(&drive->changed, &drive->lock);
    drive->is_taken = true;
    int status = wait_for(&drive->child);
    pthread_mutex_unlock(&drive->lock);
    return status;
}

void await_state(struct drive *drive) {
    int status = await_end(drive);
    bool is_state = drive->last_length >= 4 && drive->last_length <= MAX_STATE && !memcmp(drive->last, "FCV", 3);
    if (status == 0 && is_state) return;
    drive->last[drive->last_length < MAX_LAST ? drive->last_length : MAX_LAST - 1] = 0;
    char *words = (char *)drive->last;
    words[strcspn(words, "\n")] = 0;
    if (status < 0) give_up("drive", "it was killed, and there is no state");
    give_up("drive", *words && !is_state ? words : "it ended without a state");
}
