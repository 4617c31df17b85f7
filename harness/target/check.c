#include "commands.h"

#include "bytes.h"
#include "dump.h"
#include "flight.h"
#include "identity.h"
#include "ledger.h"
#include "map.h"
#include "reading.h"
#include "say.h"
#include "seeded.h"
#include "state.h"
#include "verdict.h"

#include <inttypes.h>

/* What a target is checked by, and the target. */
struct subject {
    struct kept kept; /* of no state in a full pass, and where that was lost */
    struct job job;   /* as the run had it */
    struct ledger ledger;
    struct basis basis;
    struct region region;
    struct target target;
    char drive[MAX_DRIVE];
    struct map map;
};

static void open_ledger(struct subject *subject, const struct options *options) {
    const char *state = has_no_state(options) ? NULL : options->state, *drive = options->other_drive ? "" : subject->drive;
    refuse_ledger_place(options->ledger, options->job_file, state, options->opening.name);
    subject->ledger = ledger_to_check(options->ledger, &subject->region, drive, state, &subject->kept);
    flush_target(&subject->target);
}

static void open_subject(struct subject *subject, const struct options *options, const struct job *job) {
    bool has_state = !has_no_state(options);
    if (has_state) read_kept(options->state, &subject->kept);
    subject->job = has_state ? job_to_check(options->state, &subject->kept, job) : *job;
    subject->region = has_state ? region_to_check(options->state, &subject->kept, job, options->offset, options->stride) : region_of(job, options->offset, options->stride);
    if (options->run || options->lost) subject->kept.run = options->run ? options->run : draw_number();
    subject->target = open_to_read(&options->opening, &subject->region);
    tell_drive(&subject->target, subject->drive);
    if (!options->other_drive) refuse_other_drive(options->state, &subject->kept, subject->drive);
    if (options->ledger) open_ledger(subject, options);
    subject->basis = basis_of(&subject->kept, options->ledger ? &subject->ledger : NULL, options->lost);
    if (subject->target.size < end_of(&subject->region))
        say("%s: it ends after %" PRIu64 " bytes, before the job's region does", subject->target.name, subject->target.size);
}

static bool give_blocks(void *subject, const void *bytes, size_t length) {
    return map_blocks(&((struct subject *)subject)->map, bytes, length);
}

static bool pass_over(void *given, uint64_t block, const char *why) {
    struct subject *subject = given;
    say("%s: block %" PRIu64 " can't be read: %s", subject->target.name, block, why);
    return map_missed(&subject->map);
}

static bool is_of_server_0(const struct kept *kept) {
    return !is_state(kept->state, kept->length) || server_of_state(kept->state) == 0;
}

/* Reads these blocks of the target. */
static void read_target(const struct subject *subject, const struct asked *asked, const struct sink *sink) {
    static struct reader reader;
    open_reader(&reader, &subject->target, &subject->region);
    read_asked(&reader, asked, sink);
    close_reader(&reader);
}

/* Keeps what the faulty blocks hold, and what they may. */
static void dump_target(struct subject *subject, const struct options *options) {
    struct dump dump = open_dump(options->state, &subject->map, options->dump);
    if (dump.count) {
        const struct sink sink = sink_of_dump(&dump);
        read_target(subject, &dump.asked, &sink);
        if (is_of_server_0(&subject->kept)) keep_wanted(&dump, subject->kept.run, &subject->job);
        else say("what the blocks may hold isn't kept: the state is one of a fleet's, and `drive` makes the writes of its server 0 alone");
    }
    free_dump(&dump);
}

int check_target(const struct options *options, const struct job *job) {
    static struct subject subject;
    char boot[MAX_BOOT];
    open_subject(&subject, options, job);
    struct child asking = start_asking(&subject.job, &subject.region, &subject.basis);
    open_map(&subject.map, &subject.job, &subject.region, &subject.basis); /* (both at once: each goes through the job) */
    subject.map.asked = end_asking(&asking, subject.region.blocks);
    read_target(&subject, &subject.map.asked, &(struct sink){&subject, give_blocks, pass_over});
    await_map(&subject.map);
    print_map(&subject.map, options->command == MAP);
    tell_boot(boot);
    int status = tell_verdict(&subject.map, options->state, &subject.kept, boot);
    dump_target(&subject, options);
    if (options->ledger) keep_ledger_of(&subject.map, subject.drive);
    free_ledger(&subject.ledger);
    free_asked(&subject.map.asked);
    free_map(&subject.map);
    return status;
}
