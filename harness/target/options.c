#include "options.h"

#include "say.h"
#include "words.h"

#include <stdio.h>
#include <stdlib.h>
#include <string.h>

static const char USAGE[] =
    "usage: drive-target write JOBFILE TARGET STATE [OPTIONS]     writes, and keeps the state in the file STATE\n"
    "       drive-target check JOBFILE TARGET STATE|- [OPTIONS]   checks the target by that state, and tells what each faulty block\n"
    "                                                             holds; `-`: a full pass\n"
    "       drive-target map JOBFILE TARGET STATE|- [OPTIONS]     the same, on a terminal with a picture of the region\n"
    "       drive-target --version                                which version this is\n"
    "  --job N           job N of the file, from 0\n"
    "write:\n"
    "  --after N         takes the state once N writes are done\n"
    "  --trigger FILE    takes it once there is such a file\n"
    "  --keep COMMAND    has a shell run COMMAND with the state on its input, too\n"
    "  --cut COMMAND     has a shell run COMMAND once the state is kept\n"
    "  --flush N         tells writes as done behind a flush: N of them, or fewer where no other is out\n"
    "  --promise WORD    what the drive has to promise: fua, that it keeps each write as it tells it as done (O_DSYNC); flush, what it\n"
    "                    told before a flush, with --flush; through, each write that it tells as done, without being asked\n"
    "  --by WORD         writes by ring, which is io_uring, or by threads; without it by a ring where there is one\n"
    "  --queue N         has N writes at the target at once, at most: what else is ordered waits for one of them to end\n"
    "  --cpu N           runs on processor N alone, with `drive`: the turns between the two are cheaper\n"
    "  --yes             writes over what the target holds; what is mounted or in use it never writes\n"
    "  --torn            takes blocks that are larger than what the device writes whole\n"
    "  --atomic          writes each block by an atomic write, RWF_ATOMIC, where the system tells of such writes of its size\n"
    "check, map:\n"
    "  --run N           checks as run N, which a full pass has to say\n"
    "  --unit BYTES      the target writes so many bytes whole, and not a block\n"
    "  --dump N          keeps the bytes of the first N faulty blocks, and of the writes that they may hold, beside STATE\n"
    "  --ledger FILE     also checks what was sound before and no run has written since, by the ledger that FILE keeps, and keeps\n"
    "                    the one behind this check there; the target is flushed first\n"
    "  --lost            with --ledger, and - for the state: a run of this job whose state was lost\n"
    "  --other-drive     checks another drive than the one that the run wrote to, as one with a copy of it\n"
    "all:\n"
    "  --offset BYTES    where the first block begins, 0 else; --stride BYTES: from one block's front to the next\n"
    "  --cached          without O_DIRECT and O_DSYNC; of --files without fsync\n"
    "  --files           TARGET is a folder, and each block a file of its own in it: a new file, fsync, rename, and fsync of the folder\n"
    "FIOCUT and DRIVE name the two programs. It takes the state at SIGINT, SIGTERM and SIGHUP, too.\n"
    "status: 0; 1 the check found faults; 2 something failed or was refused; 3 the check checked no block\n";

/* The command of this name, or 0. */
static enum command command_of(const char *name) {
    if (!strcmp(name, "write")) return WRITE;
    if (!strcmp(name, "check")) return CHECK;
    return strcmp(name, "map") ? 0 : MAP;
}

/* The command that the first word names, with three words behind it. */
static enum command read_command(int count, char **words) {
    answer_first_word(USAGE, count, words);
    enum command command = command_of(words[1]);
    if (!command) refuse_word(USAGE, words[1], "there is no such command");
    if (count < 5) refuse_word(USAGE, words[1], "JOBFILE, TARGET and STATE stand behind it");
    return command;
}

/* Refuses options that don't go together. */
static void refuse_unfit(const struct options *read) {
    if (read->command == WRITE && has_no_state(read)) give_up("-", "a state is kept in a file");
    if (read->lost && !(read->ledger && has_no_state(read))) give_up("--lost", "this wants --ledger, and - for the state");
    if (read->ledger && read->unit) give_up("--unit", "a ledger goes by whole blocks: it isn't to be had with --ledger yet");
    if (read->opening.files && read->unit) give_up("--unit", "with --files a block is as whole as its file");
    if (read->command != WRITE && has_no_state(read) && !read->lost && read->run == 0) give_up("-", "a full pass wants --run, the number of the run that wrote");
    if (read->dump && has_no_state(read)) give_up("--dump", "there is no state's file beside which bytes could be kept");
}

struct options read_options(int count, char **words) {
    struct options read = {.command = read_command(count, words)};
    const struct option all[] = {
        {"--job", 0, &read.job, 0, WRITE | CHECK | MAP},
        {"--after", 0, &read.after, 0, WRITE | FROM_1},
        {"--trigger", &read.trigger, 0, 0, WRITE},
        {"--keep", &read.keep, 0, 0, WRITE},
        {"--cut", &read.cut, 0, 0, WRITE},
        {"--flush", 0, &read.way.flush, 0, WRITE | FROM_1},
        {"--promise", &read.way.promise, 0, 0, WRITE},
        {"--by", &read.way.by, 0, 0, WRITE},
        {"--queue", 0, &read.queue, 0, WRITE | FROM_1},
        {"--cpu", &read.cpu, 0, 0, WRITE},
        {"--yes", 0, 0, &read.opening.yes, WRITE},
        {"--torn", 0, 0, &read.opening.torn, WRITE},
        {"--atomic", 0, 0, &read.opening.atomic, WRITE},
        {"--run", 0, &read.run, 0, CHECK | MAP | FROM_1},
        {"--unit", 0, &read.unit, 0, CHECK | MAP | FROM_1},
        {"--dump", 0, &read.dump, 0, CHECK | MAP},
        {"--ledger", &read.ledger, 0, 0, CHECK | MAP},
        {"--lost", 0, 0, &read.lost, CHECK | MAP},
        {"--other-drive", 0, 0, &read.other_drive, CHECK | MAP},
        {"--offset", 0, &read.offset, 0, WRITE | CHECK | MAP},
        {"--stride", 0, &read.stride, 0, WRITE | CHECK | MAP | FROM_1},
        {"--cached", 0, 0, &read.opening.cached, WRITE | CHECK | MAP},
        {"--files", 0, 0, &read.opening.files, WRITE | CHECK | MAP},
        {0, 0, 0, 0, 0},
    };
    read.job_file = words[2], read.opening.name = words[3], read.state = words[4];
    read_words(all, (int)read.command, count - 5, words + 5);
    refuse_unfit(&read);
    return read;
}

bool has_no_state(const struct options *options) {
    return strcmp(options->state, "-") == 0;
}
