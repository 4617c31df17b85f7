/* Runs on the machine under test: carries out the orders of a witness, or reads for it, and keeps
 * nothing. docs/DRIVE.md is the manual. */
#include "answers.h"
#include "bytes.h"
#include "cpu.h"
#include "executor.h"
#include "hello.h"
#include "local.h"
#include "requests.h"
#include "say.h"
#include "way.h"
#include "words.h"

#include <signal.h>
#include <stdio.h>
#include <stdlib.h>
#include <string.h>
#include <unistd.h>

static const char USAGE[] =
    "usage: drive-agent TARGET [OPTIONS]    on the machine under test; started by drive-witness --link\n"
    "       drive-agent --version              which version this is\n"
    "  --flush N    tells writes as done behind a flush: N of them, or fewer where no other is out\n"
    "  --promise P  what the drive has to promise: fua, flush (with --flush) or through; as drive-target has it\n"
    "  --by WORD    writes by ring, which is io_uring, or by threads; without it by a ring where there is one\n"
    "  --queue N    has N writes at the target at once, at most: what else is ordered waits for one of them to end\n"
    "  --cpu N      runs on processor N alone, with its own `drive` where it has one\n"
    "  --yes        writes over what the target holds; what is mounted or in use it never writes\n"
    "  --torn       takes blocks that are larger than what the device writes whole\n"
    "  --atomic     each block by an atomic write, RWF_ATOMIC, where the system tells of such writes of its size\n"
    "  --cached     without O_DIRECT and O_DSYNC; of --files without fsync\n"
    "  --files      TARGET is a folder, and each block a file of its own in it: a new file, fsync, rename, and fsync of the folder\n"
    "It is spoken to on standard input and answers on standard output. Status: 0; 2 something failed or was refused\n";

struct settings {
    struct opening opening;
    struct way way;
    enum by by;
    char words[MAX_WAY]; /* what writes rest on */
    uint64_t queue;
    const char *cpu;
};

static struct settings read_settings(int count, char **words) {
    struct settings read = {0};
    const struct option all[] = {
        {"--flush", 0, &read.way.flush, 0, 1 | FROM_1}, {"--promise", &read.way.promise, 0, 0, 1}, {"--by", &read.way.by, 0, 0, 1}, {"--queue", 0, &read.queue, 0, 1 | FROM_1}, {"--cpu", &read.cpu, 0, 0, 1}, {"--yes", 0, 0, &read.opening.yes, 1}, {"--torn", 0, 0, &read.opening.torn, 1}, {"--atomic", 0, 0, &read.opening.atomic, 1}, {"--cached", 0, 0, &read.opening.cached, 1}, {"--files", 0, 0, &read.opening.files, 1}, {0, 0, 0, 0, 0},
    };
    answer_first_word(USAGE, count, words);
    if (!strncmp(words[1], "--", 2)) refuse_word(USAGE, words[1], "TARGET stands first");
    read_words(all, 1, count - 2, words + 2);
    read.opening.name = words[1];
    read.by = settle_way(&read.way, &read.opening, read.words);
    return read;
}

/* Until it has welcomed the witness, the agent gives up before the witness's eyes. */
static void tell_refusal(const char *line) {
    uint8_t bytes[WELCOME_BYTES];
    struct welcome welcome = {.is_refused = true};
    snprintf(welcome.why, sizeof welcome.why, "%s", line);
    write_welcome(bytes, &welcome);
    write_all(STDOUT_FILENO, bytes, sizeof bytes);
}

static void welcome_witness(const struct settings *settings, const struct target *target, const struct hello *hello) {
    uint8_t bytes[WELCOME_BYTES];
    struct welcome welcome = {.size = target->size, .whole = target->whole, .flush = settings->way.flush, .cached = settings->opening.cached, .block_size = hello->region.block_size,
                              .blocks = hello->region.blocks, .unit = target->unit};
    tell_drive(target, welcome.drive), tell_boot(welcome.boot), memcpy(welcome.way, settings->words, MAX_WAY);
    if (!strcmp(target->cache, "write back")) welcome.cache = CACHE_WRITE_BACK;
    if (!strcmp(target->cache, "write through")) welcome.cache = CACHE_WRITE_THROUGH;
    write_welcome(bytes, &welcome);
    also_tell_end(NULL);
    answer(bytes, sizeof bytes);
}

static struct hello await_hello(void) {
    uint8_t bytes[HELLO_BYTES];
    struct hello hello;
    if (read_all(STDIN_FILENO, bytes, sizeof bytes) != sizeof bytes) {
        /* (a link that ended has nobody to tell; the next one on the same line would hear it) */
        also_tell_end(NULL);
        give_up("the link", "no witness said hello");
    }
    if (!read_hello(bytes, &hello)) give_up("the link", "what speaks there is no witness of this version");
    const struct region *region = &hello.region;
    bool is_possible = region->blocks && region->block_size && hello.depth && hello.depth <= 4096 && region->stride >= region->block_size;
    is_possible = is_possible && region->blocks <= INT64_MAX / 4 / region->stride && region->offset <= INT64_MAX / 4 && region->block_size <= 1 << 30;
    if (!is_possible) give_up("the link", "no job is as the witness says");
    return hello;
}

/* A part of an order may have come, where the link was cut within it: nothing is to be done of it.
 * The agent's own `drive` may say why it gives no more. */
static void take_last(void *hello, const void *bytes, size_t length) {
    if (((const struct hello *)hello)->is_local) tell_last_words(bytes, length);
}

static void write_for(const struct settings *settings, struct hello *hello) {
    static struct child drive;
    int orders = STDIN_FILENO;
    struct target target = open_to_write(&settings->opening, &hello->region);
    if (hello->is_local) {
        drive = start_own_drive(hello, settings->opening.cached);
        orders = drive.from;
        hand_back(&drive);
    }
    struct executor executor = {.target = &target, .region = hello->region, .depth = hello->depth, .flush = settings->way.flush, .queue = settings->queue, .by = settings->by, .may_share = true, .orders = orders, .summed = !hello->is_local,
                                .whose = hello, .tell = tell_witness, .tell_last = take_last};
    welcome_witness(settings, &target, hello);
    carry_out(&executor);
}

static void read_for(const struct settings *settings, const struct hello *hello) {
    struct target target = open_to_read(&settings->opening, &hello->region);
    if (hello->flushes) flush_target(&target);
    welcome_witness(settings, &target, hello);
    answer_requests(&target, &hello->region);
}

int main(int count, char **words) {
    speak_as("drive-agent");
    struct settings settings = read_settings(count, words);
    signal(SIGPIPE, SIG_IGN);
    if (settings.cpu) stay_on(number_of("--cpu", settings.cpu));
    also_tell_end(tell_refusal);
    struct hello hello = await_hello();
    settings.opening.drive = *hello.drive ? hello.drive : NULL;
    settings.opening.yes = settings.opening.yes || (hello.owns && settings.opening.drive);
    if (hello.writes) write_for(&settings, &hello);
    else read_for(&settings, &hello);
    return STATUS_SOUND;
}
