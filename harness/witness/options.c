#include "options.h"

#include "say.h"

#include <errno.h>
#include <stdio.h>
#include <stdlib.h>
#include <string.h>

static const char USAGE[] =
    "usage: drive-witness write JOBFILE STATE --link COMMAND [OPTIONS]    has an agent write, until the link ends, and keeps the state\n"
    "       drive-witness check JOBFILE STATE --link COMMAND [OPTIONS]    checks what an agent reads by that state\n"
    "       drive-witness map JOBFILE STATE --link COMMAND [OPTIONS]      the same, and tells what each faulty block holds\n"
    "       drive-witness cycle JOBFILE FOLDER --link COMMAND --off COMMAND --on COMMAND [OPTIONS]\n"
    "                                                    writes, cuts, checks, again and again, and keeps all in FOLDER\n"
    "       drive-witness tour JOBFILE FOLDER --link COMMAND --off COMMAND --on COMMAND [OPTIONS]\n"
    "                                                    the same over a whole drive: many regions of the job, some at once\n"
    "       drive-witness --version    which version this is\n"
    "  --link COMMAND    a shell runs it: the way to drive-agent, as 'ssh dut drive-agent /dev/disk/by-id/X'\n"
    "  --job N           job N of the file, from 0\n"
    "  --offset BYTES    where the first block begins, 0 else; --stride BYTES: from one block's front to the next\n"
    "  --wait SECONDS    so long for the link to be there: 30, in a cycle or tour 600\n"
    "  --quiet MS        silence so long, while writes are out, is the cut; in a cycle 10000, with --drive-only 200000\n"
    "write, cycle:\n"
    "  --local           the agent has a drive of its own, DRIVE there: for a link too slow for the blocks\n"
    "check, map, cycle, tour:\n"
    "  --unit BYTES      the target writes so many bytes whole, and not a block\n"
    "  --dump N          keeps the bytes of the first N faulty blocks, and of the writes that they may hold: none, in a cycle or tour 16\n"
    "check, map:\n"
    "  --ledger FILE     also checks what was sound before and no run has written since, by the ledger that FILE keeps, and keeps\n"
    "                    the one behind this check there; the agent flushes its target first\n"
    "  --lost            with --ledger, and - for the state: a run of this job whose state was lost\n"
    "check, map, cycle, tour:\n"
    "  --other-drive     takes another drive than the one that was written, as one with a copy of it\n"
    "write:\n"
    "  --after N         takes the state once N writes are done\n"
    "cycle, tour:\n"
    "  --off COMMAND     cuts the power; --on COMMAND: gives it back\n"
    "  --every A..B      the cut comes after A to B seconds, drawn each time: 1..10\n"
    "  --seed S          draws them, and the orders, by this number\n"
    "  --same-order      each run has the order of the job file; else a random one that is drawn for it\n"
    "  --trust-off       takes the word of --off that the power was cut; else the machine has to be started anew by it\n"
    "  --drive-only      the drive alone loses its power: it is cut where its writes fail once --off has begun\n"
    "  --keep-going      goes on behind a cycle that had faults\n"
    "  --resume          goes on with what FOLDER has\n"
    "  --json            a line of JSON for each cycle\n"
    "cycle:\n"
    "  --cycles N        so many cycles; else until SIGINT\n"
    "  --link COMMAND    again, for each drive that shares their power: FOLDER/1, FOLDER/2.. have a series each\n"
    "  --no-ledger       checks what the run itself has written; else also what was sound before, by a ledger in FOLDER\n"
    "tour:\n"
    "  --cover BYTES     so much of the drive, from --offset on, as 64g or 4t; all of it else\n"
    "  --tiles K         K regions of the job are written at once, each by a run of its own: 4\n"
    "  --again N         behind each cut N regions that were checked before are checked again: 1\n"
    "  --tries N         a region whose run is cut is written again, until N runs were cut: 4\n"
    "FIOCUT and DRIVE name the two programs. SIGINT, SIGTERM and SIGHUP take the state, without a cut.\n"
    "status: 0; 1 faults were found; 2 something failed or was refused; 3 nothing was checked, or no cut was seen\n";

/* A number of seconds, as milliseconds; -1 where it is none. */
static double milliseconds_of(const char *text, size_t length) {
    char copy[32], *end;
    if (length == 0 || length >= sizeof copy) return -1;
    memcpy(copy, text, length);
    copy[length] = 0;
    double seconds = strtod(copy, &end);
    return *end || !(seconds >= 0 && seconds < 1e9) ? -1 : seconds * 1000;
}

/* Reads the seconds A..B. */
static void read_every(const char *text, struct options *read) {
    const char *dots = strstr(text, "..");
    double least = dots ? milliseconds_of(text, (size_t)(dots - text)) : -1, most = dots ? milliseconds_of(dots + 2, strlen(dots + 2)) : -1;
    if (least < 0 || most < least) give_up("--every", "this wants seconds, as 1..10");
    read->least = (uint64_t)least, read->most = (uint64_t)most;
}

static void refuse_missing(const struct options *read) {
    if (!read->links[0]) give_up("--link", "the command that leads to the agent has to be said");
    if (read->links[1] && read->command != CYCLE) give_up("--link", "only a cycle takes several");
    const bool has_no_state = read->command != CYCLE && !strcmp(read->place, "-");
    if (has_no_state && !read->lost) give_up("-", "there has to be a file for the state");
    if (read->lost && !(read->ledger && has_no_state)) give_up("--lost", "this wants --ledger, and - for the state");
    if (read->ledger && read->unit) give_up("--unit", "a ledger goes by whole blocks: it isn't to be had with --ledger yet");
    if (read->lost && read->dump) give_up("--dump", "there is no state's file beside which bytes could be kept");
    if (read->command & (CYCLE | TOUR) && (!read->off || !read->on)) give_up("--off, --on", read->command == TOUR ? "a tour wants both" : "a cycle wants both");
}

/* A number of bytes with a unit of 1024 behind it or without one; 0 for `all`. */
static uint64_t bytes_of(const char *word) {
    static const char units[] = "kmgt";
    char *end;
    errno = 0;
    const uint64_t number = strtoull(word, &end, 10);
    const char *unit = *end ? strchr(units, *end | 0x20) : NULL;
    const int shift = unit ? 10 * (int)(unit - units + 1) : 0;
    if (!strcmp(word, "all")) return 0;
    if (*word < '0' || *word > '9' || (unit && end[1]) || (*end && !unit) || errno || !number || number > UINT64_MAX >> (shift + 2)) give_up("--cover", "this wants a number of bytes, as 64g or 4t, or all");
    return number << shift;
}

/* What a command has where nothing else is said. */
static void set_defaults(struct options *read) {
    const bool cuts = read->command & (CYCLE | TOUR);
    read->link = read->links[0];
    if (!read->wait) read->wait = cuts ? 600 : 30;
    /* (a drive that has lost its power may hang until the kernel gives its writes up) */
    if (!read->quiet && cuts) read->quiet = read->drive_only ? 200000 : 10000;
    if (!read->tiles) read->tiles = 4;
    if (!read->tries) read->tries = 4;
    if (read->tiles > MOST_TILES) give_up("--tiles", "at most 64 regions are written at once");
}

/* The command that the first word names, with two words behind it. */
static enum command read_command(int count, char **words) {
    enum { COMMANDS = 5 };
    const char *const names[COMMANDS] = {"write", "check", "map", "cycle", "tour"};
    int at = 0;
    answer_first_word(USAGE, count, words);
    while (at < COMMANDS && strcmp(words[1], names[at])) at++;
    if (at == COMMANDS) refuse_word(USAGE, words[1], "there is no such command");
    if (count < 4) refuse_word(USAGE, words[1], at >= 3 ? "JOBFILE and FOLDER stand behind it" : "JOBFILE and STATE stand behind it");
    return (enum command)(1 << at);
}

struct options read_options(int count, char **words) {
    struct options read = {.command = read_command(count, words), .again = 1, .cover_word = "all"};
    read.dump = read.command & (CYCLE | TOUR) ? 16 : 0;
    const char *every = "1..10";
    const int all_commands = WRITE | CHECK | MAP | CYCLE | TOUR;
    const struct option all[] = {
        {"--link", read.links, 0, 0, all_commands | MANY},
        {"--job", 0, &read.job, 0, all_commands},
        {"--offset", 0, &read.offset, 0, all_commands},
        {"--stride", 0, &read.stride, 0, all_commands | FROM_1},
        {"--wait", 0, &read.wait, 0, all_commands | FROM_1},
        {"--quiet", 0, &read.quiet, 0, all_commands | FROM_1},
        {"--local", 0, 0, &read.local, WRITE | CYCLE},
        {"--unit", 0, &read.unit, 0, CHECK | MAP | CYCLE | TOUR | FROM_1},
        {"--dump", 0, &read.dump, 0, CHECK | MAP | CYCLE | TOUR},
        {"--other-drive", 0, 0, &read.other_drive, CHECK | MAP | CYCLE | TOUR},
        {"--ledger", &read.ledger, 0, 0, CHECK | MAP},
        {"--lost", 0, 0, &read.lost, CHECK | MAP},
        {"--no-ledger", 0, 0, &read.no_ledger, CYCLE},
        {"--trust-off", 0, 0, &read.trust_off, CYCLE | TOUR},
        {"--drive-only", 0, 0, &read.drive_only, CYCLE | TOUR},
        {"--after", 0, &read.after, 0, WRITE | FROM_1},
        {"--off", &read.off, 0, 0, CYCLE | TOUR},
        {"--on", &read.on, 0, 0, CYCLE | TOUR},
        {"--cycles", 0, &read.cycles, 0, CYCLE | FROM_1},
        {"--every", &every, 0, 0, CYCLE | TOUR},
        {"--seed", 0, &read.seed, 0, CYCLE | TOUR},
        {"--same-order", 0, 0, &read.same_order, CYCLE | TOUR},
        {"--keep-going", 0, 0, &read.keep_going, CYCLE | TOUR},
        {"--resume", 0, 0, &read.resume, CYCLE | TOUR},
        {"--json", 0, 0, &read.json, CYCLE | TOUR},
        {"--cover", &read.cover_word, 0, 0, TOUR},
        {"--tiles", 0, &read.tiles, 0, TOUR | FROM_1},
        {"--again", 0, &read.again, 0, TOUR},
        {"--tries", 0, &read.tries, 0, TOUR | FROM_1},
        {0, 0, 0, 0, 0},
    };
    read.job_file = words[2], read.place = words[3];
    read_words(all, (int)read.command, count - 4, words + 4);
    read_every(every, &read);
    read.cover = bytes_of(read.cover_word);
    refuse_missing(&read);
    set_defaults(&read);
    return read;
}
