#include "run.h"

#include "asking.h"
#include "clock.h"
#include "dump.h"
#include "map.h"
#include "say.h"
#include "verdict.h"

#include <inttypes.h>
#include <stdio.h>
#include <stdlib.h>
#include <string.h>

/* So long a drive whose power is there again may answer no read: milliseconds. */
enum { READY_WITHIN = 60000 };

/* A check of a part of a region, which begins at this block of it. */
struct part {
    struct map *map;
    uint64_t first;
};

static bool give_blocks(void *part, const void *bytes, size_t length) {
    return map_blocks(((const struct part *)part)->map, bytes, length);
}

static bool pass_over(void *given, uint64_t block, const char *why) {
    const struct part *part = given;
    say("block %" PRIu64 " can't be read: %s", block - part->first, why);
    return map_missed(part->map);
}

static uint64_t quiet_of(const struct options *options) {
    return options->quiet ? options->quiet : options->wait * 1000;
}

/* What `drive` is asked, once for all tries of a check, while the link is awaited. */
struct question {
    struct child drive;
    struct asked asked; /* what it said, */
    bool is_answered;   /* once it was heard */
};

static const struct asked *answer_to(struct question *question, uint64_t blocks) {
    if (!question->is_answered) question->asked = end_asking(&question->drive, blocks);
    question->is_answered = true;
    return &question->asked;
}

/* Reads these blocks by an agent, and hands them on. Returns whether all came, or no more is wanted. */
static bool read_by_link(const struct options *options, const struct link *link, const struct asked *asked, const struct sink *sink) {
    return ask_blocks(link, asked) && hear_blocks(link, quiet_of(options), asked, sink);
}

void end_sitting(struct sitting *sitting) {
    if (sitting->is_open) end_link(&sitting->link);
    sitting->is_open = false;
}

/* A check that is to be made, of a part of a sitting's region. */
struct checking {
    const struct options *options;
    const struct job *job;
    struct region region; /* of the part, */
    uint64_t first;       /* which begins at this block of the sitting's */
    const struct basis *basis;
    struct question question;
};

static bool map_once(struct checking *checking, struct sitting *sitting, struct map *map) {
    open_map(map, checking->job, &checking->region, checking->basis);
    map->asked = *answer_to(&checking->question, map->total);
    struct asked asked = map->asked;
    asked.first += checking->first;
    struct part part = {map, checking->first};
    bool is_whole = read_by_link(checking->options, &sitting->link, &asked, &(struct sink){&part, give_blocks, pass_over});
    await_map(map);
    if (!is_whole) end_sitting(sitting);
    return is_whole;
}

/* Whether a check that has come to its end is to be tried again: its drive lost its power alone, blocks
 * of it can't be read, and it may not be ready yet. */
static bool may_be_early(const struct options *options, const struct map *map, uint64_t since) {
    const struct verdict verdict = verdict_of(map);
    return options->drive_only && verdict.is_report && strstr(verdict.kinds, "unread") && milliseconds() - since < READY_WITHIN;
}

/* Each block of a target that isn't there any more is one that can't be read. */
static void map_nothing(const struct checking *checking, const char *why, struct map *map) {
    say("the target can't be read: %s", why);
    open_map(map, checking->job, &checking->region, checking->basis);
    map_all_missed(map);
    await_map(map);
}

static void check_asked(struct checking *checking, struct sitting *sitting, struct map *map, struct welcome *welcome) {
    const struct options *options = checking->options;
    struct hello hello = {.depth = checking->job->depth, .region = sitting->region, .flushes = checking->basis->ledger != NULL};
    char why[MAX_WHY];
    const uint64_t since = milliseconds(), until = since + options->wait * 1000;
    if (!options->other_drive) memcpy(hello.drive, checking->basis->kept->drive, MAX_DRIVE);
    while (sitting->is_open || try_link(&sitting->link, options->link, &hello, checking->job, until, why)) {
        sitting->is_open = true;
        *welcome = sitting->link.welcome;
        bool is_whole = map_once(checking, sitting, map), has_time = milliseconds() + 1000 < until;
        if (is_whole && !(has_time && may_be_early(options, map, since))) return;
        free_map(map);
        end_sitting(sitting);
        if (!has_time) give_up("the link", "it ended before the region did: nothing was checked");
        say(is_whole ? "blocks can't be read, as the drive may not be ready yet: the check begins anew" : "the link ended before the region did: the check begins anew");
        if (is_whole) pause_for(1000);
    }
    if (!*why) give_up("the link", "no agent answers");
    if (!*hello.drive || strstr(why, "another drive") || strstr(why, "in use") || strstr(why, "at work") || strstr(why, CANT_FLUSH)) give_up("the agent refuses", why);
    *welcome = (struct welcome){0};
    map_nothing(checking, why, map);
}

void check_part(const struct options *options, const struct job *job, struct sitting *sitting, uint64_t first, const struct basis *basis, struct map *map, struct welcome *welcome) {
    struct checking checking = {.options = options, .job = job, .region = sitting->region, .first = first, .basis = basis};
    checking.region.offset = place_of(&sitting->region, first), checking.region.blocks = job->blocks;
    checking.question.drive = start_asking(job, &checking.region, basis);
    check_asked(&checking, sitting, map, welcome);
    answer_to(&checking.question, job->blocks);
    free_asked(&checking.question.asked);
}

void check_by_link(const struct options *options, const struct job *job, const struct region *region, const struct basis *basis, struct map *map, struct welcome *welcome) {
    struct sitting sitting = {.region = *region};
    check_part(options, job, &sitting, 0, basis, map, welcome);
    end_sitting(&sitting);
}

/* Reads the blocks of a dump by an agent, once, and keeps them. Returns whether all came. */
static bool dump_once(const struct options *options, const struct job *job, const struct region *region, const struct kept *kept, struct dump *dump) {
    struct hello hello = {.depth = job->depth, .region = *region};
    struct link link;
    char why[MAX_WHY];
    const struct sink sink = sink_of_dump(dump);
    if (!options->other_drive) memcpy(hello.drive, kept->drive, MAX_DRIVE);
    if (!try_link(&link, options->link, &hello, job, milliseconds() + options->wait * 1000, why)) return false;
    bool is_whole = read_by_link(options, &link, &dump->asked, &sink);
    end_link(&link);
    return is_whole;
}

void dump_by_link(const struct options *options, const struct job *job, const struct region *region, const struct kept *kept, const char *place, const struct map *map) {
    struct dump dump = open_dump(place, map, options->dump);
    if (dump.count) {
        if (!dump_once(options, job, region, kept, &dump)) say("the bytes of the faulty blocks could not be kept");
        keep_wanted(&dump, kept->run, job);
    }
    free_dump(&dump);
}
