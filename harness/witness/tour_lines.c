#include "tour.h"

#include "bytes.h"
#include "clock.h"
#include "keeping.h"
#include "say.h"

#include <errno.h>
#include <inttypes.h>
#include <string.h>
#include <time.h>

/* What was seen of a cut, as it is kept; and how it is read. */
#define SEEN "cycle %" PRIu64 " after %" PRIu64 " ms %" PRIu64 " ordered %" PRIu64 " told %" PRIu64 " failed %" PRIu64 " cut %d early %d fallen %d\nboot %s\nway %s\n"
#define SEEN_SCANNED "cycle %" SCNu64 " after %" SCNu64 " ms %" SCNu64 " ordered %" SCNu64 " told %" SCNu64 " failed %" SCNu64 " cut %d early %d fallen %d\nboot%*1[ ]%39[^\n]\nway%*1[ ]%63[^\n]\n"

static const char SEEN_FILE[] = "seen";

enum { MAX_SEEN = 512, MAX_SIZE = 48 };

void keep_seen(const struct tour *tour) {
    char name[PATH_MAX], text[MAX_SEEN];
    const struct tour_cycle *cycle = &tour->cycle;
    const struct tally *tally = &cycle->tally;
    name_file(&tour->folder, SEEN_FILE, name);
    const int length = snprintf(text, sizeof text, SEEN, cycle->number, cycle->cut_after, tally->milliseconds, tally->ordered, tally->told, tally->failed, tally->is_cut, tally->was_early, tally->has_fallen, *cycle->boot ? cycle->boot : "-", *cycle->way ? cycle->way : "-");
    keep_file(name, text, (size_t)length);
}

bool read_seen(struct tour *tour) {
    char name[PATH_MAX], text[MAX_SEEN];
    struct tour_cycle seen = {0};
    struct tally *tally = &seen.tally;
    int is_cut = 0, was_early = 0, has_fallen = 0;
    name_file(&tour->folder, SEEN_FILE, name);
    ssize_t length = read_file(name, text, sizeof text - 1);
    if (length < 0 && errno != ENOENT) give_up_by_errno(name);
    text[length < 0 ? 0 : length] = 0;
    sscanf(text, SEEN_SCANNED, &seen.number, &seen.cut_after, &tally->milliseconds, &tally->ordered, &tally->told, &tally->failed, &is_cut, &was_early, &has_fallen, seen.boot, seen.way);
    if (!strcmp(seen.boot, "-")) seen.boot[0] = 0;
    tally->is_cut = is_cut, tally->was_early = was_early, tally->has_fallen = has_fallen;
    if (seen.number == tour->cycle.number) tour->cycle = seen;
    return tour->cycle.tally.is_cut;
}

uint64_t tiles_done(const struct tiles *tiles) {
    return tiles->next - tiles->again_count;
}

/* How long it will take until all tiles are written, as it went by now; nothing where that isn't known. */
static void spell_left(const struct tour *tour, char text[64]) {
    const uint64_t done = tiles_done(&tour->tiles), gone = milliseconds() - tour->began, left = tour->tiles.count - done;
    text[0] = 0;
    if (done <= tour->begun_with || !left) return;
    const uint64_t minutes = gone / 1000 * left / (done - tour->begun_with) / 60;
    if (minutes < 60) snprintf(text, 64, ", about %" PRIu64 " min left", minutes + 1);
    else snprintf(text, 64, ", about %" PRIu64 " h %" PRIu64 " min left", minutes / 60, minutes % 60);
}

static void spell_findings(const struct findings *found, char text[160]) {
    const int used = snprintf(text, 160, "%" PRIu64 " lost in flight, %" PRIu64 " lost at rest, %" PRIu64 " misdirected", found->in_flight, found->at_rest, found->misdirected);
    if (found->unread) snprintf(text + used, 160 - (size_t)used, ", %" PRIu64 " unread", found->unread);
}

static void spell_kept_cycle(const struct tour_cycle *cycle, char line[MAX_LINE]) {
    const struct tally *tally = &cycle->tally;
    const struct findings *found = &cycle->found;
    char when[32];
    time_t now = time(NULL);
    strftime(when, sizeof when, "%Y-%m-%dT%H:%M:%SZ", gmtime(&now));
    snprintf(line, MAX_LINE,
             "{\"cycle\": %" PRIu64 ", \"time\": \"%s\", \"cut_after\": %.3f, \"seconds\": %.3f, \"cut\": \"%s\", \"ordered\": %" PRIu64 ", \"told\": %" PRIu64 ", \"failed\": %" PRIu64 ", \"in_flight\": %" PRIu64 ", \"whole\": %" PRIu64
             ", \"cut_short\": %" PRIu64 ", \"tiles\": %" PRIu64 ", \"checked\": %" PRIu64 ", \"faults\": %" PRIu64 ", \"lost_in_flight\": %" PRIu64 ", \"at_rest\": %" PRIu64 ", \"misdirected\": %" PRIu64 ", \"unread\": %" PRIu64 ", \"way\": \"%s\"}\n",
             cycle->number, when, (double)cycle->cut_after / 1000, (double)tally->milliseconds / 1000, word_of_cut(cycle->cut), tally->ordered, tally->told, tally->failed, in_flight(tally), cycle->whole, cycle->cut_short, cycle->checked, found->asked,
             faults_in(found), found->in_flight, found->at_rest, found->misdirected, found->unread, cycle->way);
}

void spell_tour_cycle(const struct tour *tour, struct lines *lines) {
    const struct tour_cycle *cycle = &tour->cycle;
    const struct tally *tally = &cycle->tally;
    const uint64_t done = tiles_done(&tour->tiles), count = tour->tiles.count;
    char left[64], found[160];
    spell_left(tour, left);
    spell_findings(&cycle->found, found);
    spell_kept_cycle(cycle, lines->kept);
    snprintf(lines->printed, MAX_LINE, "cycle %" PRIu64 ": %" PRIu64 " tiles whole, %" PRIu64 " cut short, %" PRIu64 " ordered, %" PRIu64 " told, %" PRIu64 " in flight; %" PRIu64 " tiles checked, %" PRIu64 " blocks, %s%s%s%s, %.1f s; %" PRIu64 " of %" PRIu64 " tiles, %" PRIu64 " %%%s\n",
             cycle->number, cycle->whole, cycle->cut_short, tally->ordered, tally->told, in_flight(tally), cycle->checked, cycle->found.asked, found, *tour->faulty ? ", faults in tiles " : "", tour->faulty,
             cycle->cut == NO_CUT ? ", no cut" : cycle->cut == CUT_BY_WORD ? ", cut by the word of --off" : "", (double)tally->milliseconds / 1000, done, count, done * 100 / count, left);
}

/* A number with commas, and a number of bytes in its unit, with one digit behind the point: less than that
 * it never tells. */
static void spell_number(uint64_t number, char text[MAX_SIZE]) {
    char plain[MAX_SIZE];
    const int length = snprintf(plain, sizeof plain, "%" PRIu64, number);
    for (int at = 0; at < length; at++) {
        if (at && (length - at) % 3 == 0) *text++ = ',';
        *text++ = plain[at];
    }
    *text = 0;
}

static uint64_t unit_of(uint64_t bytes, const char **name) {
    static const char *const names[] = {"bytes", "kB", "MB", "GB", "TB", "PB"};
    uint64_t unit = 1;
    size_t at = 0;
    while (at < 5 && bytes / unit >= 1000) unit *= 1000, at++;
    *name = names[at];
    return unit;
}

/* A number of bytes in this unit, with one digit behind the point; of bytes alone without. */
static void spell_size(uint64_t bytes, uint64_t unit, char text[MAX_SIZE]) {
    if (unit == 1) snprintf(text, MAX_SIZE, "%" PRIu64, bytes);
    else snprintf(text, MAX_SIZE, "%" PRIu64 ".%" PRIu64, bytes / unit, bytes % unit * 10 / unit);
}

/* Of two numbers the first has its own unit only where that is another one, and less than a tenth. */
static void spell_covered(uint64_t covered, uint64_t all, char text[3 * MAX_SIZE]) {
    const char *name, *all_name;
    char size[MAX_SIZE], all_size[MAX_SIZE];
    const uint64_t all_unit = unit_of(all, &all_name), own = unit_of(covered, &name), unit = covered < all_unit / 10 ? own : all_unit;
    spell_size(covered, unit, size), spell_size(all, all_unit, all_size);
    snprintf(text, 3 * MAX_SIZE, "%s%s%s of %s %s", size, unit == all_unit ? "" : " ", unit == all_unit ? "" : name, all_size, all_name);
}

/* How many bytes of the drive the checks of each tile that came behind a cut have asked for. */
static uint64_t covered_by(const struct tour *tour) {
    uint64_t blocks = 0;
    for (uint64_t at = 0; at < tour->tiles.next; at++)
        if (tour->tiles.all[at].is_behind_cut) blocks += tour->tiles.all[at].asked;
    return blocks * tour->region.block_size;
}

int tell_tour(const struct tour *tour, bool is_over, int status) {
    const struct totals *totals = &tour->folder.totals;
    char covered[3 * MAX_SIZE], found[160], in_all[MAX_SIZE];
    const char *word = "not checked whole";
    spell_covered(covered_by(tour), tour->folder.tour.bytes, covered);
    spell_findings(&tour->tiles.found, found), spell_number(totals->in_flight, in_all);
    if (!status) {
        const bool has_faults = faults_in(&tour->tiles.found) > 0;
        status = has_faults ? STATUS_FAULTS : is_over && totals->judged ? STATUS_SOUND : STATUS_NO_VERDICT;
        word = has_faults ? "faults" : !is_over ? "stopped" : status == STATUS_SOUND ? "sound" : "no verdict";
    }
    char uncut[64] = "";
    const uint64_t behind_none = tiles_behind_no_cut(&tour->tiles);
    if (is_over && behind_none) snprintf(uncut, sizeof uncut, "; %" PRIu64 " tiles behind no cut", behind_none);
    FILE *to = tour->options->json ? stderr : stdout;
    fprintf(to, "%s: covered %s, %" PRIu64 " cuts%s, %" PRIu64 " with writes in flight (%s in all): %s%s\n", word, covered, totals->cuts, totals->trusted ? " by the word of --off" : "", totals->flying_cuts, in_all, found, uncut);
    if (fflush(to)) give_up_by_errno("standard output");
    return status;
}
