#include "verdict.h"

#include "say.h"

#include <dirent.h>
#include <inttypes.h>
#include <libgen.h>
#include <limits.h>
#include <stdio.h>
#include <stdlib.h>
#include <string.h>

/* The run whose whole write a line says that its block holds, or 0. */
static uint64_t other_run_in(const char *line, int length) {
    char text[512], kind[32];
    uint64_t block;
    snprintf(text, sizeof text, "%.*s", length, line);
    bool is_other = sscanf(text, "block %" SCNu64 " %31[a-z-]:", &block, kind) == 2 && (!strcmp(kind, "other-run") || !strcmp(kind, "at-rest"));
    const char *holds = is_other ? strstr(text, ", holds write ") : NULL, *run = holds ? strstr(holds, " of run ") : NULL;
    return run ? strtoull(run + strlen(" of run "), NULL, 10) : 0;
}

/* The one other run that all faulty blocks hold writes of, or 0. */
static uint64_t other_run_of(const char *text, const char *end) {
    uint64_t found = 0;
    for (const char *line = text; line < end && !strncmp(line, "block ", 6); line = strchr(line, '\n') + 1) {
        uint64_t run = other_run_in(line, (int)strcspn(line, "\n"));
        if (!run || (found && run != found)) return 0;
        found = run;
    }
    return found;
}

struct verdict verdict_of(const struct map *map) {
    const char *report = report_of_map(map);
    struct verdict verdict = {0};
    if (sscanf(report, "report checked %" SCNu64 " faults %" SCNu64, &verdict.checked, &verdict.faults) != 2) return verdict;
    verdict.is_report = !strstr(report, " end read ");
    kinds_of(report, verdict.kinds);
    verdict.at_rest = count_of_kind(verdict.kinds, "at-rest"), verdict.unread = count_of_kind(verdict.kinds, "unread");
    verdict.checked += verdict.unread, verdict.faults += verdict.unread;
    verdict.other_run = other_run_of(map->text, report);
    return verdict;
}

/* Looks for the file of a run among those beside a state, and reads it. */
static bool find_state(const char *state, uint64_t run, struct kept *found, char path[PATH_MAX]) {
    char copy[PATH_MAX];
    snprintf(copy, sizeof copy, "%s", state);
    const char *folder = dirname(copy);
    DIR *files = opendir(folder);
    bool is_there = false;
    for (struct dirent *it; files && !is_there && (it = readdir(files));) {
        int length = snprintf(path, PATH_MAX, "%s/%s", folder, it->d_name);
        is_there = length < PATH_MAX && is_kept(path, found) && found->run == run;
    }
    if (files) closedir(files);
    return is_there;
}

/* Whether a later run, whose state lies beside this one, has written what all faulty blocks hold. */
static bool is_written_over(const struct verdict *verdict, const char *state, const struct kept *kept, char path[PATH_MAX]) {
    static struct kept later;
    return verdict->other_run && find_state(state, verdict->other_run, &later, path) && strcmp(later.when, kept->when) > 0;
}

int status_of(const struct verdict *verdict, const char *state, const struct kept *kept) {
    char path[PATH_MAX];
    if (!verdict->is_report) return STATUS_FAILED;
    if (is_written_over(verdict, state, kept, path)) return STATUS_NO_VERDICT;
    if (verdict->faults) return STATUS_FAULTS;
    return verdict->checked ? STATUS_SOUND : STATUS_NO_VERDICT;
}

/* What is known of a cut since the run. */
static const char *cut_since(const struct kept *kept, const char boot[MAX_BOOT]) {
    if (!kept->length) return ", by no state";
    if (!*kept->boot || !*boot) return "";
    return strcmp(kept->boot, boot) ? "; the machine was started anew since the run" : "; no cut was seen: the machine has not been started since the run";
}

/* The kinds with commas between them. */
static void spell_kinds(const char *kinds, char text[2 * KIND_WORDS]) {
    int used = 0, number = 0;
    for (const char *at = kinds; *at; at++) {
        if (*at == ' ' && ++number % 2 == 0) text[used++] = ',';
        text[used++] = *at;
    }
    text[used] = 0;
}

void spell_losses(const struct verdict *verdict, char text[MAX_LOSSES]) {
    snprintf(text, MAX_LOSSES, "%" PRIu64 " lost in flight, %" PRIu64 " lost at rest", verdict->faults - verdict->at_rest - verdict->unread, verdict->at_rest);
    if (verdict->unread) snprintf(text + strlen(text), MAX_LOSSES - strlen(text), ", %" PRIu64 " unread", verdict->unread);
}

/* What faults come to, in one line. */
static void tell_faults(const struct map *map, const struct verdict *verdict, const char *since) {
    char kinds[2 * KIND_WORDS], losses[MAX_LOSSES];
    spell_kinds(verdict->kinds, kinds);
    spell_losses(verdict, losses);
    printf("faults: %" PRIu64 " of %" PRIu64 " blocks checked%s%s (%s)%s\n", verdict->faults, verdict->checked, map->basis.ledger ? ": " : "", map->basis.ledger ? losses : "", kinds, since);
    if (!verdict->other_run) return;
    printf("all of these hold run %" PRIu64 ": %s\n", verdict->other_run, verdict->at_rest ? "if it wrote there since, it has to be taken into the ledger first, without its state by --lost" : "this may be the state of another run, or of another target");
}

int tell_verdict(const struct map *map, const char *state, const struct kept *kept, const char boot[MAX_BOOT]) {
    const struct verdict verdict = verdict_of(map);
    int status = status_of(&verdict, state, kept);
    char path[PATH_MAX];
    const char *since = cut_since(kept, boot);
    if (!verdict.is_report) printf("not checked whole%s\n", verdict.checked ? ": what was read ends before the region does" : "");
    else if (status == STATUS_NO_VERDICT && verdict.faults && is_written_over(&verdict, state, kept, path)) printf("no verdict: a later run has written over %" PRIu64 " of %" PRIu64 " blocks: run %" PRIu64 ", whose state is %s\n", verdict.faults, verdict.checked, verdict.other_run, path);
    else if (status == STATUS_NO_VERDICT) printf("no verdict: by that %s no block had to hold anything\n", map->basis.ledger ? "ledger" : "state");
    else if (status == STATUS_SOUND) printf("sound: %" PRIu64 " blocks checked, 0 faults%s\n", verdict.checked, since);
    else tell_faults(map, &verdict, since);
    if (fflush(stdout)) give_up_by_errno("standard output");
    return status;
}
