#include "runs.h"

#include "say.h"

#include <errno.h>
#include <inttypes.h>
#include <stdlib.h>
#include <string.h>

static const char OF_RUN[] = " of run ";

void add_run(struct known_runs *runs, uint64_t run, uint64_t number) {
    /* (room for as many more as there are, each time that it is full) */
    if ((runs->count & (runs->count - 1)) == 0) runs->all = realloc(runs->all, 2 * (runs->count + 1) * sizeof *runs->all);
    if (!runs->all) give_up("memory", strerror(ENOMEM));
    runs->all[runs->count++] = (struct known_run){run, number};
}

static int by_run(const void *one, const void *other) {
    const struct known_run *a = one, *b = other;
    return a->run < b->run ? -1 : a->run > b->run;
}

void sort_runs(struct known_runs *runs) {
    if (runs->count) qsort(runs->all, runs->count, sizeof *runs->all, by_run);
}

void free_runs(struct known_runs *runs) {
    free(runs->all);
    runs->all = NULL, runs->count = 0;
}

static const struct known_run *find_run(const struct known_runs *runs, uint64_t run) {
    const struct known_run wanted = {.run = run};
    return runs->count ? bsearch(&wanted, runs->all, runs->count, sizeof wanted, by_run) : NULL;
}

bool write_with_runs(FILE *to, const char *line, size_t length, const struct known_runs *runs, uint64_t own) {
    const char *end = line + length;
    bool has_other = false;
    while (line < end) {
        const char *run = memmem(line, (size_t)(end - line), OF_RUN, sizeof OF_RUN - 1), *behind = run ? run + sizeof OF_RUN - 1 : end;
        const struct known_run *found = run ? find_run(runs, strtoull(behind, NULL, 10)) : NULL;
        const bool is_other = found && found->number != own;
        if (run) behind += strspn(behind, "0123456789");
        fwrite(line, 1, (size_t)(behind - line), to);
        if (is_other) fprintf(to, " (%s %" PRIu64 ")", runs->word, found->number);
        has_other |= is_other, line = behind;
    }
    return has_other;
}
