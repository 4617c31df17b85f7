#include "stopped.h"

#include "bytes.h"
#include "keeping.h"
#include "say.h"

#include <errno.h>
#include <inttypes.h>
#include <stdio.h>
#include <stdlib.h>
#include <string.h>

static const char BEGUN[] = "begun", NOTED[] = "checked";

/* Reads a small file, of which there may be none. */
static void read_small(const struct folder *folder, const char *file, char *text, size_t room) {
    char name[PATH_MAX];
    name_file(folder, file, name);
    ssize_t length = read_file(name, text, room - 1);
    if (length < 0 && errno != ENOENT) give_up_by_errno(name);
    text[length < 0 ? 0 : length] = 0;
}

void note_begun(const struct folder *folder, uint64_t run) {
    char name[PATH_MAX], line[32];
    name_file(folder, BEGUN, name);
    keep_file(name, line, (size_t)snprintf(line, sizeof line, "%" PRIu64 "\n", run));
}

uint64_t begun_last(const struct folder *folder) {
    char line[32];
    read_small(folder, BEGUN, line, sizeof line);
    return strtoull(line, NULL, 10);
}

void note_lines(const struct folder *folder, const struct lines *lines) {
    char name[PATH_MAX], both[2 * MAX_LINE];
    name_file(folder, NOTED, name);
    keep_file(name, both, (size_t)snprintf(both, sizeof both, "%s%s", lines->kept, lines->printed));
}

bool find_lines(const struct folder *folder, uint64_t run, struct lines *lines) {
    char both[2 * MAX_LINE];
    read_small(folder, NOTED, both, sizeof both);
    if (!run || number_in(both, "\"cycle\": ") != folder->totals.cycles + 1 || number_in(both, "\"run\": \"") != run) return false;
    size_t length = strcspn(both, "\n") + 1;
    snprintf(lines->kept, MAX_LINE, "%.*s", (int)length, both);
    snprintf(lines->printed, MAX_LINE, "%.*s", MAX_LINE - 1, both + length);
    return true;
}
