#include "kinds.h"

#include "say.h"

#include <errno.h>
#include <inttypes.h>
#include <stdbool.h>
#include <stdio.h>
#include <stdlib.h>
#include <string.h>

enum { ROW = 64 };

static const struct { const char *word; char letter; } ALL[KINDS] = {
    {"unwritten", '0'}, {"filled", 'F'}, {"lost", 'L'}, {"unissued", 'U'}, {"other-run", 'R'},
    {"misdirected", 'M'}, {"torn", 'T'}, {"corrupt", 'C'}, {"unread", '?'}, {"at-rest", 'A'},
};

/* Reads the front of a line, as `block 5 lost: ..`. Returns its kind, or -1 where it is another. */
static int kind_of(const char *line, uint64_t *block) {
    char word[32];
    if (sscanf(line, "block %" SCNu64 " %31[a-z-]:", block, word) != 2) return -1;
    for (int kind = 0; kind < KINDS; kind++)
        if (!strcmp(word, ALL[kind].word)) return kind;
    return -1;
}

static const char *next_line(const char *line) {
    const char *end = strchr(line, '\n');
    return end && end[1] ? end + 1 : NULL;
}

void kinds_of(const char *report, char words[KIND_WORDS]) {
    const char *first = strstr(report, " first ");
    words[0] = 0;
    if (!first) return;
    first += strlen(" first ");
    first += strspn(first, "0123456789- ");
    snprintf(words, KIND_WORDS, "%.*s", (int)strcspn(first, "\n"), first);
}

uint64_t count_of_kind(const char *words, const char *kind) {
    char word[32];
    uint64_t count;
    int used;
    for (; sscanf(words, " %31s %" SCNu64 "%n", word, &count, &used) == 2; words += used)
        if (!strcmp(word, kind)) return count;
    return 0;
}

/* Marks the blocks of a line `unchecked 5-9 12-12`. Returns whether it is one, with any. */
static bool mark_unchecked(const char *line, char *letters, uint64_t blocks) {
    uint64_t from, to;
    int used;
    bool has_any = false;
    if (strncmp(line, "unchecked", 9)) return false;
    for (line += 9; sscanf(line, " %" SCNu64 "-%" SCNu64 "%n", &from, &to, &used) == 2; line += used, has_any = true)
        for (uint64_t block = from; block <= to && block < blocks; block++) letters[block] = '-';
    return has_any;
}

void print_picture(const char *lines, uint64_t blocks) {
    uint64_t block;
    bool has_unchecked = false, is_there[KINDS] = {false};
    char *letters = malloc(blocks);
    if (!letters) give_up("memory", strerror(ENOMEM));
    memset(letters, '.', blocks);
    for (const char *line = lines; line; line = next_line(line)) {
        int kind = kind_of(line, &block);
        if (kind >= 0 && block < blocks) letters[block] = ALL[kind].letter, is_there[kind] = true;
        else has_unchecked |= mark_unchecked(line, letters, blocks);
    }
    for (block = 0; block < blocks; block += ROW) printf("%7" PRIu64 " %.*s\n", block, (int)(blocks - block < ROW ? blocks - block : ROW), letters + block);
    printf("        . sound%s", has_unchecked ? "  - unchecked" : "");
    for (int kind = 0; kind < KINDS; kind++)
        if (is_there[kind]) printf("  %c %s", ALL[kind].letter, ALL[kind].word);
    printf("\n");
    free(letters);
}
