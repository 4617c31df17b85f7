#include "words.h"

#include "say.h"

#include <errno.h>
#include <stdio.h>
#include <stdlib.h>
#include <string.h>

/* harness/build says which version this is of. */
#ifndef FIOCUT_VERSION
#define FIOCUT_VERSION "not known"
#endif

uint64_t number_of(const char *name, const char *word) {
    char *end, why[96];
    errno = 0;
    unsigned long long value = strtoull(word, &end, 10);
    if (*word >= '0' && *word <= '9' && !*end && !errno) return value;
    snprintf(why, sizeof why, "%.40s: this wants a number, of digits alone", word);
    give_up(name, why);
}

/* Where the next text of an option goes. */
static const char **place_of_text(const struct option *option) {
    size_t at = 0;
    while (option->commands & MANY && option->text[at]) at++;
    if (at == MOST_TEXTS) give_up(option->name, "it stands too often");
    return option->text + at;
}

/* Reads the option that begins at this word, and returns how many words it has. */
static int read_option(const struct option *option, int command, int left, char **word) {
    if (!(option->commands & command)) give_up(word[0], "it is for another command");
    if (option->is) {
        *option->is = true;
        return 1;
    }
    if (left < 2) give_up(word[0], "nothing stands behind it");
    if (option->text) *place_of_text(option) = word[1];
    if (option->number) *option->number = number_of(word[0], word[1]);
    if (option->commands & FROM_1 && *option->number == 0) give_up(word[0], "this wants a number from 1 on");
    return 2;
}

void read_words(const struct option *options, int command, int count, char **words) {
    for (int at = 0; at < count;) {
        const struct option *found = options;
        while (found->name && strcmp(words[at], found->name)) found++;
        if (!found->name) give_up(words[at], "there is no such option; --help lists them");
        at += read_option(found, command, count - at, words + at);
    }
}

void answer_first_word(const char *usage, int count, char **words) {
    bool asks = count > 1 && (!strcmp(words[1], "--help") || !strcmp(words[1], "-h"));
    if (count > 1 && !strcmp(words[1], "--version")) {
        printf("%s of fiocut %s, not proved\n", spoken_as(), FIOCUT_VERSION);
        exit(STATUS_SOUND);
    }
    if (count > 1 && !asks) return;
    fputs(usage, asks ? stdout : stderr);
    exit(asks ? STATUS_SOUND : STATUS_FAILED);
}

_Noreturn void refuse_word(const char *usage, const char *word, const char *why) {
    say("%s: %s", word, why);
    fputs(usage, stderr);
    exit(STATUS_FAILED);
}
