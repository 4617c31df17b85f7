/* The options of a command line. */
#ifndef WORDS_H
#define WORDS_H

#include <stdbool.h>
#include <stdint.h>

/* Beside the commands of an option: it may stand several times, and its texts go one behind the other,
 * where there is room for so many and a NULL. */
enum { MANY = 1 << 16, MOST_TEXTS = 16 };

/* Beside the commands of an option: its number is 1 at least. */
enum { FROM_1 = 1 << 17 };

/* An option's name, and where what stands behind it goes: a text, a number, or nothing. */
struct option {
    const char *name;
    const char **text;
    uint64_t *number;
    bool *is;
    int commands; /* a bit for each command of the program that it is for */
};

/* A number of decimal digits alone. Else the harness gives up, and says of what. */
uint64_t number_of(const char *name, const char *word);

/* Reads these words by the options, of which the last has no name, for a command, a bit. Where they
 * can't be read so, the harness gives up. */
void read_words(const struct option *options, int command, int count, char **words);

/* Answers the first word where that asks how the program is called, or for its version, and ends it;
 * likewise where there is no word, with STATUS_FAILED. */
void answer_first_word(const char *usage, int count, char **words);

/* Says which word is wrong and how the program is called, and ends it with STATUS_FAILED. */
_Noreturn void refuse_word(const char *usage, const char *word, const char *why);

#endif
