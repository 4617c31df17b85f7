/* What faulty blocks hold, by the lines of `drive map`. */
#ifndef KINDS_H
#define KINDS_H

#include <stddef.h>
#include <stdint.h>

/* The kinds, in the order in which they are told. */
enum { KINDS = 10, KIND_WORDS = 256 };

/* Puts `lost 4 torn 1` there: what the line of the report says of the kinds, and nothing where it
 * says nothing, or is another line. */
void kinds_of(const char *report, char words[KIND_WORDS]);

/* How many blocks these words tell of a kind. */
uint64_t count_of_kind(const char *words, const char *kind);

/* Prints a picture of a region: a character a block, 64 in a row, and what the letters stand
 * for. */
void print_picture(const char *lines, uint64_t blocks);

#endif
