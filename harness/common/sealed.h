/* Bytes that are kept in a file, behind two lines: what they are, and the sum of all that follows. */
#ifndef SEALED_H
#define SEALED_H

#include <inttypes.h>
#include <stdbool.h>
#include <stddef.h>
#include <stdint.h>

/* How the lines behind these two say where blocks lie, and which drive; and how they are read, the
 * drive into MAX_DRIVE bytes. */
#define REGION_FORM "region offset %" PRIu64 " stride %" PRIu64 " block %" PRIu64 " blocks %" PRIu64 "\ndrive %s\n"
#define REGION_SCANNED "region offset %" SCNu64 " stride %" SCNu64 " block %" SCNu64 " blocks %" SCNu64 "\ndrive%*1[ ]%255[^\n]\n"

/* What may be nothing stands as a dash. */
const char *or_dash(const char *text);
void take_dash(char *text);

/* How long the two lines are where the first says this. */
size_t front_of(const char *what);

/* Puts them before so many bytes, which stand behind the room for them. */
void seal(const char *what, uint8_t *bytes, size_t length);

/* Whether bytes say that they are this; and whether, with that, all of them are as they were kept. */
bool is_called(const char *what, const void *bytes, size_t length);
bool is_sealed(const char *what, const uint8_t *bytes, size_t length);

#endif
