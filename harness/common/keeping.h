/* A file that is kept over a cut of power. */
#ifndef KEEPING_H
#define KEEPING_H

#include <stdbool.h>
#include <stddef.h>

/* A file that is in use, by its path, NULL for none, and what it is. */
struct in_use {
    const char *path, *what;
};

/* Refuses to keep a state or a ledger, as `kind` says, in the place of a device, or of one of these
 * files, behind the last of which stands one that is nothing. Returns whether no file is there. */
bool is_free(const char *place, const char *kind, const struct in_use *others);

/* The path of a file beside another one, in PATH_MAX bytes. */
void path_beside(char *path, const char *file, const char *ending);

/* Keeps bytes in a file, whole: beside its place and on the disk first, then under its name, and
 * the name on the disk. Where that can't be done, the harness gives up. */
void keep_file(const char *path, const void *bytes, size_t length);

#endif
