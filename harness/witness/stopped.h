/* What a series with a ledger goes on from, wherever it was stopped: the run that was begun last, and
 * what is told of a cycle whose ledger is kept. */
#ifndef STOPPED_H
#define STOPPED_H

#include "folder.h"

/* Notes which run is begun, before its first order goes out; and which one was begun last, 0 for
 * none. */
void note_begun(const struct folder *folder, uint64_t run);
uint64_t begun_last(const struct folder *folder);

/* Notes what is told of a cycle, before the ledger behind it is kept: that tells each loss once. */
void note_lines(const struct folder *folder, const struct lines *lines);

/* The next cycle, where it was noted and its run was taken into the ledger last: it is checked, and what
 * is told of it is still to be kept. False where there is no such. */
bool find_lines(const struct folder *folder, uint64_t run, struct lines *lines);

#endif
