/* A folder as a target: each block is a file of its own in it. What belongs at byte N times the
 * block's size stands in the file `block-N`; where there is none, the block reads as zeros. */
#ifndef FILES_H
#define FILES_H

#include "target.h"

/* How long the words are that say why a file can't be read. */
enum { MAX_UNREAD = 96 };

/* Makes a folder that isn't there, which is refused below /dev, as `open_to_write` does a file. */
void make_folder(const char *name);

/* Gives up, and leaves all as it was, where a folder holds any other name than those of such files,
 * which it does whatever is asked for; or where a file of 256 begins with other bytes than a run's,
 * unless `yes` is set. Else it removes what writes that were in flight have left, and has the disk keep
 * the folder's own name. Where its files have to take O_DIRECT and don't, it gives up, too. */
void take_folder(const struct target *target, bool yes);

/* Writes a block of this length that belongs at this place: a new file, its bytes, its fsync, its
 * rename over the block's name, and the folder's fsync; of a target that is opened as any program
 * does none of the two. Returns its length, or -1 with errno where one of these failed. */
ssize_t write_block_file(const struct target *target, const void *bytes, size_t length, uint64_t place);

/* Reads such a block. There has to be room for a whole number of pages, from the front of one on. A
 * file of any other length can't be read, so that no check takes it for a write's. */
bool read_block_file(const struct target *target, void *bytes, size_t length, uint64_t place, char why[MAX_UNREAD]);

/* Has the file system write out all that it holds of its files and their names. Where it can't, the
 * harness gives up. */
void flush_files(const struct target *target);

#endif
