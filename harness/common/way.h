/* What a write that is told as done rests on, and which calls make it. */
#ifndef WAY_H
#define WAY_H

#include "target.h"

#include <stdint.h>

/* How long its words may be. */
enum { MAX_WAY = 64 };

enum by { BY_ANY, BY_RING, BY_THREADS };

/* What the command line says of it: NULL and 0 where it doesn't. */
struct way {
    const char *promise, *by;
    uint64_t flush;
};

/* Sets how the target is to be opened for what the drive has to promise: `fua`, that it keeps each
 * write as it tells it as done (O_DSYNC); `flush`, what it told before a flush; `through`, each write
 * that it tells as done, without being asked. Of files, what was fsynced and renamed in a folder that
 * was fsynced, and nothing else. Returns which calls make the writes, and puts in words what that
 * comes to. What can't be had is refused, and not replaced. */
enum by settle_way(const struct way *way, struct opening *opening, char words[MAX_WAY]);

#endif
