/* The orders of a `drive` of the agent's own, for a link that is too slow for the blocks. What
 * became of a write goes to the witness, and to this `drive` once the witness gave it back: so the
 * witness knows of each write that makes room for another one, before that is ordered here. */
#ifndef LOCAL_H
#define LOCAL_H

#include "child.h"
#include "hello.h"

/* Reads the job's text, which stands behind the hello, and starts `drive write` by it. */
struct child start_own_drive(const struct hello *hello, bool cached);

/* Hands what the witness gives back on to that `drive`, in a thread, until the link ends. */
void hand_back(struct child *drive);

/* Says what `drive` said last, where that is why the run ended. */
void tell_last_words(const void *bytes, size_t length);

#endif
