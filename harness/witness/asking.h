/* What a witness asks an agent for that reads, and the answer: as often as it likes, over one link. */
#ifndef ASKING_H
#define ASKING_H

#include "asked.h"
#include "link.h"
#include "reading.h"

#include <stdbool.h>
#include <stdint.h>

/* Asks for these blocks of the hello's region, at most MOST_ASKED of them; where they have no bits, for all. False
 * where the link takes no more. */
bool ask_blocks(const struct link *link, const struct asked *asked);

/* Hands on what the agent answers to that, in its order, each piece of which comes within so many milliseconds. The
 * block that a sink misses is one of the hello's region. Returns whether all came, or no more is wanted: then
 * the link is of no use any more. False where the link ends, falls silent, or brings other bytes than were sent or
 * other blocks than were asked for, before the answer ends. */
bool hear_blocks(const struct link *link, uint64_t quiet, const struct asked *asked, const struct sink *sink);

#endif
