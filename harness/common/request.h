/* What a witness asks of an agent that reads, as often as it likes, behind the welcome: the first block and how
 * many there are from it on, each in 8 bytes with the high byte first, a bit for each of them, and in 4 bytes
 * the sum of all that. The blocks are those of the hello's region, of which the agent keeps nothing, however
 * many it has. */
#ifndef REQUEST_H
#define REQUEST_H

#include "asked.h"

#include <stdbool.h>
#include <stddef.h>
#include <stdint.h>

/* So many blocks are asked for at once, at most: as many as a job has. */
enum { MOST_ASKED = 1 << 16, REQUEST_HEAD = 16, REQUEST_SUM = 4, REQUEST_BYTES = REQUEST_HEAD + MOST_ASKED / 8 + REQUEST_SUM };

/* Spells a request of at most so many blocks, and returns how many bytes it has. */
size_t write_request(uint8_t bytes[REQUEST_BYTES], const struct asked *asked);

/* Reads the next request of a stream; its bits then are in these bytes. False at the stream's end. One that came
 * otherwise than it was sent, or is of other blocks than these, is given up on. */
bool read_request(int from, uint64_t blocks, uint8_t bytes[REQUEST_BYTES], struct asked *asked);

#endif
