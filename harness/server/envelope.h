/* What goes over a link between two harnesses of a fleet: frames of the nodes, and between them
 * queries and answers of the harnesses, each in an envelope. That has a head, `FL`, 2, a zero, how
 * long the rest is in four bytes, and the sum (CRC32) of these eight and the rest, in four. */
#ifndef ENVELOPE_H
#define ENVELOPE_H

#include <stdbool.h>
#include <stddef.h>
#include <stdint.h>

/* How long the head of an envelope is, and that of a frame or a query in it; how long a frame is at
 * most, and a query or its answer: that has the bytes of blocks. */
enum { LINK_HEAD = 12, FRAME_HEAD = 16, LONGEST_FRAME = 1073, LONGEST_QUERY = (4 << 20) + 64 };

/* Whether what an envelope holds is a query or an answer: these begin otherwise than a frame. */
bool is_query(const uint8_t *bytes);

/* Puts the head there that these bytes go behind. */
void put_link_head(uint8_t head[LINK_HEAD], const uint8_t *bytes, size_t length);

/* Reads what the next envelope holds. Returns its bytes, from malloc, or NULL where the link has ended;
 * where what came is no envelope, isn't whole within some seconds, or has another sum, that is said. */
uint8_t *read_envelope(int link, size_t *length);

#endif
