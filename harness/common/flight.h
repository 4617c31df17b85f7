/* Which writes a verify state has in flight: those that it counts as issued, and not as done. Each of them
 * may stand in its block or not, whatever is done with it behind the taking. */
#ifndef FLIGHT_H
#define FLIGHT_H

#include <stdbool.h>
#include <stddef.h>
#include <stdint.h>

/* How long a state is, in layout 2; another one has nothing in flight here. */
enum { STATE_BYTES = 136 };

/* The run, the server and the job that a state is of. */
uint64_t run_of_state(const uint8_t state[STATE_BYTES]);
uint32_t server_of_state(const uint8_t state[STATE_BYTES]);
uint32_t job_of_state(const uint8_t state[STATE_BYTES]);

/* How many writes it counts as issued, and how many of them as done. */
uint64_t issued_in(const uint8_t state[STATE_BYTES]);
uint64_t done_in(const uint8_t state[STATE_BYTES]);

bool is_state(const uint8_t *bytes, size_t length);
bool is_in_flight(const uint8_t state[STATE_BYTES], uint64_t write);

/* Whether these are the bytes of this write to this block, by the state's run and job, in each sector. */
bool is_of_write(const uint8_t state[STATE_BYTES], uint64_t write, uint64_t block, const uint8_t *bytes, uint64_t block_size);

#endif
