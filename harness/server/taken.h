/* What a lane does behind the taking of its job's state: it has the target stay busy until the power goes,
 * or until anything else is read or written there. */
#ifndef TAKEN_H
#define TAKEN_H

#include "lane.h"

/* The node has taken the state of the lane's job, and gives no more orders of its run. */
void take_state(struct lane *lane, const uint8_t state[STATE_BYTES]);

/* An executor of the lane has carried out all orders of this run but for those that are still out. Where
 * their state was taken, the writes that it has in flight are carried out again from now on. */
void end_orders(struct lane *lane, uint64_t run, const struct executor *executor);

/* Has no lane write any more what was in flight: once this has returned, nothing is written but what the
 * node orders. A state that was taken before has nothing written later, either. */
void rest_lanes(struct lane *lanes, size_t count);

#endif
