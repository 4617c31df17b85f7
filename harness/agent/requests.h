/* The blocks that an agent reads for its witness. */
#ifndef REQUESTS_H
#define REQUESTS_H

#include "region.h"
#include "target.h"

/* Reads what the witness asks for, and gives it back in its order, request by request, until the link ends. */
void answer_requests(const struct target *target, const struct region *region);

#endif
