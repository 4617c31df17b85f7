/* Time, as a witness counts it. */
#ifndef CLOCK_H
#define CLOCK_H

#include <stdint.h>

/* Milliseconds since some moment, whatever becomes of the time of day. */
uint64_t milliseconds(void);

/* Waits so many of them. */
void pause_for(uint64_t length);

#endif
