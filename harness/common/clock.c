#include "clock.h"

#include <time.h>

uint64_t milliseconds(void) {
    struct timespec now;
    clock_gettime(CLOCK_MONOTONIC, &now);
    return (uint64_t)now.tv_sec * 1000 + (uint64_t)now.tv_nsec / 1000000;
}

void pause_for(uint64_t length) {
    nanosleep(&(struct timespec){(time_t)(length / 1000), (long)(length % 1000) * 1000000}, NULL);
}
