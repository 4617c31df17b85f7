#include "cpu.h"

#include "say.h"

#include <sched.h>

void stay_on(uint64_t cpu) {
    cpu_set_t set;
    CPU_ZERO(&set);
    if (cpu >= CPU_SETSIZE) give_up("--cpu", "there is no such processor");
    CPU_SET((size_t)cpu, &set);
    if (sched_setaffinity(0, sizeof set, &set)) give_up("--cpu", "there is no such processor");
}

size_t own_processors(void) {
    cpu_set_t set;
    /* (the call fails where the system has more of them than a set has room for) */
    return sched_getaffinity(0, sizeof set, &set) ? CPU_SETSIZE : (size_t)CPU_COUNT(&set);
}
