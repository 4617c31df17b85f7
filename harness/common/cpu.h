/* On which processors a program runs. */
#ifndef CPU_H
#define CPU_H

#include <stddef.h>
#include <stdint.h>

/* Has this program, its threads and what it starts from now on run on this processor alone. Where
 * there is none of this number, the harness gives up. */
void stay_on(uint64_t cpu);

/* On how many it may run. */
size_t own_processors(void);

#endif
