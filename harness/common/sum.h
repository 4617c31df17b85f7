/* Sums over bytes that are kept or sent: CRC32C, Castagnoli's; and CRC32, that of zip and Ethernet,
 * in what a fleet's harnesses in Python have, too. */
#ifndef SUM_H
#define SUM_H

#include <stddef.h>
#include <stdint.h>

/* The CRC32C of what gave `sum`, 0 for nothing, with these bytes behind it. */
uint32_t sum_over(uint32_t sum, const void *bytes, size_t length);

/* The same on any processor, which takes longer. */
uint32_t sum_by_steps(uint32_t sum, const void *bytes, size_t length);

/* The CRC32 likewise. */
uint32_t zip_sum_over(uint32_t sum, const void *bytes, size_t length);

#endif
