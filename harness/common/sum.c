#include "sum.h"

#include <pthread.h>
#include <string.h>

/* The two sums, and how many bytes a step takes. */
enum { CASTAGNOLI, ZIP, SUMS, STEP = 8 };

/* Their polynomials, the lowest bit first. */
static const uint32_t POLYNOMIALS[SUMS] = {0x82f63b78, 0xedb88320};

/* What a byte that stands so many places before the end of a step makes of a sum. */
static uint32_t all_rows[SUMS][STEP][256];
static pthread_once_t is_filled = PTHREAD_ONCE_INIT;

static void fill_rows(uint32_t polynomial, uint32_t rows[STEP][256]) {
    for (uint32_t byte = 0; byte < 256; byte++) {
        uint32_t sum = byte;
        for (int bit = 0; bit < 8; bit++) sum = sum >> 1 ^ (sum & 1 ? polynomial : 0);
        rows[0][byte] = sum;
    }
    for (int row = 1; row < STEP; row++)
        for (int byte = 0; byte < 256; byte++) rows[row][byte] = rows[row - 1][byte] >> 8 ^ rows[0][rows[row - 1][byte] & 0xff];
}

static void fill(void) {
    for (int of = 0; of < SUMS; of++) fill_rows(POLYNOMIALS[of], all_rows[of]);
}

static uint32_t by_steps(int of, uint32_t sum, const void *given, size_t length) {
    const uint8_t *bytes = given;
    pthread_once(&is_filled, fill);
    uint32_t(*rows)[256] = all_rows[of];
    sum = ~sum;
    for (; length >= STEP; bytes += STEP, length -= STEP) {
        uint8_t step[STEP];
        memcpy(step, bytes, STEP);
        for (int at = 0; at < 4; at++) step[at] ^= (uint8_t)(sum >> 8 * at);
        sum = 0;
        for (int at = 0; at < STEP; at++) sum ^= rows[STEP - 1 - at][step[at]];
    }
    for (; length > 0; bytes++, length--) sum = sum >> 8 ^ rows[0][(sum ^ *bytes) & 0xff];
    return ~sum;
}

#ifdef __x86_64__
/* The same by the processor's own instruction. */
__attribute__((target("sse4.2"))) static uint32_t by_instruction(uint32_t sum, const uint8_t *bytes, size_t length) {
    uint64_t wide = ~sum;
    for (; length >= STEP; bytes += STEP, length -= STEP) {
        uint64_t step;
        memcpy(&step, bytes, STEP);
        wide = __builtin_ia32_crc32di(wide, step);
    }
    sum = (uint32_t)wide;
    for (; length > 0; bytes++, length--) sum = __builtin_ia32_crc32qi(sum, *bytes);
    return ~sum;
}
#endif

uint32_t sum_over(uint32_t sum, const void *given, size_t length) {
    const uint8_t *bytes = given;
#ifdef __x86_64__
    if (__builtin_cpu_supports("sse4.2")) return by_instruction(sum, bytes, length);
#endif
    return sum_by_steps(sum, bytes, length);
}

uint32_t sum_by_steps(uint32_t sum, const void *bytes, size_t length) {
    return by_steps(CASTAGNOLI, sum, bytes, length);
}

uint32_t zip_sum_over(uint32_t sum, const void *bytes, size_t length) {
    return by_steps(ZIP, sum, bytes, length);
}
