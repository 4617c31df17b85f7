#include "notice.h"

#include "sum.h"

#include <endian.h>
#include <string.h>

enum { KIND_AT = 56 };

static void put_numbers(uint8_t bytes[NOTICE_BYTES], uint64_t first, uint64_t second) {
    const uint64_t numbers[2] = {htobe64(first), htobe64(second)};
    memcpy(bytes, numbers, sizeof numbers);
}

void put_notice(uint8_t bytes[NOTICE_BYTES], enum notice kind, uint64_t write) {
    put_numbers(bytes, (uint64_t)kind, write);
}

void put_told(uint8_t bytes[TOLD_BYTES], struct told told) {
    put_numbers(bytes, (uint64_t)told.kind << KIND_AT | told.block, told.write);
    const uint32_t sum[2] = {htobe32(sum_over(0, bytes, NOTICE_BYTES)), 0};
    memcpy(bytes + NOTICE_BYTES, sum, sizeof sum);
}

struct told read_told(const uint8_t bytes[TOLD_BYTES]) {
    uint64_t numbers[2];
    uint32_t sum[2];
    memcpy(numbers, bytes, sizeof numbers), memcpy(sum, bytes + NOTICE_BYTES, sizeof sum);
    if (be32toh(sum[0]) != sum_over(0, bytes, NOTICE_BYTES) || sum[1]) return (struct told){0};
    uint64_t first = be64toh(numbers[0]);
    return (struct told){(enum notice)(first >> KIND_AT), be64toh(numbers[1]), first & (((uint64_t)1 << KIND_AT) - 1)};
}
