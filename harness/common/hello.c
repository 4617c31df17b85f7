#include "hello.h"

#include "sum.h"

#include <endian.h>
#include <string.h>

/* What the first number of a hello says. */
enum { READS, WRITES, READS_FLUSHED };

static void put_numbers(uint8_t *bytes, const uint64_t *numbers, size_t count) {
    for (size_t at = 0; at < count; at++) {
        uint64_t number = htobe64(numbers[at]);
        memcpy(bytes + 8 * at, &number, sizeof number);
    }
}

static void take_numbers(const uint8_t *bytes, uint64_t *numbers, size_t count) {
    for (size_t at = 0; at < count; at++) {
        memcpy(&numbers[at], bytes + 8 * at, sizeof *numbers);
        numbers[at] = be64toh(numbers[at]);
    }
}

static void put_sum(uint8_t *bytes, size_t length) {
    uint32_t sum = htobe32(sum_over(0, bytes, length - SUM));
    memcpy(bytes + length - SUM, &sum, SUM);
}

static bool is_summed(const uint8_t *bytes, size_t length) {
    uint32_t sum;
    memcpy(&sum, bytes + length - SUM, SUM);
    return be32toh(sum) == sum_over(0, bytes, length - SUM);
}

void write_hello(uint8_t bytes[HELLO_BYTES], const struct hello *hello) {
    const struct region *region = &hello->region;
    memcpy(bytes, HELLO_MAGIC, MAGIC);
    const uint64_t numbers[HELLO_NUMBERS] = {hello->writes ? WRITES : hello->flushes ? READS_FLUSHED : READS, hello->depth,    region->block_size, region->blocks, region->offset,
                                             region->stride, hello->is_local, hello->run,         hello->job,     hello->text_length, hello->owns};
    put_numbers(bytes + MAGIC, numbers, HELLO_NUMBERS);
    memcpy(bytes + MAGIC + 8 * HELLO_NUMBERS, hello->drive, MAX_DRIVE);
    put_sum(bytes, HELLO_BYTES);
}

bool read_hello(const uint8_t bytes[HELLO_BYTES], struct hello *hello) {
    uint64_t numbers[HELLO_NUMBERS];
    if (memcmp(bytes, HELLO_MAGIC, MAGIC) || !is_summed(bytes, HELLO_BYTES)) return false;
    take_numbers(bytes + MAGIC, numbers, HELLO_NUMBERS);
    *hello = (struct hello){numbers[0] == WRITES, numbers[0] == READS_FLUSHED, numbers[1], {numbers[2], numbers[3], numbers[4], numbers[5]}, numbers[6] == 1, numbers[7], numbers[8], numbers[9], "", numbers[10] == 1};
    memcpy(hello->drive, bytes + MAGIC + 8 * HELLO_NUMBERS, MAX_DRIVE - 1);
    return numbers[0] <= READS_FLUSHED && numbers[6] <= 1 && numbers[10] <= 1;
}

void write_welcome(uint8_t bytes[WELCOME_BYTES], const struct welcome *welcome) {
    const uint64_t numbers[WELCOME_NUMBERS] = {welcome->is_refused, welcome->size,   welcome->whole,      welcome->cache,
                                               welcome->flush,      welcome->cached, welcome->block_size, welcome->blocks,
                                               welcome->unit.least, welcome->unit.most};
    memcpy(bytes, WELCOME_MAGIC, MAGIC);
    put_numbers(bytes + MAGIC, numbers, WELCOME_NUMBERS);
    uint8_t *texts = bytes + MAGIC + 8 * WELCOME_NUMBERS;
    memcpy(texts, welcome->why, MAX_WHY), memcpy(texts + MAX_WHY, welcome->drive, MAX_DRIVE);
    memcpy(texts + MAX_WHY + MAX_DRIVE, welcome->boot, MAX_BOOT), memcpy(texts + MAX_WHY + MAX_DRIVE + MAX_BOOT, welcome->way, MAX_WAY);
    put_sum(bytes, WELCOME_BYTES);
}

bool read_welcome(const uint8_t bytes[WELCOME_BYTES], struct welcome *welcome) {
    uint64_t numbers[WELCOME_NUMBERS];
    if (memcmp(bytes, WELCOME_MAGIC, MAGIC) || !is_summed(bytes, WELCOME_BYTES)) return false;
    take_numbers(bytes + MAGIC, numbers, WELCOME_NUMBERS);
    *welcome = (struct welcome){numbers[0] != 0, numbers[1], numbers[2], (enum cache)(numbers[3] < 3 ? numbers[3] : 0), numbers[4], numbers[5] != 0, numbers[6], numbers[7], {numbers[8], numbers[9]}, "", "", "", ""};
    const uint8_t *texts = bytes + MAGIC + 8 * WELCOME_NUMBERS;
    memcpy(welcome->why, texts, MAX_WHY - 1), memcpy(welcome->drive, texts + MAX_WHY, MAX_DRIVE - 1);
    memcpy(welcome->boot, texts + MAX_WHY + MAX_DRIVE, MAX_BOOT - 1), memcpy(welcome->way, texts + MAX_WHY + MAX_DRIVE + MAX_BOOT, MAX_WAY - 1);
    return true;
}
