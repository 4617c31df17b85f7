#include "record.h"

#include <endian.h>
#include <string.h>

uint32_t get_32(const uint8_t *bytes) {
    uint32_t number;
    memcpy(&number, bytes, sizeof number);
    return be32toh(number);
}

uint64_t get_64(const uint8_t *bytes) {
    uint64_t number;
    memcpy(&number, bytes, sizeof number);
    return be64toh(number);
}

void put_32(uint8_t *bytes, uint32_t number) {
    number = htobe32(number);
    memcpy(bytes, &number, sizeof number);
}

void put_64(uint8_t *bytes, uint64_t number) {
    number = htobe64(number);
    memcpy(bytes, &number, sizeof number);
}
