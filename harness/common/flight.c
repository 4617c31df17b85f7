#include "flight.h"

#include <endian.h>
#include <string.h>

/* Where it stands in a state: whose it is (run 8, server 4, job 4), how many writes are issued, the number
 * below which all are done, and a bit for each of the 256 from that on. */
enum { WHOSE_AT = 4, WHOSE = 16, SERVER_AT = 12, JOB_AT = 16, ISSUED_AT = 56, FLOOR_AT = 96, MARKS_AT = 104, MARKS = 256 };

/* A stamped sector: whose it is, as in a state, write 8, block 8, sector 4, and 476 bytes that count on
 * from the write's number. */
enum { SECTOR = 512, WRITE_AT = 16, BLOCK_AT = 24, SECTOR_AT = 32, TAIL = 36 };

static uint64_t number_at(const uint8_t *bytes) {
    uint64_t number;
    memcpy(&number, bytes, sizeof number);
    return be64toh(number);
}

static uint32_t short_number_at(const uint8_t *bytes) {
    uint32_t number;
    memcpy(&number, bytes, sizeof number);
    return be32toh(number);
}

uint64_t run_of_state(const uint8_t state[STATE_BYTES]) {
    return number_at(state + WHOSE_AT);
}

uint32_t server_of_state(const uint8_t state[STATE_BYTES]) {
    return short_number_at(state + SERVER_AT);
}

uint32_t job_of_state(const uint8_t state[STATE_BYTES]) {
    return short_number_at(state + JOB_AT);
}

uint64_t issued_in(const uint8_t state[STATE_BYTES]) {
    return number_at(state + ISSUED_AT);
}

uint64_t done_in(const uint8_t state[STATE_BYTES]) {
    uint64_t done = number_at(state + FLOOR_AT);
    for (size_t at = MARKS_AT; at < STATE_BYTES; at += 8) done += (uint64_t)__builtin_popcountll(number_at(state + at));
    return done;
}

bool is_state(const uint8_t *bytes, size_t length) {
    return length == STATE_BYTES && memcmp(bytes, "FCV2", WHOSE_AT) == 0;
}

bool is_in_flight(const uint8_t state[STATE_BYTES], uint64_t write) {
    uint64_t floor = number_at(state + FLOOR_AT);
    if (write < floor || write >= issued_in(state) || write - floor >= MARKS) return false;
    return (number_at(state + MARKS_AT + (write - floor) / 64 * 8) >> (write - floor) % 64 & 1) == 0;
}

static bool is_stamped(const uint8_t *sector, uint64_t write) {
    for (int at = TAIL; at < SECTOR; at++)
        if (sector[at] != (uint8_t)(write + (uint64_t)(at - TAIL))) return false;
    return true;
}

bool is_of_write(const uint8_t state[STATE_BYTES], uint64_t write, uint64_t block, const uint8_t *bytes, uint64_t block_size) {
    for (uint64_t at = 0; at < block_size / SECTOR; at++, bytes += SECTOR) {
        bool is_there = number_at(bytes + WRITE_AT) == write && number_at(bytes + BLOCK_AT) == block && short_number_at(bytes + SECTOR_AT) == at;
        if (!is_there || memcmp(bytes, state + WHOSE_AT, WHOSE) || !is_stamped(bytes, write)) return false;
    }
    return true;
}
