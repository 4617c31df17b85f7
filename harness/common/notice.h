/* What became of a write, as `drive` hears it and as an agent tells it: two numbers of 8 bytes, the
 * high byte first. For `drive` they are the kind and the write. On a link the first has the kind in
 * its high byte and the block in the rest: so a witness finds it where what is carried out isn't
 * what it counts; and behind them stands their sum, in 4 bytes, and 4 of zeros. */
#ifndef NOTICE_H
#define NOTICE_H

#include <stdint.h>

enum notice { DONE = 1, FAILED = 2, TAKE = 3 };

enum { NOTICE_BYTES = 16, TOLD_BYTES = 24 };

/* A write that has ended, and how. */
struct told {
    enum notice kind; /* DONE or FAILED */
    uint64_t write, block;
};

/* Puts a notice for `drive` there. */
void put_notice(uint8_t bytes[NOTICE_BYTES], enum notice kind, uint64_t write);

/* Puts a notice of a link there, and reads one: its kind may be any number then, and is 0 where its
 * sum is another one. */
void put_told(uint8_t bytes[TOLD_BYTES], struct told told);
struct told read_told(const uint8_t bytes[TOLD_BYTES]);

#endif
