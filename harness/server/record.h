/* The records that `fiocut_node server` reads and writes: a kind, the length of the body in 8
 * bytes, and the body. All numbers have their high byte first. docs/NODES.md is the manual. */
#ifndef RECORD_H
#define RECORD_H

#include <stddef.h>
#include <stdint.h>

/* It reads the first six, and writes the others. */
enum record_kind {
    RECORD_NOTE = 1,
    RECORD_FRAME,
    RECORD_DONE,
    RECORD_FAILED,
    RECORD_BLOCKS,
    RECORD_UNREAD,
    RECORD_SAVE = 65,
    RECORD_SEND,
    RECORD_ORDER,
    RECORD_WANT,
    RECORD_CUT,
    RECORD_END = 73
};

/* How long the head of a record is, what names a write (run, job, write), what stands before an
 * order's bytes (that, and the block), what names blocks of a check (attempt, job, first block), and
 * what a check wants (that, how many, bytes of one). */
enum { RECORD_HEAD = 9, WRITE_NAME = 20, ORDER_HEAD = 24, BLOCKS_NAME = 16, WANT_BYTES = 24 };

struct record {
    enum record_kind kind;
    const uint8_t *body;
    size_t length;
};

/* Numbers as they stand in records. */
uint32_t get_32(const uint8_t *bytes);
uint64_t get_64(const uint8_t *bytes);
void put_32(uint8_t *bytes, uint32_t number);
void put_64(uint8_t *bytes, uint64_t number);

#endif
