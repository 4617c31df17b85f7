/* What a witness and an agent say to each other first, so that a wrong pair refuses at once. Behind
 * the magic come numbers of 8 bytes, the high byte first, texts, and the sum of all that. */
#ifndef HELLO_H
#define HELLO_H

#include "atomic.h"
#include "identity.h"
#include "region.h"
#include "way.h"

#include <stdbool.h>
#include <stdint.h>

/* The last byte of each magic is the version of all that goes over the link. */
#define HELLO_MAGIC "FCHELLO6"
#define WELCOME_MAGIC "FCAGENT6"

enum { MAGIC = 8, HELLO_NUMBERS = 11, WELCOME_NUMBERS = 10, MAX_WHY = 256 };
enum { SUM = 4, HELLO_BYTES = MAGIC + 8 * HELLO_NUMBERS + MAX_DRIVE + SUM, WELCOME_BYTES = MAGIC + 8 * WELCOME_NUMBERS + MAX_WHY + MAX_DRIVE + MAX_BOOT + MAX_WAY + SUM };

/* The witness's: what it wants. */
struct hello {
    bool writes;  /* and else it reads, */
    bool flushes; /* once it has its target flushed: then what it reads stays */
    uint64_t depth;
    struct region region;
    /* The agent's own `drive` gives the orders: of this run, and of the job of this number in a
     * text of so many bytes, which follows. */
    bool is_local;
    uint64_t run, job, text_length;
    /* The drive that it has to be, or nothing for any. Where it is that one, its bytes are these runs'
     * own, and aren't looked at before it is written. */
    char drive[MAX_DRIVE];
    bool owns;
};

/* What a device says of its cache. */
enum cache { CACHE_UNTOLD, CACHE_WRITE_THROUGH, CACHE_WRITE_BACK };

/* The agent's: what it has opened, or why it hasn't. */
struct welcome {
    bool is_refused;
    /* Of the target, and of what its device writes whole, 0 where nobody tells. */
    uint64_t size, whole;
    enum cache cache;
    uint64_t flush;
    bool cached;
    uint64_t block_size, blocks; /* those of the hello */
    struct atomic_unit unit;     /* what the system tells of atomic writes to the target */
    char why[MAX_WHY];
    char drive[MAX_DRIVE], boot[MAX_BOOT]; /* which drive it has, and the start of its machine */
    char way[MAX_WAY];                     /* what its writes rest on */
};

void write_hello(uint8_t bytes[HELLO_BYTES], const struct hello *hello);
void write_welcome(uint8_t bytes[WELCOME_BYTES], const struct welcome *welcome);

/* Reads it. False where these are other bytes, those of another version among them. */
bool read_hello(const uint8_t bytes[HELLO_BYTES], struct hello *hello);
bool read_welcome(const uint8_t bytes[WELCOME_BYTES], struct welcome *welcome);

#endif
