#include "reading.h"

#include "files.h"

#include <errno.h>
#include <string.h>
#include <unistd.h>

/* So many bytes are read in one go where blocks lie one behind the other, and so many are handed on at once, but for
 * one larger block each time. As many are in memory as MOST_READS blocks have, but from LEAST on to MOST: more of
 * neighbouring blocks would make what is read from memory slower, and a drive no faster. */
enum { IN_ONE_GO = 1 << 18, AT_ONCE = 1 << 20, LEAST = 2 << 20, MOST = 8 << 20, PAGE = 4096 };

static uint64_t between(uint64_t least, uint64_t number, uint64_t most) {
    return number < least ? least : number < most ? number : most;
}

void open_reader(struct reader *reader, const struct target *target, const struct region *region) {
    const uint64_t size = region->block_size, memory = between(LEAST, MOST_READS * size, MOST);
    reader->target = target, reader->region = *region;
    reader->most = region->stride == size && size < IN_ONE_GO ? IN_ONE_GO / size : 1;
    const uint64_t pages = (size + PAGE - 1) / PAGE * PAGE; /* (as a file is read) */
    open_reads(&reader->reads, target->fd, (size_t)(memory < pages ? pages : memory));
}

/* How many blocks from this one on, which is asked for, are read in one go. */
static uint64_t blocks_in_one_go(const struct reader *reader, const struct asked *asked, uint64_t block) {
    const uint64_t left = asked->first + asked->count - block, most = left < reader->most ? left : reader->most;
    uint64_t blocks = 1;
    while (blocks < most && is_asked(asked, block + blocks)) blocks++;
    return blocks;
}

/* Begins as many reads as there is room for, of the blocks that are asked for from this one on, and returns
 * where the next one begins. */
static uint64_t begin_reads(struct reader *reader, const struct asked *asked, uint64_t block) {
    while (block < asked->first + asked->count) {
        const uint64_t blocks = blocks_in_one_go(reader, asked, block);
        const size_t length = (size_t)(blocks * reader->region.block_size);
        if (!has_room(&reader->reads, length)) break;
        begin_read(&reader->reads, (struct a_read){.block = block, .blocks = blocks, .place = place_of(&reader->region, block), .length = length});
        block = next_asked(asked, block + blocks);
    }
    return block;
}

/* Reads the blocks of a read that failed, or brought too little, one by one, and hands them on. */
static bool hand_on_one_by_one(const struct reader *reader, const struct a_read *read, const struct sink *sink) {
    const size_t size = (size_t)reader->region.block_size;
    bool goes_on = true;
    for (uint64_t block = read->block; goes_on && block < read->block + read->blocks; block++) {
        ssize_t count = pread(reader->target->fd, read->bytes, size, (off_t)place_of(&reader->region, block));
        if (count == (ssize_t)size) goes_on = sink->take(sink->whose, read->bytes, size);
        else goes_on = sink->miss(sink->whose, block, count < 0 ? strerror(errno) : "the target ends there");
    }
    return goes_on;
}

/* Whether all came that was asked for. */
static bool is_whole(const struct a_read *read) {
    return read->answer == (long)read->length;
}

/* Hands on what the oldest reads have brought: of several whose bytes lie one behind the other all at once, but of
 * half of them at most, so that the target has something to do meanwhile. */
static bool hand_on(struct reader *reader, const struct sink *sink) {
    struct reads *reads = &reader->reads;
    const struct a_read *oldest = await_oldest(reads), *next = oldest;
    size_t length = 0, count = 0;
    for (; count < MOST_READS / 2 && next && is_whole(next) && (!count || length + next->length <= AT_ONCE); next = next_in_memory(reads, count)) length += next->length, count++;
    bool goes_on = count ? sink->take(sink->whose, oldest->bytes, length) : hand_on_one_by_one(reader, oldest, sink);
    end_reads(reads, count ? count : 1);
    return goes_on;
}

/* Reads blocks that are files, one by one, and hands them on. */
static void read_files(struct reader *reader, const struct asked *asked, const struct sink *sink) {
    const size_t size = (size_t)reader->region.block_size;
    uint8_t *bytes = reader->reads.memory;
    bool goes_on = true;
    for (uint64_t block = next_asked(asked, asked->first); goes_on && block < asked->first + asked->count; block = next_asked(asked, block + 1)) {
        char why[MAX_UNREAD];
        const bool is_read = read_block_file(reader->target, bytes, size, place_of(&reader->region, block), why);
        goes_on = is_read ? sink->take(sink->whose, bytes, size) : sink->miss(sink->whose, block, why);
    }
}

void read_asked(struct reader *reader, const struct asked *asked, const struct sink *sink) {
    if (reader->target->is_folder) {
        read_files(reader, asked, sink);
        return;
    }
    struct reads *reads = &reader->reads;
    uint64_t block = next_asked(asked, asked->first);
    bool goes_on = true;
    while (goes_on && (block = begin_reads(reader, asked, block), reads->begun > reads->ended)) goes_on = hand_on(reader, sink);
    while (reads->begun > reads->ended) await_oldest(reads), end_reads(reads, 1);
}

void close_reader(struct reader *reader) {
    close_reads(&reader->reads);
}
