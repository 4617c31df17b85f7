#include "dump.h"

#include "bytes.h"
#include "drive.h"
#include "keeping.h"
#include "say.h"

#include <endian.h>
#include <errno.h>
#include <inttypes.h>
#include <limits.h>
#include <stdio.h>
#include <stdlib.h>
#include <string.h>

/* Reads `wants write W or W or W`, behind the kind. */
static void read_wanted(const char *words, struct faulty *faulty) {
    uint64_t write;
    int used;
    const char *form = " wants write %" SCNu64 "%n";
    while (faulty->count < MOST_WRITES && sscanf(words, form, &write, &used) == 1) {
        faulty->writes[faulty->count++] = write;
        words += used, form = " or %" SCNu64 "%n";
    }
}

/* Asks for these blocks of a region. */
static void ask_for_blocks(struct dump *dump, uint64_t blocks) {
    uint8_t *bits = calloc(bytes_of_bits(blocks), 1);
    if (!bits) give_up("memory", strerror(ENOMEM));
    for (size_t one = 0; one < dump->count; one++) bits[dump->blocks[one].block / 8] |= (uint8_t)(1 << dump->blocks[one].block % 8);
    dump->asked = (struct asked){0, blocks, bits};
}

struct dump open_dump(const char *place, const struct map *map, uint64_t most) {
    struct dump dump = {.place = place, .size = map->region.block_size};
    size_t room = most < map->total ? (size_t)most : (size_t)map->total;
    const char *end = report_of_map(map);
    dump.blocks = room ? calloc(room, sizeof *dump.blocks) : NULL;
    if (room && !dump.blocks) give_up("memory", strerror(ENOMEM));
    for (const char *line = map->text; line < end && dump.count < room; line = strchr(line, '\n') + 1) {
        struct faulty faulty = {0};
        char kind[32];
        int used;
        if (sscanf(line, "block %" SCNu64 " %31[a-z-]:%n", &faulty.block, kind, &used) != 2) break;
        if (strcmp(kind, "at-rest")) read_wanted(line + used, &faulty); /* (what those want is of other runs) */
        if (strcmp(kind, "unread")) dump.blocks[dump.count++] = faulty;
    }
    ask_for_blocks(&dump, map->region.blocks);
    return dump;
}

static void keep_block(const struct dump *dump, const char *ending, const void *bytes) {
    char name[PATH_MAX];
    path_beside(name, dump->place, ending);
    keep_file(name, bytes, dump->size);
}

static bool take_blocks(void *given, const void *bytes, size_t length) {
    struct dump *dump = given;
    for (size_t at = 0; at < length; at += dump->size) {
        char ending[64];
        snprintf(ending, sizeof ending, ".block-%" PRIu64, dump->blocks[dump->next++].block);
        keep_block(dump, ending, (const uint8_t *)bytes + at);
    }
    return true;
}

static bool pass_over(void *given, uint64_t block, const char *why) {
    (void)block, (void)why;
    ((struct dump *)given)->next++;
    return true;
}

struct sink sink_of_dump(struct dump *dump) {
    return (struct sink){dump, take_blocks, pass_over};
}

/* Keeps an order's bytes where a block may hold them, and returns for how many. */
static size_t keep_order(const struct dump *dump, uint64_t write, const void *bytes) {
    size_t count = 0;
    for (size_t one = 0; one < dump->count; one++)
        for (size_t of = 0; of < dump->blocks[one].count; of++) {
            char ending[96];
            if (dump->blocks[one].writes[of] != write) continue;
            snprintf(ending, sizeof ending, ".block-%" PRIu64 ".write-%" PRIu64, dump->blocks[one].block, write);
            keep_block(dump, ending, bytes);
            count++;
        }
    return count;
}

/* Has `drive` order the job's writes, each of which is told as done at once, until it has ordered all
 * that are wanted. */
void keep_wanted(const struct dump *dump, uint64_t run, const struct job *job) {
    struct order order;
    uint8_t notice[NOTICE_BYTES], *bytes = malloc(dump->size);
    size_t left = 0;
    for (size_t one = 0; one < dump->count; one++) left += dump->blocks[one].count;
    struct child drive = start_drive("write", run, job, CHILD_READS | CHILD_WRITES);
    if (!bytes) give_up("memory", strerror(ENOMEM));
    while (left && read_all(drive.from, &order, sizeof order) == sizeof order && !(be64toh(order.write) >> 56) && read_all(drive.from, bytes, dump->size) == (ssize_t)dump->size) {
        left -= keep_order(dump, be64toh(order.write), bytes);
        put_notice(notice, DONE, be64toh(order.write));
        write_all(drive.to, notice, sizeof notice);
    }
    end_group(&drive);
    free(bytes);
    if (left) say("the bytes of %zu writes that blocks may hold could not be kept", left);
}

void free_dump(struct dump *dump) {
    free_asked(&dump->asked);
    free(dump->blocks);
}
