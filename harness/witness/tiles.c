#include "tiles.h"

#include "bytes.h"
#include "say.h"
#include "sum.h"

#include <endian.h>
#include <errno.h>
#include <fcntl.h>
#include <stdio.h>
#include <stdlib.h>
#include <string.h>
#include <unistd.h>

static const char MAGIC_WORDS[8] = "FCTILES1";

enum kind { BEGUN = 1, ENDED, CHECKED, LOST };

/* A record: four numbers of 8 bytes, the high byte first; behind those of an end the state, and of a check
 * six numbers more; and a sum. */
enum { KIND, TILE, CYCLE, RUN, NUMBERS };
enum { FOUND_NUMBERS = 6, FRONT = 8 * NUMBERS, FOUND = 8 * FOUND_NUMBERS, RECORD_SUM = 4, MOST_RECORD = FRONT + STATE_BYTES + RECORD_SUM };

struct record {
    enum kind kind;
    uint64_t tile, cycle, run;
    uint8_t state[STATE_BYTES];
    struct findings found;
};

static size_t length_of(uint64_t kind) {
    return FRONT + (kind == ENDED ? STATE_BYTES : kind == CHECKED ? FOUND : 0) + RECORD_SUM;
}

static void put_numbers(uint8_t *bytes, const uint64_t *numbers, size_t count) {
    for (size_t at = 0; at < count; at++) {
        const uint64_t number = htobe64(numbers[at]);
        memcpy(bytes + 8 * at, &number, sizeof number);
    }
}

static void take_numbers(const uint8_t *bytes, uint64_t *numbers, size_t count) {
    memcpy(numbers, bytes, 8 * count);
    for (size_t at = 0; at < count; at++) numbers[at] = be64toh(numbers[at]);
}

/* Spells a record, but for its sum. */
static void put_record(uint8_t *bytes, const struct record *record) {
    const struct findings *found = &record->found;
    put_numbers(bytes, (const uint64_t[]){record->kind, record->tile, record->cycle, record->run}, NUMBERS);
    if (record->kind == ENDED) memcpy(bytes + FRONT, record->state, STATE_BYTES);
    if (record->kind == CHECKED) put_numbers(bytes + FRONT, (const uint64_t[]){found->asked, found->in_flight, found->at_rest, found->misdirected, found->unread, found->is_behind_cut}, FOUND_NUMBERS);
}

static struct record record_in(const uint8_t *bytes) {
    struct record record = {0};
    uint64_t numbers[NUMBERS], more[FOUND_NUMBERS];
    take_numbers(bytes, numbers, NUMBERS);
    record = (struct record){.kind = (enum kind)numbers[KIND], .tile = numbers[TILE], .cycle = numbers[CYCLE], .run = numbers[RUN]};
    if (record.kind == ENDED) memcpy(record.state, bytes + FRONT, STATE_BYTES);
    if (record.kind != CHECKED) return record;
    take_numbers(bytes + FRONT, more, FOUND_NUMBERS);
    record.found = (struct findings){more[0], more[1], more[2], more[3], more[4], more[5]};
    return record;
}

/* A tile is to be written again, or no more. */
static void set_again(struct tiles *tiles, uint64_t at, bool is) {
    size_t place = 0;
    while (place < tiles->again_count && tiles->again[place] != at) place++;
    if (place < tiles->again_count) memmove(tiles->again + place, tiles->again + place + 1, (--tiles->again_count - place) * sizeof *tiles->again);
    if (!is) return;
    tiles->again = realloc(tiles->again, (tiles->again_count + 1) * sizeof *tiles->again);
    if (!tiles->again) give_up("memory", strerror(ENOMEM));
    tiles->again[tiles->again_count++] = at;
}

static bool is_cut_short(const struct tiles *tiles, const struct tile *tile) {
    return tile->phase == TILE_ENDED && !tile->is_whole && tile->cuts < tiles->most;
}

static void add_findings(struct findings *sum, const struct findings *found) {
    sum->in_flight += found->in_flight, sum->at_rest += found->at_rest, sum->misdirected += found->misdirected, sum->unread += found->unread;
}

/* What a check changes. */
static void apply_check(struct tiles *tiles, struct tile *tile, const struct record *record) {
    if (record->cycle != tiles->last_cycle) tiles->found_last = (struct findings){0}, tiles->last_cycle = record->cycle;
    add_findings(&tiles->found_last, &record->found), add_findings(&tiles->found, &record->found);
    tile->checked_in = record->cycle, tile->is_behind_cut |= record->found.is_behind_cut;
    if (record->found.asked > tile->asked) tile->asked = record->found.asked; /* (what was lost is asked for no more) */
    tile->has_faults |= faults_in(&record->found) > 0;
}

/* What a record changes. */
static void apply(struct tiles *tiles, const struct record *record) {
    struct tile *tile = &tiles->all[record->tile];
    switch (record->kind) {
    case BEGUN:
        tile->phase = TILE_BEGUN, tile->run = record->run, tile->cycle = record->cycle;
        if (record->tile >= tiles->next) tiles->next = record->tile + 1;
        break;
    case ENDED:
        memcpy(tile->state, record->state, STATE_BYTES);
        tile->phase = TILE_ENDED, tile->checked_in = tile->asked = 0, tile->is_behind_cut = false, tile->is_whole = done_in(tile->state) == tiles->total;
        tile->cuts = tile->is_whole ? 0 : tile->cuts + 1;
        break;
    case CHECKED: apply_check(tiles, tile, record); break;
    case LOST: *tile = (struct tile){.phase = TILE_ENDED, .run = tile->run, .cycle = tile->cycle, .cuts = tile->cuts, .checked_in = tile->cycle, .has_faults = tile->has_faults}; break;
    }
    if (record->kind != CHECKED) set_again(tiles, record->tile, is_cut_short(tiles, tile));
}

static void append(struct tiles *tiles, const struct record *record) {
    uint8_t bytes[MOST_RECORD];
    const size_t length = length_of(record->kind);
    put_record(bytes, record);
    tiles->sum = sum_over(tiles->sum, bytes, length - RECORD_SUM);
    const uint32_t sum = htobe32(tiles->sum);
    memcpy(bytes + length - RECORD_SUM, &sum, RECORD_SUM);
    if (write_all(tiles->fd, bytes, length)) give_up_by_errno(tiles->path);
    apply(tiles, record);
}

/* Reads a record. False at the end, and where it isn't whole. Any other bytes than those of a record are
 * given up on. */
static bool read_record(struct tiles *tiles, FILE *file, struct record *record) {
    uint8_t bytes[MOST_RECORD];
    uint64_t kind;
    uint32_t sum;
    if (fread(bytes, 1, FRONT, file) != FRONT) return false;
    take_numbers(bytes, &kind, 1);
    const size_t length = length_of(kind);
    if (fread(bytes + FRONT, 1, length - FRONT, file) != length - FRONT) return false;
    memcpy(&sum, bytes + length - RECORD_SUM, RECORD_SUM);
    tiles->sum = sum_over(tiles->sum, bytes, length - RECORD_SUM);
    *record = record_in(bytes);
    if (be32toh(sum) != tiles->sum || kind < BEGUN || kind > LOST || record->tile >= tiles->count) give_up(tiles->path, "its bytes aren't those that were kept");
    return true;
}

/* Goes through all records from the front, as long as `take` wants more, and returns where the last one
 * that is whole ends. */
static long each_record(struct tiles *tiles, bool (*take)(struct tiles *, const struct record *, void *), void *whose) {
    char magic[sizeof MAGIC_WORDS];
    struct record record;
    FILE *file = fopen(tiles->path, "r");
    if (!file) give_up_by_errno(tiles->path);
    if (fread(magic, 1, sizeof magic, file) != sizeof magic || memcmp(magic, MAGIC_WORDS, sizeof magic)) give_up(tiles->path, "it holds no tiles of a tour");
    long end = sizeof magic;
    uint32_t sum = tiles->sum = 0;
    while (read_record(tiles, file, &record)) {
        end = ftell(file), sum = tiles->sum;
        if (!take(tiles, &record, whose)) break;
    }
    tiles->sum = sum;
    fclose(file);
    return end;
}

static bool take_record(struct tiles *tiles, const struct record *record, void *none) {
    (void)none;
    apply(tiles, record);
    return true;
}

struct tiles open_tiles(const char *path, uint64_t count, uint64_t total, uint64_t most, bool is_there) {
    struct tiles tiles = {.total = total, .most = most, .count = count, .all = calloc(count, sizeof *tiles.all)};
    if (!tiles.all) give_up("memory", strerror(ENOMEM));
    snprintf(tiles.path, sizeof tiles.path, "%s", path);
    tiles.fd = open(path, O_WRONLY | O_APPEND | O_CLOEXEC | (is_there ? 0 : O_CREAT | O_EXCL), 0644);
    if (tiles.fd < 0) give_up_by_errno(path);
    if (is_there && ftruncate(tiles.fd, each_record(&tiles, take_record, NULL))) give_up_by_errno(path);
    if (!is_there && (write_all(tiles.fd, MAGIC_WORDS, sizeof MAGIC_WORDS) || sync_folder(path))) give_up_by_errno(path);
    sync_tiles(&tiles);
    return tiles;
}

/* A record of a tile's last run. */
static struct record record_of(const struct tiles *tiles, enum kind kind, uint64_t at) {
    return (struct record){.kind = kind, .tile = at, .cycle = tiles->all[at].cycle, .run = tiles->all[at].run};
}

void note_tile_begun(struct tiles *tiles, uint64_t at, uint64_t run, uint64_t cycle) {
    const bool is_new = tiles->all[at].phase == TILE_NEW;
    append(tiles, &(struct record){.kind = BEGUN, .tile = at, .cycle = cycle, .run = run});
    if (!is_new) sync_tiles(tiles); /* (what an earlier run wrote is asked for no more, whatever becomes of this machine) */
}

void note_tile_lost(struct tiles *tiles, uint64_t at) {
    const struct record record = record_of(tiles, LOST, at);
    append(tiles, &record);
}

void note_tile_ended(struct tiles *tiles, uint64_t at, const uint8_t state[STATE_BYTES]) {
    struct record record = record_of(tiles, ENDED, at);
    memcpy(record.state, state, STATE_BYTES);
    append(tiles, &record);
}

void note_tile_checked(struct tiles *tiles, uint64_t at, uint64_t cycle, const struct findings *found) {
    struct record record = record_of(tiles, CHECKED, at);
    record.cycle = cycle, record.found = *found;
    append(tiles, &record);
}

uint64_t faults_in(const struct findings *found) {
    return found->in_flight + found->at_rest + found->misdirected + found->unread;
}

void sync_tiles(const struct tiles *tiles) {
    if (fsync(tiles->fd)) give_up_by_errno(tiles->path);
}

bool next_tile(const struct tiles *tiles, uint64_t *at) {
    *at = tiles->again_count ? tiles->again[0] : tiles->next;
    return *at < tiles->count;
}

static bool take_run(struct tiles *tiles, const struct record *record, void *runs) {
    (void)tiles;
    if (record->kind == BEGUN) add_run(runs, record->run, record->tile);
    return true;
}

struct known_runs runs_of_tiles(const struct tiles *tiles) {
    struct tiles read = *tiles;
    struct known_runs runs = {.word = "tile"};
    (void)each_record(&read, take_run, &runs);
    sort_runs(&runs);
    return runs;
}

bool has_state(const struct tile *tile) {
    return tile->phase == TILE_ENDED && is_state(tile->state, STATE_BYTES);
}

uint64_t tiles_behind_no_cut(const struct tiles *tiles) {
    uint64_t count = 0;
    for (uint64_t at = 0; at < tiles->next; at++) count += has_state(&tiles->all[at]) && !tiles->all[at].is_behind_cut;
    return count;
}
