/* The file that keeps a run's state with all that a check of it wants, and the number of a run. */
#ifndef STATE_H
#define STATE_H

#include "identity.h"
#include "job.h"
#include "region.h"
#include "way.h"

#include <stdbool.h>
#include <stddef.h>
#include <stdint.h>

/* A state has at most 4,196 bytes, and a job file 16,384. */
enum { MAX_STATE = 4196, MAX_JOB_TEXT = 16384, MAX_KEPT = 32768, MAX_WHEN = 32 };

/* A state, and which run of which job it is of, where that wrote, and to which drive. */
struct kept {
    uint64_t run, job;
    struct region region;  /* of a stride of 0 where it isn't known where its blocks lie */
    char drive[MAX_DRIVE]; /* as `tell_drive` tells it; nothing where that isn't known */
    char boot[MAX_BOOT];   /* of the machine that wrote, by then; nothing where that isn't known */
    char way[MAX_WAY];     /* what its writes rested on; nothing where that isn't known */
    char when[MAX_WHEN];   /* when it was kept, to the microsecond: a later moment is a greater text */
    bool is_bare;          /* the file has the state alone, and none of the rest but the run */
    size_t text_length, length;
    char text[MAX_JOB_TEXT]; /* the job file */
    uint8_t state[MAX_STATE];
};

/* Draws a number, of 64 random bits and not 0: no two runs have one, whatever their states are
 * called and wherever they lie. */
uint64_t draw_number(void);

/* What time it is, as a state's file says it. */
void tell_moment(char when[MAX_WHEN]);

/* Refuses to keep a state in the place of anything but an earlier one: a device, the target, the
 * job file, or other bytes. The target is NULL where it lies on another machine. */
void refuse_place(const char *place, const char *job_file, const char *target);

/* Puts an earlier run's state aside, as STATE.old: a check of this run must not go by it. */
void put_aside(const char *state);

/* What is to be kept of a run of a job, but for its state, drive and boot. */
struct kept kept_of(uint64_t run, const struct job *job, const struct region *region);

/* Spells the bytes of the file, and returns how many they are. */
size_t spell_kept(struct kept *kept, uint8_t bytes[MAX_KEPT]);

/* Keeps the file, whole: beside its place and on the disk first, then under its name, and the name
 * on the disk. */
void keep_state(const char *path, struct kept *kept);

/* Reads a file, and returns whether it is one that was kept, with all of it. */
bool is_kept(const char *path, struct kept *kept);

/* Reads the file, or one that has the bare state, as `drive` says it. Where there is none, or its
 * bytes aren't those that were kept, the harness gives up. */
void read_kept(const char *path, struct kept *kept);

/* How many writes a state counts as issued, and how many of them as done. */
void count_state(const struct kept *kept, uint64_t *issued, uint64_t *done);

/* The region that a check by this file reads. What the command line says, an offset or a stride (where
 * it isn't 0), has to be what the run had, where that is known; a bare state's region is what that
 * says. */
struct region region_to_check(const char *path, const struct kept *kept, const struct job *job, uint64_t offset, uint64_t stride);

/* Refuses another drive than the one that the run wrote to, where both are known. */
void refuse_other_drive(const char *path, const struct kept *kept, const char drive[MAX_DRIVE]);

#endif
