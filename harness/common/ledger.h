/* The file that keeps a ledger: what each block of a drive's region has to hold, over many runs and
 * checks (crates/ledger). */
#ifndef LEDGER_H
#define LEDGER_H

#include "identity.h"
#include "region.h"
#include "state.h"

#include <stdbool.h>
#include <stddef.h>
#include <stdint.h>

/* A ledger, and of which region of which drive it is. */
struct ledger {
    const char *path;
    struct region region;
    char drive[MAX_DRIVE]; /* as `tell_drive` tells it; nothing where that isn't known */
    uint64_t run;          /* the run that was taken into it last; 0 where none was */
    char when[MAX_WHEN];   /* when that run's state was kept, or where it had none, when it was taken */
    uint8_t *bytes;        /* as `drive` gave them */
    size_t length;         /* 0: it asks for nothing */
};

/* By what `drive` checks: a run, with its state or without; and what a ledger asks, where there is one. */
struct basis {
    const char *command; /* of `drive`: map, or ledger, ledger-lost or ledger-rest */
    const struct kept *kept;
    const struct ledger *ledger;
};

/* Refuses to keep a ledger in the place of a device, or of one of these files; NULL for none. */
void refuse_ledger_place(const char *path, const char *job_file, const char *state, const char *target);

/* Reads it. One that isn't there yet asks for nothing. Where its bytes aren't those that were kept, the
 * harness gives up. */
struct ledger read_ledger(const char *path);

/* Reads the one that a check is to go by. Refused are a `drive` that takes none; one of another region, and of another drive, where
 * both are known; and where `state` isn't NULL, one that was kept before that of the run which was taken
 * last, or that says no moment: what was written since isn't to be blamed on the drive. */
struct ledger ledger_to_check(const char *path, const struct region *region, const char drive[MAX_DRIVE], const char *state, const struct kept *kept);

/* The basis of a check. Without a ledger it is the state alone. A run that was taken last is taken no
 * second time. */
struct basis basis_of(const struct kept *kept, const struct ledger *ledger, bool is_lost);

/* Keeps what `drive` gave behind a check, in the place of the ledger that this was by. */
void keep_ledger(const struct basis *basis, const struct region *region, const char drive[MAX_DRIVE], const void *bytes, size_t length);

void free_ledger(struct ledger *ledger);

#endif
