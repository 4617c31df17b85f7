/* Which drive a target is, and whether the machine has been started since. */
#ifndef IDENTITY_H
#define IDENTITY_H

#include "target.h"

/* How long what is told of a drive may be, and the number of a machine's start. */
enum { MAX_DRIVE = 256, MAX_BOOT = 40 };

/* Tells in words which drive a target is, by what stays the same over a cut: of a device what it
 * says of its model and numbers, and its size, of a partition where it lies, too, and of a file its
 * number in the file system. The name that it was opened by is no part of it. */
void tell_drive(const struct target *target, char drive[MAX_DRIVE]);

/* The number that the kernel has drawn as this machine was started, or nothing where it tells
 * none. */
void tell_boot(char boot[MAX_BOOT]);

#endif
