/* The way to an agent: a command whose input and output are a stream of bytes. */
#ifndef LINK_H
#define LINK_H

#include "child.h"
#include "hello.h"

#include <stdbool.h>
#include <stddef.h>
#include <stdint.h>

struct link {
    struct child child;
    struct hello hello;
    struct welcome welcome;
};

/* Starts the command, says hello, with the job file behind it where the hello wants that, and waits
 * for the welcome: a new start where none comes, until that moment, in milliseconds. One that names
 * the drive it wants had it before: then what an agent refuses is tried again, too, but another
 * drive. What answers and is no agent of this version is given up on. Returns whether a welcome
 * came; if not, `why` is what an agent refused last, or nothing where none answered. */
bool try_link(struct link *link, const char *command, const struct hello *hello, const struct job *job, uint64_t until, char why[MAX_WHY]);

/* The same for so many seconds; where no welcome comes, the witness gives up. */
struct link open_link(const char *command, const struct hello *hello, const struct job *job, uint64_t seconds);

/* Reads so many bytes, until that moment at most. Returns how many came. */
size_t read_until(int fd, void *bytes, size_t length, uint64_t until);

/* Says what the agent has opened, and what of it makes a verdict weaker. */
void tell_welcome(const struct link *link);

/* Ends it: the agent finds the end of its input; what doesn't end by that is ended. */
void end_link(struct link *link);

#endif
