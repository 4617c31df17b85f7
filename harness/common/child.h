/* A program that the harness starts, with a pipe to it, from it, or both. */
#ifndef CHILD_H
#define CHILD_H

#include <stdbool.h>
#include <sys/types.h>

struct child {
    pid_t pid;
    int to;   /* its standard input; -1 where it has ours, or this was closed */
    int from; /* its standard output; -1 where it has ours, or this was closed */
};

/* Makes a pipe that holds many blocks at once: its end to read from, and the one to write to. */
void make_pipe(int ends[2]);

/* Which of its ends are pipes; whether it and what it starts are a group of processes of their own,
 * to which a terminal's signals don't go; and whether a socket takes the place of the pipe that it
 * writes to. A pipe is locked while bytes are copied into it or out of it, so that who writes much
 * waits for who reads it. A socket isn't, and takes longer for little. */
enum { CHILD_READS = 1, CHILD_WRITES = 2, CHILD_APART = 4, CHILD_BY_SOCKET = 8 };

/* Starts a program by its name, which is looked up in PATH, or by its path. Where it can't be run,
 * the harness gives up and says why. */
struct child start_child(const char *program, char *const words[], int pipes);

/* Closes the pipe to a program: it finds the end of its input. */
void end_input(struct child *child);

/* Starts a shell that runs a command. */
struct child start_command(const char *command, int pipes);

/* Ends a child that is apart, with all that it started: first its input, then by signals, where it
 * doesn't end within two seconds of each. */
void end_group(struct child *child);

/* Whether it has ended; then its exit status, or -1 where a signal ended it. */
bool has_ended(struct child *child, int *status);

/* Waits for its end. Returns its exit status, or -1 where a signal ended it. */
int wait_for(struct child *child);

/* Has a shell run a command, with these bytes as its input where there are some. Returns 0 where it
 * took them all and ended with 0. */
int run_command(const char *command, const void *bytes, size_t length);

#endif
