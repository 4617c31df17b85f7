/* What the parts of the liar have of each other. */
#ifndef LIAR_H
#define LIAR_H

#include <stdbool.h>
#include <sys/types.h>

/* RWF_ATOMIC of a write. */
enum { ATOMIC = 0x40 };

bool is_target(int fd);

/* The path of an open file, or nothing. */
void path_of(int fd, char path[4096]);

/* Notes a line, in one piece. */
void note_line(const char *line);

typedef ssize_t writer(int, const void *, size_t, off_t);
typedef ssize_t reader(int, void *, size_t, off_t);
typedef void teller(const char *what, const void *bytes, size_t length, off_t at);

/* Notes that this process has written a block; and has the target lose the next one that it hasn't,
 * where that holds anything. */
void note_write(size_t length, off_t at);
void forget_at_rest(int fd, size_t length, writer *write_block, reader *read_block, teller *tell);

/* Takes a step of the write of a file, where this is open for that: whether it is to fail. And notes
 * which writes are told as done in what is written. */
bool fails_in_files(int fd, const char *step);
void note_told(const void *bytes, size_t length);

/* Makes a write as pwrite does, or lies about it. `never`: it doesn't come back. */
ssize_t write_or_lie(int fd, const void *bytes, size_t length, off_t at, bool is_atomic, bool *never);

/* What Linux answers to an atomic write, by what is told of such writes: 0, or an error with which
 * it makes none. */
int refuse_atomic(int fd, size_t length, off_t at);

/* Makes a read as pread does, or harms it. */
ssize_t read_or_lie(int fd, void *bytes, size_t length, off_t at);

/* Whether a system call is one of io_uring, which this library answers by itself; and its answer. */
bool answers_for_ring(long number, const long words[6], long *answer);

#endif
