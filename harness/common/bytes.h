/* Bytes that go through files and pipes, whole. */
#ifndef BYTES_H
#define BYTES_H

#include <stddef.h>
#include <stdint.h>
#include <sys/types.h>

/* Writes all bytes. Returns 0, or -1 with errno. */
int write_all(int fd, const void *bytes, size_t length);

/* Reads so many bytes, or up to the end. Returns how many, or -1 with errno. */
ssize_t read_all(int fd, void *bytes, size_t length);

/* Reads a file from its beginning, at most so many bytes. Returns how many, or -1 with errno. */
ssize_t read_file(const char *path, void *bytes, size_t length);

/* Has the disk keep what the folder of this path names. Returns 0, or -1 with errno. */
int sync_folder(const char *path);

#endif
