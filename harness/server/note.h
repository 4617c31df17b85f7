/* The file that keeps a node's note, with whose it is, of which fleet, and a checksum. A note's own bytes
 * don't tell that they are torn. */
#ifndef NOTE_H
#define NOTE_H

#include <stddef.h>
#include <stdint.h>

/* Has the file for itself until the program ends; another one that keeps its note there is waited
 * for, two seconds at most. */
void lock_note(const char *path);

/* Whose a note is: the server's number, and that of its fleet, 0 where it isn't known yet. */
struct whose {
    uint32_t me;
    uint64_t fleet;
};

/* Reads the note of this server, with room for it from malloc, and of which fleet it is; no bytes where
 * there is no such file yet. Where it is another node's, or its bytes aren't those that were kept, the
 * harness gives up. */
uint8_t *read_note(const char *path, struct whose *whose, size_t *length);

/* Keeps it, whole, on the disk. */
void keep_note(const char *path, const struct whose *whose, const uint8_t *bytes, size_t length);

/* Keeps the note beside its place, and an empty one there, of another fleet. Who is killed within it has
 * the old note, or the new one. */
void put_note_aside(const char *path, const struct whose *whose);

#endif
