/* The node: `fiocut_node server ME`, which the server starts, what it is told and what it says. */
#ifndef NODE_H
#define NODE_H

#include "child.h"
#include "record.h"

#include <pthread.h>
#include <stdbool.h>
#include <sys/uio.h>

struct node {
    struct child child;
    pthread_mutex_t lock; /* of the next five */
    pthread_cond_t changed;
    uint8_t *told; /* what it was told and hasn't been given yet */
    size_t told_length, told_room;
    bool is_giving; /* a thread gives it what stood there before */
    uint8_t *said; /* what it has said, from `begin` to `end` */
    size_t begin, end, room;
};

/* Starts the node of server ME; NODE names the program, else `fiocut_node` in PATH. */
void start_node(struct node *node, uint64_t me);

/* Tells it a record whose body is these pieces, one behind the other. It never waits for the node,
 * which may itself be waiting for who calls. */
void tell_node(struct node *node, enum record_kind kind, const struct iovec *pieces, int count);

/* How a write has ended: as done or failed, and its name. */
struct ended {
    enum record_kind kind;
    uint8_t name[WRITE_NAME];
};

/* Tells it all these ends in one go. It never waits, either. */
void tell_ended(struct node *node, const struct ended *ends, size_t count);

/* Waits until not too much lies there that it was told. Who carries out what it says must not. */
void await_room(struct node *node);

/* Waits for the next record that it says. False once it says no more. A body stays where it is until
 * the next call for which `has_record` was false. */
bool next_record(struct node *node, struct record *record);

/* Whether a whole record has come that wasn't taken. */
bool has_record(const struct node *node);

#endif
