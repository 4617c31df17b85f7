/* The socket where `fleet-server link` ties the client's link to the server: envelopes go over it, one
 * behind the other. A link begins with a hello, which names the fleet and the server that it is for;
 * before that nothing else counts. A link that ends or hangs loses frames, and nothing else. */
#ifndef DOOR_H
#define DOOR_H

#include "envelope.h"
#include "node.h"

#include <stdatomic.h>

/* A hello has the fleet's number in eight bytes, the server's and how many there are in four each, in eight
 * the fleet whose place it takes, or 0, and in four whether it has a mirror, 1 or 0. For a fleet that takes
 * the place of the one that it serves a server starts anew: over its note, or with a mirror over an empty
 * one, since no law says that a fleet with a mirror can begin over another. The
 * welcome has the server's own in four, the fleet that it serves in eight, and then why the link isn't
 * welcome, or nothing. */
enum { QUERY_HELLO = 7, ANSWER_WELCOME, HELLO_LENGTH = 28, HERE_LENGTH = 12 };

struct door {
    struct node *node;
    uint64_t me;
    void *whose; /* is given to this, which answers a query, or returns false where there is none such */
    bool (*answer)(void *whose, const uint8_t *bytes, size_t length);
    void (*start_anew)(const char *why, uint64_t fleet); /* ends this process, and begins another in its place, over an empty note of this fleet, where that isn't 0 */
    int listening;
    pthread_mutex_t sending; /* of what goes out, whole */
    pthread_mutex_t lock;    /* of the next three */
    int link;                /* the last one that was welcome, or -1 */
    uint64_t fleet;          /* the one that this server serves until it is started anew; 0: none yet */
    uint64_t noted;          /* the one that the note is of; 0: that isn't known */
    atomic_uint_fast64_t heard; /* when something last came over a link that is welcome; 0: never */
};

/* A door that nobody comes through: what is sent is lost. The note is of this fleet, or that isn't known. */
struct door shut_door(uint64_t me, uint64_t noted);

/* The fleet that the note is of from the next save on. */
uint64_t fleet_to_note(struct door *door);

/* Listens at this path. What another server has left there is taken away. Queries go where the door
 * says by then, frames to the node. */
void open_door(struct door *door, struct node *node, const char *path);

/* Refuses a path at which no socket can be. */
void refuse_long_path(const char *path);

/* Sends a frame, or the answer to a query, to the client, where it is there. */
void send_bytes(struct door *door, const uint8_t *bytes, size_t length);

/* Ties standard input and output to the server that listens at this path, until one of them ends.
 * Returns the exit status. */
int tie_to(const char *path);

#endif
