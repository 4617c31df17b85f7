#include "node.h"

#include "bytes.h"
#include "program.h"
#include "say.h"

#include <errno.h>
#include <fcntl.h>
#include <inttypes.h>
#include <poll.h>
#include <stdio.h>
#include <stdlib.h>
#include <string.h>
#include <unistd.h>

/* So much is read at once, no record is longer, and so much may lie there before who brings more
 * waits. */
enum { AT_ONCE = 1 << 20, LONGEST = 64 << 20, MUCH = 8 << 20 };

static uint8_t *with_room(uint8_t *bytes, size_t *room, size_t wanted) {
    if (wanted <= *room) return bytes;
    while (*room < wanted) *room = *room ? 2 * *room : AT_ONCE;
    bytes = realloc(bytes, *room);
    if (!bytes) give_up("memory", strerror(ENOMEM));
    return bytes;
}

/* Writes all bytes to a pipe that takes what it has room for, and is waited for. */
static bool write_waiting(int to, const uint8_t *bytes, size_t length) {
    while (length > 0) {
        ssize_t count = write(to, bytes, length);
        if (count > 0) bytes += count, length -= (size_t)count;
        else if (errno == EAGAIN) poll(&(struct pollfd){to, POLLOUT, 0}, 1, -1);
        else if (errno != EINTR) return false;
    }
    return true;
}

/* Gives the node what it has no room for at once, all that has come together in one go. */
static void *give(void *given) {
    struct node *node = given;
    uint8_t *bytes = NULL;
    size_t room = 0;
    for (;;) {
        pthread_mutex_lock(&node->lock);
        node->is_giving = false;
        while (!node->told_length) pthread_cond_wait(&node->changed, &node->lock);
        uint8_t *told = node->told;
        size_t length = node->told_length, told_room = node->told_room;
        node->told = bytes, node->told_room = room, node->told_length = 0;
        node->is_giving = true;
        bytes = told, room = told_room;
        pthread_cond_broadcast(&node->changed);
        pthread_mutex_unlock(&node->lock);
        if (!write_waiting(node->child.to, bytes, length)) return NULL; /* (it has ended, and who hears it finds that) */
    }
}

void start_node(struct node *node, uint64_t me) {
    char name[] = "fiocut_node", word[] = "server", number[24];
    pthread_t thread;
    snprintf(number, sizeof number, "%" PRIu64, me);
    *node = (struct node){.lock = PTHREAD_MUTEX_INITIALIZER, .changed = PTHREAD_COND_INITIALIZER};
    node->child = start_child(program_of("NODE", name), (char *[]){name, word, number, NULL}, CHILD_READS | CHILD_WRITES);
    if (fcntl(node->child.to, F_SETFL, O_NONBLOCK)) give_up_by_errno("pipe");
    int error = pthread_create(&thread, NULL, give, node);
    if (error) give_up("threads", strerror(error));
    pthread_detach(thread);
}

/* Puts a record behind what waits. The lock is held. */
static void put_record(struct node *node, enum record_kind kind, const struct iovec *pieces, int count) {
    size_t length = 0;
    for (int at = 0; at < count; at++) length += pieces[at].iov_len;
    node->told = with_room(node->told, &node->told_room, node->told_length + RECORD_HEAD + length);
    uint8_t *end = node->told + node->told_length;
    node->told_length += RECORD_HEAD + length;
    *end = (uint8_t)kind;
    put_64(end + 1, length);
    end += RECORD_HEAD;
    for (int at = 0; at < count; end += pieces[at++].iov_len)
        if (pieces[at].iov_len) memcpy(end, pieces[at].iov_base, pieces[at].iov_len);
}

/* Gives the node what waits, as far as its pipe has room; the thread gives the rest. So the thread
 * isn't woken for a record or two. The lock is held. */
static void give_at_once(struct node *node) {
    ssize_t count = node->is_giving ? 0 : write(node->child.to, node->told, node->told_length);
    if (count > 0) {
        node->told_length -= (size_t)count;
        memmove(node->told, node->told + count, node->told_length);
    }
    if (node->told_length) pthread_cond_broadcast(&node->changed);
}

void tell_node(struct node *node, enum record_kind kind, const struct iovec *pieces, int count) {
    pthread_mutex_lock(&node->lock);
    put_record(node, kind, pieces, count);
    give_at_once(node);
    pthread_mutex_unlock(&node->lock);
}

void tell_ended(struct node *node, const struct ended *ends, size_t count) {
    pthread_mutex_lock(&node->lock);
    for (size_t at = 0; at < count; at++) put_record(node, ends[at].kind, &(struct iovec){(void *)(uintptr_t)ends[at].name, WRITE_NAME}, 1);
    give_at_once(node);
    pthread_mutex_unlock(&node->lock);
}

void await_room(struct node *node) {
    pthread_mutex_lock(&node->lock);
    while (node->told_length > MUCH) pthread_cond_wait(&node->changed, &node->lock);
    pthread_mutex_unlock(&node->lock);
}

/* How long the record is that has begun to come, or what there has to be to know. */
static size_t length_of_next(const struct node *node) {
    if (node->end - node->begin < RECORD_HEAD) return RECORD_HEAD;
    uint64_t body = get_64(node->said + node->begin + 1);
    if (body > LONGEST) give_up("fiocut_node", "it says a longer record than there is");
    return RECORD_HEAD + body;
}

bool has_record(const struct node *node) {
    size_t have = node->end - node->begin;
    return have >= RECORD_HEAD && have >= length_of_next(node);
}

/* Reads more of what it says. False at the end. */
static bool hear_more(struct node *node) {
    if (node->begin < node->end) memmove(node->said, node->said + node->begin, node->end - node->begin);
    node->end -= node->begin, node->begin = 0;
    node->said = with_room(node->said, &node->room, length_of_next(node) + AT_ONCE);
    ssize_t count;
    do count = read(node->child.from, node->said + node->end, node->room - node->end);
    while (count < 0 && errno == EINTR);
    if (count <= 0) return false;
    node->end += (size_t)count;
    return true;
}

bool next_record(struct node *node, struct record *record) {
    while (!has_record(node))
        if (!hear_more(node)) return false;
    size_t length = length_of_next(node);
    const uint8_t *at = node->said + node->begin;
    *record = (struct record){at[0], at + RECORD_HEAD, length - RECORD_HEAD};
    node->begin += length;
    return true;
}
