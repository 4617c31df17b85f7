#include "door.h"

#include "bytes.h"
#include "clock.h"
#include "say.h"

#include <errno.h>
#include <inttypes.h>
#include <poll.h>
#include <stdio.h>
#include <stdlib.h>
#include <string.h>
#include <sys/socket.h>
#include <sys/un.h>
#include <unistd.h>

/* What goes out has to be taken within so many milliseconds, else the link is closed; and where the
 * kind of a query stands, and how long its rest is. */
enum { TAKEN_WITHIN = 5000, KIND_AT = 3, REST_AT = 12, MOST_WORDS = 160 };

static struct sockaddr_un address_of(const char *path) {
    struct sockaddr_un address = {.sun_family = AF_UNIX};
    if (strlen(path) >= sizeof address.sun_path) give_up(path, "no socket's path may be so long: --socket says another one");
    memcpy(address.sun_path, path, strlen(path) + 1);
    return address;
}

/* One link: what reads it also closes it. */
struct visit {
    struct door *door;
    int link;
    bool is_welcome;
};

/* Writes two pieces to a link, one behind the other, in time. */
static bool write_within(int link, struct iovec pieces[2], uint64_t until) {
    while (pieces[0].iov_len + pieces[1].iov_len > 0) {
        const struct msghdr message = {.msg_iov = pieces, .msg_iovlen = 2};
        ssize_t count = sendmsg(link, &message, MSG_DONTWAIT | MSG_NOSIGNAL);
        if (count < 0 && errno == EAGAIN && milliseconds() < until) poll(&(struct pollfd){link, POLLOUT, 0}, 1, TAKEN_WITHIN);
        else if (count < 0 && errno != EINTR) return false;
        for (int at = 0; at < 2 && count > 0; at++) {
            size_t taken = (size_t)count < pieces[at].iov_len ? (size_t)count : pieces[at].iov_len;
            pieces[at].iov_base = (uint8_t *)pieces[at].iov_base + taken, pieces[at].iov_len -= taken, count -= (ssize_t)taken;
        }
    }
    return true;
}

/* Sends bytes in an envelope over a link, whole, or ends it: a part may have gone out then, and the rest
 * is lost with it. What goes out is locked. */
static void send_over(int link, const uint8_t *bytes, size_t length) {
    uint8_t head[LINK_HEAD];
    struct iovec pieces[] = {{head, sizeof head}, {(void *)(uintptr_t)bytes, length}};
    put_link_head(head, bytes, length);
    if (!write_within(link, pieces, milliseconds() + TAKEN_WITHIN)) shutdown(link, SHUT_RDWR);
}

void send_bytes(struct door *door, const uint8_t *bytes, size_t length) {
    pthread_mutex_lock(&door->sending);
    pthread_mutex_lock(&door->lock);
    int link = door->link;
    pthread_mutex_unlock(&door->lock);
    if (link >= 0) send_over(link, bytes, length);
    pthread_mutex_unlock(&door->sending);
}

/* What a hello says. */
struct hello {
    uint64_t fleet, server, before;
    bool has_mirror;
};

static struct hello hello_in(const uint8_t bytes[HELLO_LENGTH]) {
    return (struct hello){get_64(bytes), get_32(bytes + 8), get_64(bytes + 16), get_32(bytes + 24) != 0};
}

/* Starts this server anew where a fleet takes the place of the one that it serves, or whose its note is. */
static void change_fleets(struct door *door, const struct hello *hello) {
    static const char why[] = "another fleet takes the place of the one that was served";
    bool is_served = hello->before && door->fleet == hello->before;
    bool is_noted = hello->before && (!door->noted || door->noted == hello->before) && (is_served || !door->fleet);
    if (!hello->has_mirror && is_served) door->start_anew(why, 0);
    if (hello->has_mirror && is_noted && door->noted != hello->fleet) door->start_anew(why, hello->fleet);
}

/* Why a hello isn't welcome, or nothing. The first that is says which fleet the server serves. */
static void judge_hello(struct door *door, const struct hello *hello, char why[MOST_WORDS]) {
    why[0] = 0;
    if (hello->server != door->me) {
        snprintf(why, MOST_WORDS, "this link leads to server %" PRIu64, door->me);
        return;
    }
    pthread_mutex_lock(&door->lock);
    change_fleets(door, hello);
    bool is_foreign = hello->has_mirror && door->noted && door->noted != hello->fleet;
    if (!hello->fleet) snprintf(why, MOST_WORDS, "the hello names no fleet");
    else if (is_foreign) snprintf(why, MOST_WORDS, "the note of server %" PRIu64 " is of another fleet, and one with a mirror wants new notes: start it with another --note", door->me);
    else if (door->fleet && door->fleet != hello->fleet) snprintf(why, MOST_WORDS, "server %" PRIu64 " serves another fleet, since it was started: start it anew for this one", door->me);
    if (!*why) door->fleet = hello->fleet;
    pthread_mutex_unlock(&door->lock);
}

uint64_t fleet_to_note(struct door *door) {
    pthread_mutex_lock(&door->lock);
    if (door->fleet) door->noted = door->fleet;
    uint64_t noted = door->noted;
    pthread_mutex_unlock(&door->lock);
    return noted;
}

/* A link that is welcome takes the place of the one before, which ends. */
static void take_place(struct visit *visit) {
    struct door *door = visit->door;
    pthread_mutex_lock(&door->lock);
    if (door->link >= 0 && door->link != visit->link) shutdown(door->link, SHUT_RDWR);
    door->link = visit->link;
    pthread_mutex_unlock(&door->lock);
    visit->is_welcome = true;
}

static void greet(struct visit *visit, const uint8_t *hello) {
    uint8_t answer[FRAME_HEAD + HERE_LENGTH + MOST_WORDS] = {'F', 'H', 1, ANSWER_WELCOME};
    char *why = (char *)answer + FRAME_HEAD + HERE_LENGTH;
    const struct hello said = hello_in(hello);
    judge_hello(visit->door, &said, why);
    size_t length = HERE_LENGTH + strlen(why);
    put_32(answer + REST_AT, (uint32_t)length), put_32(answer + FRAME_HEAD, (uint32_t)visit->door->me), put_64(answer + FRAME_HEAD + 4, visit->door->fleet);
    if (!*why) take_place(visit);
    else say("a link isn't welcome: %s", why);
    pthread_mutex_lock(&visit->door->sending);
    send_over(visit->link, answer, FRAME_HEAD + length);
    pthread_mutex_unlock(&visit->door->sending);
}

/* Takes what has come over a link. False where it is a query that can't be read: then the rest is
 * nothing, either. */
static bool take(struct visit *visit, const uint8_t *bytes, size_t length) {
    struct door *door = visit->door;
    if (is_query(bytes) && bytes[KIND_AT] == QUERY_HELLO) {
        if (length == FRAME_HEAD + HELLO_LENGTH) greet(visit, bytes + FRAME_HEAD);
        return length == FRAME_HEAD + HELLO_LENGTH;
    }
    if (!visit->is_welcome) return true; /* (it is lost, and will be said again) */
    door->heard = milliseconds();
    if (is_query(bytes)) return door->answer(door->whose, bytes, length);
    await_room(door->node);
    tell_node(door->node, RECORD_FRAME, &(struct iovec){(void *)(uintptr_t)bytes, length}, 1);
    return true;
}

static void *hear(void *given) {
    struct visit visit = *(struct visit *)given;
    struct door *door = visit.door;
    size_t length;
    bool goes_on = true;
    free(given);
    for (uint8_t *bytes; goes_on && (bytes = read_envelope(visit.link, &length)); free(bytes)) goes_on = take(&visit, bytes, length);
    shutdown(visit.link, SHUT_RDWR); /* (who sends over it finds that) */
    pthread_mutex_lock(&door->lock);
    if (door->link == visit.link) door->link = -1;
    pthread_mutex_unlock(&door->lock);
    pthread_mutex_lock(&door->sending);
    close(visit.link);
    pthread_mutex_unlock(&door->sending);
    return NULL;
}

static void take_link(struct door *door, int link) {
    struct visit *visit = malloc(sizeof *visit);
    pthread_t thread;
    if (!visit) give_up("memory", strerror(ENOMEM));
    *visit = (struct visit){.door = door, .link = link};
    int error = pthread_create(&thread, NULL, hear, visit);
    if (error) give_up("threads", strerror(error));
    pthread_detach(thread);
}

static void *stand(void *given) {
    struct door *door = given;
    for (;;) {
        int link = accept4(door->listening, NULL, NULL, SOCK_CLOEXEC);
        if (link >= 0) take_link(door, link);
        else if (errno != EINTR && errno != ECONNABORTED) give_up_by_errno("the socket");
    }
}

struct door shut_door(uint64_t me, uint64_t noted) {
    return (struct door){.me = me, .noted = noted, .sending = PTHREAD_MUTEX_INITIALIZER, .lock = PTHREAD_MUTEX_INITIALIZER, .listening = -1, .link = -1};
}

void refuse_long_path(const char *path) {
    struct sockaddr_un address = address_of(path);
    if (strlen(address.sun_path) + strlen(".new") >= sizeof address.sun_path) give_up(path, "no socket's path may be so long: --socket says another one");
}

void open_door(struct door *door, struct node *node, const char *path) {
    char *beside; /* who sees the door's name finds it open */
    pthread_t thread;
    if (asprintf(&beside, "%s.new", path) < 0) give_up("memory", strerror(ENOMEM));
    struct sockaddr_un address = address_of(beside);
    door->node = node;
    door->listening = socket(AF_UNIX, SOCK_STREAM | SOCK_CLOEXEC, 0);
    unlink(beside); /* (whoever left it there has ended: the note was locked) */
    if (door->listening < 0 || bind(door->listening, (struct sockaddr *)&address, sizeof address) || listen(door->listening, 8) || rename(beside, path))
        give_up_by_errno(path);
    free(beside);
    int error = pthread_create(&thread, NULL, stand, door);
    if (error) give_up("threads", strerror(error));
    pthread_detach(thread);
}

/* Carries over what is there. False at the end. */
static bool carry(int from, int to) {
    uint8_t bytes[65536];
    ssize_t count = read(from, bytes, sizeof bytes);
    if (count < 0 && (errno == EINTR || errno == EAGAIN)) return true;
    return count > 0 && write_all(to, bytes, (size_t)count) == 0;
}

int tie_to(const char *path) {
    struct sockaddr_un address = address_of(path);
    int server = socket(AF_UNIX, SOCK_STREAM | SOCK_CLOEXEC, 0);
    if (server < 0 || connect(server, (struct sockaddr *)&address, sizeof address)) give_up(path, "no server listens there");
    struct pollfd ends[] = {{STDIN_FILENO, POLLIN, 0}, {server, POLLIN, 0}};
    for (bool goes_on = true; goes_on;) {
        if (poll(ends, 2, -1) < 0 && errno != EINTR) give_up_by_errno("the link");
        if (ends[0].revents) goes_on = carry(STDIN_FILENO, server);
        if (goes_on && ends[1].revents) goes_on = carry(server, STDOUT_FILENO);
    }
    return STATUS_SOUND;
}
