#include "link.h"

#include "bytes.h"
#include "clock.h"
#include "say.h"

#include <errno.h>
#include <inttypes.h>
#include <poll.h>
#include <string.h>
#include <unistd.h>

size_t read_until(int fd, void *given, size_t length, uint64_t until) {
    uint8_t *bytes = given;
    size_t have = 0;
    while (have < length) {
        uint64_t now = milliseconds();
        struct pollfd polled = {fd, POLLIN, 0};
        int ready = now < until ? poll(&polled, 1, (int)(until - now)) : 0;
        if (ready < 0 && errno == EINTR) continue;
        ssize_t count = ready > 0 ? read(fd, bytes + have, length - have) : 0;
        if (count <= 0) break;
        have += (size_t)count;
    }
    return have;
}

/* Whether this agent is the right one. One that refuses because its target is still in use may soon
 * have it: its last run may be ending. */
static bool is_welcome(const struct welcome *welcome, const struct hello *hello) {
    if (welcome->is_refused) return false;
    if (welcome->block_size != hello->region.block_size || welcome->blocks != hello->region.blocks) give_up("the link", "that agent speaks of another region");
    return true;
}

/* So long one start of the command has: a line may lose what is said while nobody listens at its
 * other end. */
enum { ONE_START = 20000 };

static uint64_t end_of_start(uint64_t until) {
    uint64_t one = milliseconds() + ONE_START;
    return one < until ? one : until;
}

/* Whether what an agent refuses is worth another try: its target may still be in use, or, where it
 * was there before, not be there yet. */
static bool may_change(const char *why, const struct hello *hello) {
    return strstr(why, "in use") || strstr(why, "at work") || (*hello->drive && !strstr(why, "another drive"));
}

bool try_link(struct link *link, const char *command, const struct hello *hello, const struct job *job, uint64_t until, char why[MAX_WHY]) {
    uint8_t said[HELLO_BYTES], heard[WELCOME_BYTES];
    *link = (struct link){.hello = *hello};
    write_hello(said, hello);
    why[0] = 0;
    do {
        link->child = start_command(command, CHILD_READS | CHILD_WRITES | CHILD_APART);
        write_all(link->child.to, said, sizeof said); /* (where nobody reads it, nobody answers) */
        if (hello->is_local) write_all(link->child.to, job->text, job->text_length);
        size_t have = read_until(link->child.from, heard, sizeof heard, end_of_start(until));
        bool is_agent = have == sizeof heard && read_welcome(heard, &link->welcome);
        if (is_agent && is_welcome(&link->welcome, hello)) return true;
        if (have >= MAGIC && memcmp(heard, WELCOME_MAGIC, MAGIC)) give_up("the link", "what answers there is no agent of this version");
        end_link(link);
        if (is_agent) memcpy(why, link->welcome.why, MAX_WHY);
        if (is_agent && !may_change(why, hello)) return false;
        if (milliseconds() + 1000 < until) pause_for(1000);
    } while (milliseconds() + 1000 < until);
    return false;
}

struct link open_link(const char *command, const struct hello *hello, const struct job *job, uint64_t seconds) {
    struct link link;
    char why[MAX_WHY];
    if (try_link(&link, command, hello, job, milliseconds() + seconds * 1000, why)) return link;
    if (*why) give_up("the agent refuses", why);
    give_up("the link", "no agent answers");
}

void tell_welcome(const struct link *link) {
    static const char *const caches[] = {"nobody tells of its cache", "without a volatile cache", "with a volatile cache"};
    const struct welcome *welcome = &link->welcome;
    say("the agent has %" PRIu64 " bytes, writes %" PRIu64 " whole, %s", welcome->size, welcome->whole, caches[welcome->cache]);
    if (welcome->unit.most) say("its system tells of atomic writes, of %" PRIu64 " to %" PRIu64 " bytes", welcome->unit.least, welcome->unit.most);
    say("its writes rest on this: %s", welcome->way);
    if (welcome->flush) say("it tells writes as done behind a flush of at most %" PRIu64, welcome->flush);
    if (welcome->cached && !welcome->flush) say("it tells writes as done that may lie in its memory alone: a cut loses them");
}

void end_link(struct link *link) {
    end_group(&link->child);
}
