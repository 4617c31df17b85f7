/* A server of a fleet: runs the proved node, `fiocut_node server ME`, keeps its note, carries its
 * orders out, reads for its checks, and sends its frames. docs/FLEET.md is the manual. */
#include "bytes.h"
#include "checks.h"
#include "clock.h"
#include "door.h"
#include "keeping.h"
#include "lane.h"
#include "node.h"
#include "note.h"
#include "options.h"
#include "queries.h"
#include "say.h"
#include "story.h"
#include "taken.h"
#include "targets.h"

#include <inttypes.h>
#include <libgen.h>
#include <limits.h>
#include <signal.h>
#include <stdatomic.h>
#include <stdio.h>
#include <stdlib.h>
#include <string.h>
#include <sys/stat.h>
#include <time.h>
#include <unistd.h>

struct server {
    struct options options;
    struct node node;
    struct door door;
    struct checks checks;
    struct queries queries;
    struct target targets[MOST_JOBS];
    struct lane lanes[MOST_JOBS];
    uint64_t run; /* that of the last order */
    struct story story;
};

/* Opens the targets, and gives each job its way there. */
static void make_lanes(struct server *server) {
    const struct options *options = &server->options;
    size_t target_of[MOST_JOBS];
    open_targets(options, server->targets, target_of);
    for (size_t at = 0; at < options->place_count; at++) {
        const struct target *target = &server->targets[at];
        if (target_of[at] == at && target->unit.most) say("%s: the system tells of atomic writes to it, of %" PRIu64 " to %" PRIu64 " bytes", target->name, target->unit.least, target->unit.most);
    }
    for (size_t at = 0; at < options->place_count; at++)
        server->lanes[at] = (struct lane){.node = &server->node, .target = &server->targets[target_of[at]], .job = (uint32_t)at, .offset = options->places[at].offset,
                                          .stride = options->places[at].stride, .flush = options->flush, .torn = options->opening.torn};
}

/* Says so where keeping the note makes a tested drive keep what lies in its cache. */
static void warn_of_one_drive(const struct server *server) {
    char folder[PATH_MAX];
    struct stat is;
    snprintf(folder, sizeof folder, "%s", server->options.note);
    if (stat(dirname(folder), &is)) return;
    for (size_t at = 0; at < server->options.place_count; at++)
        if (server->lanes[at].target->device == is.st_dev) {
            say("%s lies on a drive that is tested: keeping it empties that drive's cache", server->options.note);
            return;
        }
}

/* Says once a second how many writes are done, where there were any. */
static void *tell_progress(void *given) {
    const struct server *server = given;
    uint64_t before = 0;
    while (nanosleep(&(struct timespec){1, 0}, NULL) == 0) {
        uint64_t now = 0;
        for (size_t at = 0; at < server->options.place_count; at++) now += server->lanes[at].done;
        if (now != before) say("%" PRIu64 " writes are done, %" PRIu64 " a second", now, now - before);
        before = now;
    }
    return NULL;
}

/* This process, for who begins it anew. */
static struct server *own_server;
static char **own_words;
static atomic_bool begins_anew;
static pthread_mutex_t keeping = PTHREAD_MUTEX_INITIALIZER; /* of the note's file */

/* Keeps what the node says, as the note of the fleet that is served. */
static void save_note(struct server *server, const struct record *record) {
    const struct whose whose = {(uint32_t)server->options.me, fleet_to_note(&server->door)};
    pthread_mutex_lock(&keeping);
    keep_note(server->options.note, &whose, record->body, record->length);
    pthread_mutex_unlock(&keeping);
}

/* Begins anew, as if the machine had been started: the run is over, and what was ordered has landed by
 * then, or never will, as the process that has ordered it is over, too. For a fleet the note is put aside
 * first, and from then on this process saves nothing. */
static void start_anew(const char *why, uint64_t fleet) {
    say("%s: the server starts anew", why);
    begins_anew = true;
    pthread_mutex_lock(&keeping);
    if (fleet) put_note_aside(own_server->options.note, &(struct whose){(uint32_t)own_server->options.me, fleet});
    rest_lanes(own_server->lanes, own_server->options.place_count);
    kill(own_server->node.child.pid, SIGKILL);
    wait_for(&own_server->node.child);
    execv("/proc/self/exe", own_words);
    give_up_by_errno("/proc/self/exe");
}

/* Starts anew where a run's client has been gone for too long. */
static void *look_for_client(void *given) {
    const struct server *server = given;
    uint64_t before = 0, since = milliseconds();
    while (nanosleep(&(struct timespec){1, 0}, NULL) == 0) {
        uint64_t now = 0, heard = server->door.heard;
        for (size_t at = 0; at < server->options.place_count; at++) now += server->lanes[at].done;
        if (heard > since) since = heard;
        if (now == before) since = milliseconds(); /* (nothing is written) */
        before = now;
        if (milliseconds() - since > server->options.orphan * 1000) start_anew("no client is there, and a run goes on", 0);
    }
    return NULL;
}

static void start_all(struct server *server) {
    size_t length;
    pthread_t thread;
    struct whose whose = {(uint32_t)server->options.me, 0};
    uint8_t *note = read_note(server->options.note, &whose, &length);
    server->door = shut_door(server->options.me, whose.fleet);
    server->queries = (struct queries){&server->door, server->lanes, server->options.place_count, &server->checks};
    server->door.whose = &server->queries, server->door.answer = answer_query, server->door.start_anew = start_anew;
    start_node(&server->node, server->options.me);
    tell_node(&server->node, RECORD_NOTE, &(struct iovec){note, length}, 1);
    free(note);
    for (size_t at = 0; at < MOST_JOBS; at++) {
        if (at >= server->options.place_count) server->lanes[at] = (struct lane){.node = &server->node, .job = (uint32_t)at};
        start_lane(&server->lanes[at]);
    }
    server->checks = (struct checks){.node = &server->node, .lanes = server->lanes, .lane_count = server->options.place_count};
    start_checks(&server->checks);
    if (pthread_create(&thread, NULL, tell_progress, server) == 0) pthread_detach(thread);
    if (server->options.orphan && pthread_create(&thread, NULL, look_for_client, server) == 0) pthread_detach(thread);
}

static void take_any_order(struct server *server, const struct record *record) {
    uint32_t job = record->length > ORDER_HEAD ? get_32(record->body + 8) : MOST_JOBS;
    if (job >= MOST_JOBS) give_up("fiocut_node", "it says an order of no job");
    if (get_64(record->body) != server->run) rest_lanes(server->lanes, server->options.place_count);
    server->run = get_64(record->body);
    take_order(&server->lanes[job], record);
}

static void flush_lanes(struct server *server) {
    for (size_t at = 0; at < server->options.place_count; at++)
        if (server->lanes[at].count) flush_lane(&server->lanes[at]);
}

static void cut(const struct server *server) {
    say("server %" PRIu64 " may be cut: its states are kept", server->options.me);
    if (server->options.cut && run_command(server->options.cut, NULL, 0)) say("%s: it didn't cut the power", server->options.cut);
}

/* Sends a frame. Where it has a state, its job's target is to stay busy from now on. */
static void send_frame(struct server *server, const struct record *record) {
    const uint8_t *state = state_in_frame(record->body, record->length);
    if (state && job_of_state(state) < server->options.place_count) take_state(&server->lanes[job_of_state(state)], state);
    send_bytes(&server->door, record->body, record->length);
    tell_frame(&server->story, record->body, record->length);
}

/* Carries out what the node says, in its order: what is to be kept is kept before anything behind it
 * leaves this process. */
static void carry_out_record(struct server *server, const struct record *record) {
    if (record->kind != RECORD_ORDER && record->kind != RECORD_END) flush_lanes(server);
    switch (record->kind) {
    case RECORD_SAVE: save_note(server, record); break;
    case RECORD_SEND: send_frame(server, record); break;
    case RECORD_ORDER: take_any_order(server, record); break;
    case RECORD_WANT: take_want(&server->checks, record); break;
    case RECORD_CUT: cut(server); break;
    case RECORD_END: break;
    default: give_up("fiocut_node", "it says what no server says");
    }
    if (!has_record(&server->node)) flush_lanes(server);
}

/* The answer to the note comes first. Where the node doesn't take it, there is no server. */
static void await_opening(struct server *server) {
    struct record record;
    do {
        if (!next_record(&server->node, &record)) give_up("fiocut_node", "it ended before it had opened the note");
        carry_out_record(server, &record);
    } while (record.kind != RECORD_END);
    if (record.length != 1 || record.body[0]) give_up(server->options.note, "the node refuses it");
    say("server %" PRIu64 " is up", server->options.me);
}

int main(int count, char **words) {
    static struct server server;
    struct record record;
    speak_as("fleet-server");
    server.options = read_options(count, words);
    own_server = &server, own_words = words;
    signal(SIGPIPE, SIG_IGN);
    if (server.options.links) return tie_to(server.options.socket);
    refuse_long_path(server.options.socket);
    lock_note(server.options.note);
    make_lanes(&server);
    warn_of_one_drive(&server);
    start_all(&server);
    await_opening(&server);
    open_door(&server.door, &server.node, server.options.socket);
    while (next_record(&server.node, &record)) carry_out_record(&server, &record);
    while (begins_anew) pause(); /* (its node was ended for that) */
    return wait_for(&server.node.child) == 0 ? STATUS_SOUND : STATUS_FAILED;
}
