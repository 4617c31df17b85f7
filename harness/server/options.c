#include "options.h"

#include "keeping.h"
#include "say.h"
#include "words.h"

#include <limits.h>
#include <stdio.h>
#include <stdlib.h>
#include <string.h>

static const char USAGE[] =
    "usage: fleet-server ME TARGET.. --note FILE [OPTIONS]   server ME of a fleet, 0 to 7; job i writes to the i-th target\n"
    "       fleet-server link --note FILE                    ties standard input and output to it: what the client starts\n"
    "       fleet-server --version                           which version this is\n"
    "  TARGET is a file or block device, or PATH@OFFSET or PATH@OFFSET/STRIDE, in bytes: where the first block begins, and\n"
    "  how far it is from one block's front to the next; several jobs may have one path\n"
    "  --note FILE       keeps the node's note there; not on a drive that is tested\n"
    "  --socket PATH     the socket of the link; without it FILE.socket\n"
    "  --cut COMMAND     has a shell run COMMAND where the node asks for its cut; without it the client's machine does that\n"
    "  --flush N         tells writes as done behind a flush: N of them, or fewer where no other is out\n"
    "  --orphan SECONDS  ends a run whose client is gone for so long, by starting anew: 60; 0: it goes on\n"
    "  --yes             writes over what the targets hold; what is mounted or in use it never writes\n"
    "  --torn            takes blocks that are larger than what a device writes whole\n"
    "  --atomic          writes each block by an atomic write, RWF_ATOMIC, where the system tells of such writes of its size\n"
    "  --cached          without O_DIRECT and O_DSYNC\n"
    "NODE names the program fiocut_node. Status: 0 the node's input has ended; 2 something failed or was refused\n";

/* Splits a target's word at its last `@`, where numbers stand behind that. */
static struct place place_in(char *word) {
    struct place place = {word, 0, 0};
    char *at = strrchr(word, '@');
    if (!at || at[1 + strspn(at + 1, "0123456789/")] || !at[1]) return place;
    char *slash = strchr(at, '/');
    if (slash) *slash++ = 0, place.stride = number_of("a stride", slash);
    *at = 0;
    place.offset = number_of("an offset", at + 1);
    return place;
}

/* Reads the words that stand before the options, and returns how many they are. */
static int read_places(struct options *read, int count, char **words) {
    int at = 1;
    read->me = number_of("ME", words[0]);
    if (read->me > 7) give_up("ME", "servers have the numbers 0 to 7");
    for (; at < count && strncmp(words[at], "--", 2); at++) {
        if (read->place_count == MOST_JOBS) give_up(words[at], "a server has 16 jobs at most");
        read->places[read->place_count++] = place_in(words[at]);
    }
    if (!read->place_count) refuse_word(USAGE, words[0], "a TARGET stands behind ME");
    return at;
}

struct options read_options(int count, char **words) {
    static char socket[PATH_MAX];
    enum { SERVE = 1, LINK = 2 };
    struct options read = {.orphan = 60};
    const struct option all[] = {
        {"--note", &read.note, 0, 0, SERVE | LINK},
        {"--socket", &read.socket, 0, 0, SERVE | LINK},
        {"--cut", &read.cut, 0, 0, SERVE},
        {"--flush", 0, &read.flush, 0, SERVE | FROM_1},
        {"--orphan", 0, &read.orphan, 0, SERVE},
        {"--yes", 0, 0, &read.opening.yes, SERVE},
        {"--torn", 0, 0, &read.opening.torn, SERVE},
        {"--atomic", 0, 0, &read.opening.atomic, SERVE},
        {"--cached", 0, 0, &read.opening.cached, SERVE},
        {0, 0, 0, 0, 0},
    };
    answer_first_word(USAGE, count, words);
    read.links = strcmp(words[1], "link") == 0;
    int first = read.links ? 2 : 1 + read_places(&read, count - 1, words + 1);
    read_words(all, read.links ? LINK : SERVE, count - first, words + first);
    read.opening.flushed = read.flush > 0;
    if (read.opening.atomic && read.opening.cached) give_up("--atomic", "with --cached writes go to memory, and no write there is atomic");
    if (!read.note && !(read.links && read.socket)) give_up("--note", "this has to be said");
    if (!read.socket) path_beside(socket, read.note, ".socket"), read.socket = socket;
    return read;
}
