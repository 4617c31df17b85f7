#include "say.h"

#include <errno.h>
#include <stdarg.h>
#include <stdio.h>
#include <string.h>
#include <unistd.h>

static const char *own_name = "harness";
static void (*hear_end)(const char *line);

void speak_as(const char *name) {
    own_name = name;
}

const char *spoken_as(void) {
    return own_name;
}

void also_tell_end(void (*hear)(const char *line)) {
    hear_end = hear;
}

void say(const char *form, ...) {
    char line[1024];
    va_list words;
    va_start(words, form);
    vsnprintf(line, sizeof line, form, words);
    va_end(words);
    fprintf(stderr, "%s: %s\n", own_name, line);
}

_Noreturn void give_up(const char *what, const char *why) {
    char line[1024];
    snprintf(line, sizeof line, "%s: %s", what, why);
    say("%s", line);
    if (hear_end) hear_end(line);
    fflush(NULL);
    _exit(STATUS_FAILED);
}

_Noreturn void give_up_by_errno(const char *what) {
    give_up(what, strerror(errno));
}
