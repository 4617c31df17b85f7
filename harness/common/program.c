#include "program.h"

#include "say.h"

#include <limits.h>
#include <stdbool.h>
#include <stdio.h>
#include <stdlib.h>
#include <string.h>
#include <sys/auxv.h>
#include <unistd.h>

/* Whether a folder, whose name is so long, has a program of this name, which then is the path. */
static bool has_program(char path[PATH_MAX], const char *folder, size_t length, const char *name) {
    int needs = length ? snprintf(path, PATH_MAX, "%.*s/%s", (int)length, folder, name) : snprintf(path, PATH_MAX, "./%s", name);
    return needs > 0 && needs < PATH_MAX && access(path, X_OK) == 0;
}

/* Whether it stands beside this program, also where that was started through a link. */
static bool is_beside(char path[PATH_MAX], const char *name) {
    const char *started = (const char *)getauxval(AT_EXECFN);
    char own[PATH_MAX];
    return started && realpath(started, own) && has_program(path, own, (size_t)(strrchr(own, '/') - own), name);
}

static bool is_on_the_path(char path[PATH_MAX], const char *name) {
    const char *folder = getenv("PATH");
    while (folder) {
        size_t length = strcspn(folder, ":");
        if (has_program(path, folder, length, name)) return true;
        folder = folder[length] ? folder + length + 1 : NULL;
    }
    return false;
}

const char *program_of(const char *variable, const char *name) {
    static char path[PATH_MAX];
    const char *named = getenv(variable);
    if (named) return named;
    if (is_beside(path, name) || is_on_the_path(path, name)) return path;
    snprintf(path, sizeof path, "there is no such program: %s names it, or it stands beside this one, or on the PATH", variable);
    give_up(name, path);
}
