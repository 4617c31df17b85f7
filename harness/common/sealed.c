#include "sealed.h"

#include "sum.h"

#include <stdio.h>
#include <string.h>

/* How the second line begins, and how long it is with its sum. */
#define SUMMED "\nsum "
enum { SUM_DIGITS = 8, SUM_LINE = sizeof SUMMED - 1 + SUM_DIGITS + 1, MAX_FRONT = 64 };

const char *or_dash(const char *text) {
    return *text ? text : "-";
}

void take_dash(char *text) {
    if (!strcmp(text, "-")) *text = 0;
}

size_t front_of(const char *what) {
    return strlen(what) + SUM_LINE;
}

static void spell_front(const char *what, uint32_t sum, char front[MAX_FRONT]) {
    size_t own = strlen(what);
    memcpy(front, what, own);
    snprintf(front + own, MAX_FRONT - own, SUMMED "%08" PRIx32 "\n", sum);
}

void seal(const char *what, uint8_t *bytes, size_t length) {
    char front[MAX_FRONT];
    spell_front(what, sum_over(0, bytes + front_of(what), length), front);
    memcpy(bytes, front, front_of(what));
}

bool is_called(const char *what, const void *bytes, size_t length) {
    size_t own = strlen(what);
    return length >= own + strlen(SUMMED) && !memcmp(bytes, what, own) && !memcmp((const char *)bytes + own, SUMMED, strlen(SUMMED));
}

bool is_sealed(const char *what, const uint8_t *bytes, size_t length) {
    char front[MAX_FRONT];
    size_t own = front_of(what);
    if (length < own) return false;
    spell_front(what, sum_over(0, bytes + own, length - own), front);
    return !memcmp(bytes, front, own);
}
