/* The power of the drive that a series tests: when it is cut, and that it is given back. Alone a
 * series runs the commands for that itself. Where several drives share one power each has a series,
 * and a process of its own; the one that started them runs the commands for all (several.h). */
#ifndef POWER_H
#define POWER_H

#include "child.h"

#include <stdbool.h>
#include <stdint.h>

struct power {
    const char *off, *on; /* NULL where nothing is cut */
    int words;            /* -1, or the way to the one that runs them for all */
    struct child child;   /* the command that cuts; its process is 0 where it isn't at work */
    uint64_t cut_at;      /* when it begins; 0 where that isn't to be, or has been, or is told */
    bool is_off;          /* it has begun */
    uint64_t off_ended;   /* 0, or when it had ended, with 0 */
};

/* What a series and the one that runs the commands say to each other, with a number. */
enum word {
    READY,      /* its agent is there; milliseconds to the cut, as drawn */
    WRITE_NOW,  /* so do all; milliseconds to the cut, for all */
    OFF_BEGINS, /* from now on the power goes */
    OFF_ENDED,  /* and that has ended with this status */
    KEPT,       /* its state is kept, or was before: the power may come back */
    POWER_ON,   /* what gives it back has ended with this status */
    CHECKED,    /* its cycle is over: 0, or 1 where it had faults */
    GO_ON,      /* 1: to the next cycle; 0: the series is to end */
};

struct word_said {
    uint64_t word, number;
};

/* Says a word. False where nobody hears it. */
bool say_word(int to, enum word word, uint64_t number);

/* Takes a word that has come, or waits for one. False where none has come, or none will. */
bool hear_word(int from, bool waits, struct word_said *said);

/* The writing begins: the cut comes so many milliseconds from now. Among several it begins when all
 * agents are there; then it returns how long it is to the cut that was drawn for all. */
uint64_t begin_writing(struct power *power, uint64_t cut_after);

/* Has the power cut where it is time, and looks whether that went well. */
void look_at_power(struct power *power);

/* Waits for the end of what cuts the power, where it has begun. */
void await_off(struct power *power);

/* Gives the power back. */
void give_power_back(struct power *power);

/* A cycle is over, with faults or without. Returns whether another one may begin. */
bool may_go_on(const struct power *power, bool has_faults, bool keeps_going);

#endif
