/* What the command line of drive-witness asks for. */
#ifndef OPTIONS_H
#define OPTIONS_H

#include "words.h"

#include <stdbool.h>
#include <stdint.h>

/* So many regions are written at once, at most. */
enum { MOST_TILES = 64 };

enum command { WRITE = 1, CHECK = 2, MAP = 4, CYCLE = 8, TOUR = 16 };

struct options {
    enum command command;
    const char *job_file;
    const char *place; /* the state's file, or the folder of a cycle */
    const char *links[MOST_TEXTS + 1]; /* one, or in a cycle one for each drive */
    const char *link, *off, *on;       /* the link of this process's drive */
    uint64_t drive;                    /* among several: its number, from 1 on; 0: there is one alone */
    uint64_t job, offset, stride;
    uint64_t after;    /* 0: at no number of writes */
    uint64_t quiet;    /* milliseconds; 0: silence is no cut */
    uint64_t wait;     /* seconds for the link to be there */
    uint64_t cycles;   /* 0: until it is stopped */
    uint64_t least, most; /* milliseconds from the first order to the cut */
    uint64_t seed;     /* 0: one is drawn */
    uint64_t unit;     /* 0: a block */
    uint64_t dump;     /* the bytes of so many faulty blocks are kept */
    bool local; /* the orders are given by the agent's own `drive`, too */
    bool keep_going, resume, json;
    bool other_drive; /* a check takes another drive than the run's */
    const char *ledger; /* of a check: the file that keeps one, or NULL */
    bool lost;          /* the run's state was lost */
    bool no_ledger;     /* a cycle keeps none */
    bool same_order;    /* and all cycles have the order of the job file */
    const char *cover_word; /* of a tour: so much of the drive, as it was said; */
    uint64_t cover;     /* as a number of bytes, or 0: all */
    uint64_t tiles;     /* so many tiles are open at once */
    uint64_t again;     /* so many that were checked are checked again, behind each cut */
    uint64_t tries;     /* so many runs of a tile are ended by a cut before it is left as it is */
    /* What shows a cut: the word of `off` alone, or that the drive fell, and else that the agent's
     * machine was started anew. */
    bool trust_off, drive_only;
};

/* Reads the command line. Where it can't be read, the program says how it goes, or what is wrong,
 * and ends. */
struct options read_options(int count, char **words);

#endif
