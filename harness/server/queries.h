/* What the client's harness asks of this one beside the frames of the nodes: how many writes are
 * done, and what a target holds. No node hears of it, and no verdict of a node rests on it.
 *
 * A query, and its answer, has a head as long as a frame's: `FH`, 1, its kind, eight zeros, and how
 * long the rest is in four bytes. An answer names what it answers, so a query may be lost, and asked
 * again. */
#ifndef QUERIES_H
#define QUERIES_H

#include "checks.h"
#include "door.h"
#include "fits.h"
#include "lane.h"
#include "options.h"

/* A query for the ends of writes has no more bytes; the answer has how many jobs have rows, in four, how
 * many bytes were read for checks by now, in eight, for each job its number in four bytes, its last run, how many of its writes are done, and how many have failed,
 * in eight each; and behind these why the first that failed did, or nothing. One whether jobs fit has for
 * each its number, the size of a block and how many there are, in four bytes each; the answer says why
 * they don't, or nothing.
 * One for blocks says what is wanted, as a check does; the answer says that again, and then has the
 * bytes of whole blocks from the first one on, or, of another kind, why that one can't be read.
 * One that a target is to be flushed has the job in four bytes and a number in eight, which the client
 * draws; the answer says both again, and then where the job's blocks lie, and on which drive; or, of
 * another kind, why it can't be. */
enum query_kind { QUERY_ENDS = 1, ANSWER_ENDS, QUERY_BLOCKS, ANSWER_BLOCKS, ANSWER_UNREAD, QUERY_FIT = 9, ANSWER_FIT, QUERY_FLUSH, ANSWER_FLUSHED, ANSWER_UNFLUSHED };

struct queries {
    struct door *door;
    struct lane *lanes; /* of all jobs that there may be, by their number */
    size_t lane_count;  /* so many of them have targets */
    const struct checks *checks;
};

/* Answers a query over the door. False where there is none such. */
bool answer_query(void *queries, const uint8_t *bytes, size_t length);

#endif
