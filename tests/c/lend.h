/*
 * Documents and outputs lent to the five entries, to lafindry_read_along and to lafindry_extend_table, documents to
 * lafindry_explain_clash and outputs to lafindry_decimal, so that every byte read or written outside them is noticed. A
 * call is made twice: with each buffer ending where an inaccessible page begins, so that going beyond it faults, and
 * with each starting where one ends. The other bytes of the buffers hold junk, which has to stay.
 */
#ifndef LEND_H
#define LEND_H

#include "entry.h"
#include "lafindry.h"

/* A byte that no document written by an entry has, that is no digit, and that stands in no report expected here. */
enum { JUNK = 0x95 };

/* The greatest length of a document or output that can be lent. */
enum { ROOM = LAFINDRY_MOST_REPORT + 100 };

struct document {
    const uint8_t *bytes;
    size_t length;
};

/* The document that consists of these bytes. */
#define BYTES(...) {(const uint8_t[]){__VA_ARGS__}, sizeof((const uint8_t[]){__VA_ARGS__})}
#define DOCUMENT(...) ((struct document)BYTES(__VA_ARGS__))

static const struct document NO_BYTES = {NULL, 0};

/* An entry with its documents in the order of their numbers, and the length of the output for those that write. DECIMAL
   has no document but a number. */
struct call {
    enum entry entry;
    struct document documents[4];
    size_t room;
    uint64_t number;
};

/* What an explanation has beside an answer; all 0 where there is no clash. */
struct clash {
    uint64_t reason, source_type, earlier, later, shared;
};

/* What a call gave: its answer, the clash of an explanation, what it wrote, and what is wrong with the bytes of the
   buffers, or NULL. What lafindry_decimal answers is the `value` of an answer that accepts. */
struct result {
    struct lafindry_answer answer;
    struct clash clash;
    struct document written;
    const char *wrong;
};

int documents_of(enum entry entry);
int writes(enum entry entry);
int same_answer(struct lafindry_answer a, struct lafindry_answer b);
int same_clash(struct clash a, struct clash b);
int same_bytes(struct document a, struct document b);

/* The ten numbers of an explanation as a result that wrote nothing. */
struct result explained(struct lafindry_explanation explanation);

/* Maps the buffers; to be called once before all others. Ends the program where that is impossible. */
void map_buffers(void);

/* Makes a call. What was written stays readable until the next call. */
struct result make_call(const struct call *call);

/* Whether all bytes of all buffers hold junk, as they do before and after each call. */
int all_junk(void);

#endif
