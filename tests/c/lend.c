/* See lend.h. */
#define _DEFAULT_SOURCE
#include "lend.h"

#include <stdio.h>
#include <stdlib.h>
#include <string.h>
#include <sys/mman.h>
#include <unistd.h>

/* Four buffers for documents and one for the output. */
enum { BUFFERS = 5, OUTPUT = 4 };

/* How many bytes beside a lent one are looked at after each call. */
enum { BESIDE = 64 };

/* A buffer between two inaccessible pages. */
static struct {
    uint8_t *start, *end;
} buffers[BUFFERS];

/* Where in its buffer everything is lent. */
enum side { AT_END, AT_START };

int documents_of(enum entry entry)
{
    switch (entry) {
    case JUDGE_TABLE:
        return 1;
    case JUDGE_TREE:
    case EXTEND_TABLE:
        return 2;
    case JUDGE_EMBEDDING:
    case EXPLAIN_CLASH:
        return 3;
    case DECIMAL:
        return 0;
    default:
        return 4;
    }
}

int writes(enum entry entry)
{
    return entry == CARRY || entry == BRING_BACK || entry == READ_ALONG || entry == EXTEND_TABLE || entry == DECIMAL;
}

int same_answer(struct lafindry_answer a, struct lafindry_answer b)
{
    return a.refusal == b.refusal && a.document == b.document && a.mark == b.mark && a.value == b.value &&
           a.filler == b.filler;
}

int same_clash(struct clash a, struct clash b)
{
    return a.reason == b.reason && a.source_type == b.source_type && a.earlier == b.earlier && a.later == b.later &&
           a.shared == b.shared;
}

int same_bytes(struct document a, struct document b)
{
    return a.length == b.length && (a.length == 0 || memcmp(a.bytes, b.bytes, a.length) == 0);
}

struct result explained(struct lafindry_explanation e)
{
    return (struct result){
        .answer = {e.refusal, e.document, e.mark, e.value, e.filler},
        .clash = {e.reason, e.source_type, e.earlier, e.later, e.shared},
    };
}

void map_buffers(void)
{
    size_t page = (size_t)sysconf(_SC_PAGESIZE);
    size_t inner = (ROOM + page - 1) / page * page;
    for (int i = 0; i < BUFFERS; i++) {
        uint8_t *all = mmap(NULL, inner + 2 * page, PROT_NONE, MAP_PRIVATE | MAP_ANONYMOUS, -1, 0);
        if (all == MAP_FAILED || mprotect(all + page, inner, PROT_READ | PROT_WRITE) != 0) {
            perror("mapping a buffer");
            exit(2);
        }
        buffers[i].start = all + page;
        buffers[i].end = all + page + inner;
        memset(buffers[i].start, JUNK, inner);
    }
}

static int is_junk(const uint8_t *start, const uint8_t *end)
{
    while (start < end && *start == JUNK)
        start++;
    return start == end;
}

int all_junk(void)
{
    for (int i = 0; i < BUFFERS; i++)
        if (!is_junk(buffers[i].start, buffers[i].end))
            return 0;
    return 1;
}

/* Where something of a length is lent. With length 0 and AT_END, that is an inaccessible page. */
static uint8_t *lent_at(int buffer, size_t length, enum side side)
{
    if (length > ROOM) {
        fprintf(stderr, "too long for a buffer: %zu bytes\n", length);
        exit(2);
    }
    return side == AT_END ? buffers[buffer].end - length : buffers[buffer].start;
}

/* Whether the bytes beside a lent part of a buffer hold junk. */
static int junk_beside(int buffer, const uint8_t *start, size_t length, enum side side)
{
    const uint8_t *end = start + length;
    size_t spare = (size_t)(buffers[buffer].end - buffers[buffer].start) - length;
    size_t beside = spare < BESIDE ? spare : BESIDE;
    return side == AT_END ? is_junk(start - beside, start) : is_junk(end, end + beside);
}

/* The documents and the output of a call, lent. */
struct lent {
    const uint8_t *documents[4];
    uint8_t *output;
};

static struct lent lend(const struct call *call, enum side side)
{
    struct lent lent = {{NULL, NULL, NULL, NULL}, lent_at(OUTPUT, call->room, side)};
    for (int i = 0; i < documents_of(call->entry); i++) {
        const struct document *document = &call->documents[i];
        uint8_t *start = lent_at(i, document->length, side);
        if (document->length > 0)
            memcpy(start, document->bytes, document->length);
        lent.documents[i] = start;
    }
    return lent;
}

/* All but lafindry_explain_clash give an answer. */
static struct lafindry_answer call_entry(const struct call *call, const struct lent *lent)
{
    const struct document *d = call->documents;
    const uint8_t *const *p = lent->documents;
    switch (call->entry) {
    case JUDGE_TABLE:
        return lafindry_judge_table(p[0], d[0].length);
    case JUDGE_EMBEDDING:
        return lafindry_judge_embedding(p[0], d[0].length, p[1], d[1].length, p[2], d[2].length);
    case JUDGE_TREE:
        return lafindry_judge_tree(p[0], d[0].length, p[1], d[1].length);
    case CARRY:
        return lafindry_carry(p[0], d[0].length, p[1], d[1].length, p[2], d[2].length, p[3], d[3].length,
                              lent->output, call->room);
    case READ_ALONG:
        return lafindry_read_along(p[0], d[0].length, p[1], d[1].length, p[2], d[2].length, p[3], d[3].length,
                                   lent->output, call->room);
    case EXTEND_TABLE:
        return lafindry_extend_table(p[0], d[0].length, p[1], d[1].length, lent->output, call->room);
    case DECIMAL:
        return (struct lafindry_answer){.value = lafindry_decimal(call->number, lent->output, call->room)};
    default:
        return lafindry_bring_back(p[0], d[0].length, p[1], d[1].length, p[2], d[2].length, p[3], d[3].length,
                                   lent->output, call->room);
    }
}

/* Makes a call with what was lent; what it wrote is looked at later. */
static struct result call_lent(const struct call *call, const struct lent *lent)
{
    const struct document *d = call->documents;
    const uint8_t *const *p = lent->documents;
    if (call->entry == EXPLAIN_CLASH)
        return explained(lafindry_explain_clash(p[0], d[0].length, p[1], d[1].length, p[2], d[2].length));
    return (struct result){.answer = call_entry(call, lent)};
}

/* Looks at the documents after a call and fills their places with junk. */
static const char *take_documents_back(const struct call *call, const struct lent *lent, enum side side)
{
    const char *wrong = NULL;
    for (int i = 0; i < documents_of(call->entry); i++) {
        size_t length = call->documents[i].length;
        uint8_t *start = lent_at(i, length, side);
        if (!same_bytes(call->documents[i], (struct document){lent->documents[i], length}))
            wrong = "a document was changed";
        if (!junk_beside(i, start, length, side))
            wrong = "bytes beside a document were changed";
        memset(start, JUNK, length);
    }
    return wrong;
}

/* Looks at the output after a call, keeps a copy of what was written, and fills its place with junk. */
static const char *take_output_back(const struct call *call, const struct lent *lent, enum side side,
                                    struct result *result)
{
    static uint8_t kept[ROOM];
    const char *wrong = NULL;
    int accepted = result->answer.refusal == LAFINDRY_ACCEPTED;
    uint64_t length = accepted && writes(call->entry) ? result->answer.value : 0;
    if (length > call->room) {
        wrong = "more was written than there is room for";
        length = call->room;
    }
    if (!is_junk(lent->output + length, lent->output + call->room))
        wrong = length > 0 ? "bytes after what was written were changed" : "an output changed where nothing is written";
    if (!junk_beside(OUTPUT, lent->output, call->room, side))
        wrong = "bytes beside the output were changed";
    memcpy(kept, lent->output, length);
    result->written = (struct document){kept, length};
    memset(lent->output, JUNK, call->room);
    return wrong;
}

static struct result call_at(const struct call *call, enum side side)
{
    struct lent lent = lend(call, side);
    struct result result = call_lent(call, &lent);
    const char *documents = take_documents_back(call, &lent, side);
    const char *output = take_output_back(call, &lent, side, &result);
    result.wrong = documents != NULL ? documents : output;
    return result;
}

struct result make_call(const struct call *call)
{
    static uint8_t first_written[ROOM];
    struct result first = call_at(call, AT_END);
    memcpy(first_written, first.written.bytes, first.written.length);
    first.written.bytes = first_written;
    struct result second = call_at(call, AT_START);
    if (first.wrong == NULL)
        first.wrong = second.wrong;
    if (!same_answer(first.answer, second.answer) || !same_clash(first.clash, second.clash) ||
        !same_bytes(first.written, second.written))
        first.wrong = "the same call gave another answer";
    return first;
}
