/*
 * The entries, lafindry_explain_clash, lafindry_read_along, lafindry_extend_table and lafindry_decimal, called in a
 * thread whose stack has a megabyte, on the deepest and longest documents and with tables of 64 types; and those that
 * write with an output of more than 4 GiB, mapped without reserve. Prints the most stack that each took, one line for
 * each case that failed, and last 'N passed, M failed'.
 */
#define _DEFAULT_SOURCE
#include "entry.h"
#include "lafindry.h"

#include <pthread.h>
#include <stdio.h>
#include <stdlib.h>
#include <string.h>
#include <sys/mman.h>
#include <unistd.h>

enum { STACK = 1 << 20, UNTOUCHED = 0x5C, LEVELS = 128 };

static unsigned long passed, failed;

static void expect(int holds, const char *what)
{
    if (holds) {
        passed++;
        return;
    }
    failed++;
    printf("failed: %s\n", what);
}

struct document {
    uint8_t bytes[LAFINDRY_MOST_BYTES];
    size_t length;
};

static void put(struct document *d, int byte) { d->bytes[d->length++] = (uint8_t)byte; }

static void put_two(struct document *d, int command, int operand)
{
    put(d, command);
    put(d, operand);
}

/* 64 types: a list of itself, then texts. */
static struct document table(void)
{
    struct document d = {{0}, 0};
    put_two(&d, 0x14, 0);
    for (int t = 1; t < 64; t++)
        put(&d, 0x10);
    put(&d, 0x1F);
    return d;
}

/* Each type to itself; an item to an item. */
static struct document embedding(void)
{
    struct document d = {{0}, 0};
    put_two(&d, 0x20, 0);
    put(&d, 0x21);
    put_two(&d, 0x22, 1);
    for (int t = 1; t < 64; t++) {
        put_two(&d, 0x20, t);
        put(&d, 0x21);
    }
    put(&d, 0x2F);
    return d;
}

/* A list in a list and so on, so many levels deep; the one on the last level but one holds items up to a length. */
static struct document tree(int levels, size_t length)
{
    struct document d = {{0}, 0};
    for (int level = 1; level < levels; level++)
        put_two(&d, 0x30, 0);
    while (d.length + 3 + (size_t)levels <= length) {
        put_two(&d, 0x30, 0);
        put(&d, 0x32);
    }
    for (int level = 1; level < levels; level++)
        put(&d, 0x32);
    put(&d, 0x3F);
    return d;
}

/* 63 sequences of 16 lists, the last type. */
static struct document wide_table(void)
{
    struct document d = {{0}, 0};
    for (int t = 0; t < 63; t++) {
        put(&d, 0x12);
        for (int member = 1; member <= 16; member++)
            put_two(&d, 0x15, 63);
    }
    put_two(&d, 0x14, 0);
    put(&d, 0x1F);
    return d;
}

/* A path of 12 steps, from the root of that table by this member to the list and back to the root, six times. */
static void put_path(struct document *d, int member)
{
    put(d, 0x21);
    for (int round = 1; round <= 6; round++) {
        put_two(d, 0x22, member);
        put_two(d, 0x22, 1);
    }
}

/* Each type of that table to its root, each member by itself, but the last member of the last sequence as the one
   before. */
static struct document wide_embedding(void)
{
    struct document d = {{0}, 0};
    for (int t = 0; t < 63; t++) {
        put_two(&d, 0x20, 0);
        for (int member = 1; member <= 16; member++)
            put_path(&d, t == 62 && member == 16 ? 15 : member);
    }
    put_two(&d, 0x20, 0);
    put_path(&d, 1);
    put(&d, 0x2F);
    return d;
}

/* As many operations as a document can have: types of no bytes. */
static struct document most_operations(void)
{
    struct document d = {{0}, 0};
    while (d.length < LAFINDRY_MOST_BYTES)
        put_two(&d, LAFINDRY_APPEND_TYPE, 0);
    return d;
}

/* Behind an empty type 0, sequences of the type before up to type 61; type 62, a choice of itself and 61; type 63, a
   sequence of 16 times 62. Then the choice gets 60, 59 and so on to 47, each lower than all it has. */
static struct document growing_operations(void)
{
    struct document d = {{0}, 0};
    for (int t = 1; t < 62; t++) {
        put_two(&d, LAFINDRY_APPEND_TYPE, 3);
        put(&d, 0x12);
        put_two(&d, 0x15, t - 1);
    }
    put_two(&d, LAFINDRY_APPEND_TYPE, 5);
    put(&d, 0x13);
    put_two(&d, 0x15, 62);
    put_two(&d, 0x15, 61);
    put_two(&d, LAFINDRY_APPEND_TYPE, 33);
    put(&d, 0x12);
    for (int member = 1; member <= 16; member++)
        put_two(&d, 0x15, 62);
    for (int member = 60; member >= 47; member--) {
        put(&d, LAFINDRY_APPEND_MEMBER);
        put_two(&d, 62, member);
    }
    return d;
}

struct report {
    uint8_t bytes[LAFINDRY_MOST_REPORT];
    size_t length;
};

static void report_two(struct report *r, int first, int second)
{
    r->bytes[r->length++] = (uint8_t)first;
    r->bytes[r->length++] = (uint8_t)second;
}

static void report_type(struct report *r, int height, int length)
{
    r->bytes[r->length++] = (uint8_t)height;
    report_two(r, length / 256, length % 256);
}

/* The report of the most operations on table(): of each type height 1 and 3 bytes, and each operation is refused. */
static struct report most_report(void)
{
    struct report r = {{64}, 1};
    for (int t = 0; t < 64; t++)
        report_type(&r, 1, 3);
    for (int operation = 0; operation < LAFINDRY_MOST_BYTES / 2; operation++)
        report_two(&r, LAFINDRY_BAD_FORM, 0);
    return r;
}

/* The report of the growing operations: the choice takes type 47, of height 48, in the end. */
static struct report growing_report(void)
{
    struct report r = {{64}, 1};
    for (int height = 1; height <= 62; height++)
        report_type(&r, height, 3 * height);
    report_type(&r, 49, 3 * 49);
    report_type(&r, 50, 3 + 16 * 3 * 49);
    for (int types = 2; types <= 64; types++)
        report_two(&r, LAFINDRY_ACCEPTED, types);
    for (int member = 60; member >= 47; member--)
        report_two(&r, LAFINDRY_ACCEPTED, 64);
    return r;
}

static struct document source, target, map, operations;
static struct report report;

/* How many of them there are. */
enum { ENTRIES = DECIMAL + 1 };
static const char *const NAMES[ENTRIES] = {"judge a table", "judge an embedding", "explain a clash",
                                           "judge a tree",  "carry",              "bring back",
                                           "read along",    "extend a table",     "write a number"};

/* What lafindry_decimal answers is the `value` of an answer that accepts. An explanation has an answer of its own. */
struct call {
    enum entry entry;
    const struct document *tree;
    uint8_t *output;
    size_t room;
    struct lafindry_answer answer;
    struct lafindry_explanation explanation;
};

/* The answer of judging in an explanation. */
static struct lafindry_answer answer_in(struct lafindry_explanation e)
{
    return (struct lafindry_answer){e.refusal, e.document, e.mark, e.value, e.filler};
}

static void *make_call(void *argument)
{
    struct call *c = argument;
    const struct document *t = c->tree;
    switch (c->entry) {
    case JUDGE_TABLE:
        c->answer = lafindry_judge_table(source.bytes, source.length);
        break;
    case JUDGE_EMBEDDING:
        c->answer = lafindry_judge_embedding(source.bytes, source.length, target.bytes, target.length, map.bytes, map.length);
        break;
    case EXPLAIN_CLASH:
        c->explanation =
            lafindry_explain_clash(source.bytes, source.length, target.bytes, target.length, map.bytes, map.length);
        c->answer = answer_in(c->explanation);
        break;
    case JUDGE_TREE:
        c->answer = lafindry_judge_tree(source.bytes, source.length, t->bytes, t->length);
        break;
    case CARRY:
        c->answer = lafindry_carry(source.bytes, source.length, target.bytes, target.length, map.bytes, map.length,
                                   t->bytes, t->length, c->output, c->room);
        break;
    case READ_ALONG:
        c->answer = lafindry_read_along(source.bytes, source.length, target.bytes, target.length, map.bytes, map.length,
                                        t->bytes, t->length, c->output, c->room);
        break;
    case EXTEND_TABLE:
        c->answer = lafindry_extend_table(source.bytes, source.length, operations.bytes, operations.length, c->output,
                                          c->room);
        break;
    case DECIMAL:
        c->answer = (struct lafindry_answer){.value = lafindry_decimal(UINT64_MAX, c->output, c->room)};
        break;
    default:
        c->answer = lafindry_bring_back(source.bytes, source.length, target.bytes, target.length, map.bytes, map.length,
                                        t->bytes, t->length, c->output, c->room);
    }
    return NULL;
}

static int wrote(const struct call *c, const void *written, size_t length)
{
    return c->answer.value == length && memcmp(c->output, written, length) == 0;
}

/* Whether a call wrote what it should: a document, which is its own image, the report, or the greatest number. */
static int wrote_right(const struct call *c)
{
    static const char greatest[] = "18446744073709551615";
    switch (c->entry) {
    case DECIMAL:
        return wrote(c, greatest, strlen(greatest));
    case EXTEND_TABLE:
        return wrote(c, report.bytes, report.length);
    default:
        return wrote(c, c->tree->bytes, c->tree->length);
    }
}

/* Makes a call in a thread on a stack of its own; how much of the stack was touched. */
static size_t on_small_stack(struct call *c)
{
    size_t page = (size_t)sysconf(_SC_PAGESIZE);
    uint8_t *all = mmap(NULL, STACK + page, PROT_READ | PROT_WRITE, MAP_PRIVATE | MAP_ANONYMOUS, -1, 0);
    pthread_attr_t attributes;
    pthread_t thread;
    if (all == MAP_FAILED || mprotect(all, page, PROT_NONE) != 0 || pthread_attr_init(&attributes) != 0 ||
        pthread_attr_setstack(&attributes, all + page, STACK) != 0) {
        puts("no stack can be made");
        exit(2);
    }
    memset(all + page, UNTOUCHED, STACK);
    if (pthread_create(&thread, &attributes, make_call, c) != 0 || pthread_join(thread, NULL) != 0) {
        puts("no thread can be made");
        exit(2);
    }
    size_t untouched = 0;
    while (untouched < STACK && all[page + untouched] == UNTOUCHED)
        untouched++;
    pthread_attr_destroy(&attributes);
    munmap(all, STACK + page);
    return STACK - untouched;
}

/* The most stack that each entry took. */
static size_t most[ENTRIES];

/* Makes a call on a stack of its own and keeps how much of it was touched, if that is the most. */
static void measure(struct call *c)
{
    size_t taken = on_small_stack(c);
    if (taken > most[c->entry])
        most[c->entry] = taken;
}

/* An output that is never too short. */
static uint8_t enough[LAFINDRY_MOST_REPORT];

static void small_stacks(void)
{
    static struct document trees[4];
    trees[0] = tree(2, 6);
    trees[1] = tree(LEVELS, 0);
    trees[2] = tree(2, LAFINDRY_MOST_BYTES);
    trees[3] = tree(LEVELS, LAFINDRY_MOST_BYTES);
    for (int i = 0; i < 4; i++) {
        for (int entry = 0; entry < ENTRIES; entry++) {
            struct call c = {.entry = (enum entry)entry, .tree = &trees[i], .output = enough, .room = sizeof enough};
            memset(enough, UNTOUCHED, sizeof enough);
            measure(&c);
            expect(c.answer.refusal == LAFINDRY_ACCEPTED, NAMES[entry]);
            if (entry == EXPLAIN_CLASH)
                expect(c.explanation.reason == LAFINDRY_NO_CLASH, "there is nothing to explain");
            if (entry >= CARRY)
                expect(wrote_right(&c), "what is written");
        }
    }
}

/* A clash of the last paths of the largest tables, judged and explained. */
static void last_clash(void)
{
    source = wide_table();
    target = wide_table();
    map = wide_embedding();
    struct call judged = {.entry = JUDGE_EMBEDDING}, explained = {.entry = EXPLAIN_CLASH};
    measure(&judged);
    measure(&explained);
    struct lafindry_answer a = judged.answer;
    struct lafindry_explanation e = explained.explanation;
    /* 62 types of 402 bytes stand before the last sequence, and 15 paths of 25 bytes before its last. */
    expect(a.refusal == LAFINDRY_PATH_CLASH && a.document == LAFINDRY_EMBEDDING && a.mark == 62 * 402 + 2 + 15 * 25,
           "the last paths clash");
    expect(e.refusal == a.refusal && e.document == a.document && e.mark == a.mark && e.value == 0 && e.filler == 0,
           "an explanation has the answer of judging");
    expect(e.reason == LAFINDRY_EQUAL_PATHS && e.source_type == 62 && e.earlier == 15 && e.later == 16 &&
               e.shared == 12,
           "the last paths are equal");
}

/* Lists in lists of the target, so many levels deep; a source list stands at every other of them. Where the last one
   stands for an item, its own item is missing. */
static struct document nested(int levels)
{
    struct document d = {{0}, 0};
    for (int level = 0; level < levels; level++)
        put_two(&d, 0x30, level % 2);
    for (int level = 0; level < levels; level++)
        put(&d, 0x32);
    put(&d, 0x3F);
    return d;
}

/* A list of itself in lists of lists of themselves: read where the last list is one that takes items, and refused where
   it stands for one item. */
static void deepest_reading(void)
{
    static struct document trees[2];
    source = (struct document){{0x14, 0x00, 0x1F}, 3};
    target = (struct document){{0x14, 0x01, 0x14, 0x00, 0x1F}, 5};
    map = (struct document){{0x20, 0x00, 0x21, 0x22, 0x01, 0x22, 0x01, 0x2F}, 8};
    trees[0] = nested(LEVELS - 1);
    trees[1] = nested(LEVELS);
    struct call read = {.entry = READ_ALONG, .tree = &trees[0], .output = enough, .room = sizeof enough};
    struct call refused = {.entry = READ_ALONG, .tree = &trees[1], .output = enough, .room = sizeof enough};
    measure(&read);
    expect(read.answer.refusal == LAFINDRY_ACCEPTED && read.answer.filler == 0 && read.answer.value == 3 * 64 + 1,
           "the deepest lists are read");
    measure(&refused);
    expect(refused.answer.refusal == LAFINDRY_UNREADABLE && refused.answer.document == LAFINDRY_TREE &&
               refused.answer.mark == 2 * (LEVELS - 2),
           "the deepest list lacks its item");
}

/* A table of one type grown to 64, its numbers moved again and again. */
static void grown_table(void)
{
    source = (struct document){{0x11, 0x1F}, 2};
    operations = growing_operations();
    report = growing_report();
    struct call c = {.entry = EXTEND_TABLE, .output = enough, .room = sizeof enough};
    memset(enough, UNTOUCHED, sizeof enough);
    measure(&c);
    expect(c.answer.refusal == LAFINDRY_ACCEPTED && wrote_right(&c), "a table is grown");
}

static void large_outputs(void)
{
    size_t room = ((size_t)1 << 32) + 123;
    static struct document document;
    document = tree(LEVELS, LAFINDRY_MOST_BYTES);
    uint8_t *output =
        mmap(NULL, room, PROT_READ | PROT_WRITE, MAP_PRIVATE | MAP_ANONYMOUS | MAP_NORESERVE, -1, 0);
    if (output == MAP_FAILED) {
        expect(0, "more than 4 GiB can't be mapped");
        return;
    }
    const size_t probes[] = {LAFINDRY_MOST_REPORT, room / 2, ((size_t)1 << 32) - 1, (size_t)1 << 32, room - 1};
    const size_t count = sizeof probes / sizeof *probes;
    for (size_t i = 0; i < count; i++)
        output[probes[i]] = UNTOUCHED;
    for (int entry = CARRY; entry <= DECIMAL; entry++) {
        struct call c = {.entry = (enum entry)entry, .tree = &document, .output = output, .room = room};
        memset(output, UNTOUCHED, LAFINDRY_MOST_REPORT);
        make_call(&c);
        expect(c.answer.refusal == LAFINDRY_ACCEPTED, "an output of more than 4 GiB");
        expect(wrote_right(&c), "what is written there");
        expect(c.answer.value < room && output[c.answer.value] == UNTOUCHED, "the next byte stays");
        for (size_t i = 0; i < count; i++)
            expect(output[probes[i]] == UNTOUCHED, "a later byte stays");
    }
    munmap(output, room);
}

int main(void)
{
    source = table();
    target = table();
    map = embedding();
    operations = most_operations();
    report = most_report();
    small_stacks();
    large_outputs();
    last_clash();
    deepest_reading();
    grown_table();
    for (int entry = 0; entry < ENTRIES; entry++)
        printf("stack, %s: %zu bytes\n", NAMES[entry], most[entry]);
    printf("%lu passed, %lu failed\n", passed, failed);
    return failed == 0 ? 0 : 1;
}
