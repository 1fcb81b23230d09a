/*
 * Calls the five entries, lafindry_explain_clash, lafindry_read_along, lafindry_extend_table and lafindry_decimal
 * through include/lafindry.h, with buffers lent as lend.h says. Prints one line for each group, for changes of one byte
 * how often the reference and the library gave each answer, and last 'N passed, M failed'.
 */
#include "lend.h"

#include <stdio.h>
#include <stdlib.h>
#include <string.h>

_Static_assert(sizeof(struct lafindry_answer) == 5 * sizeof(uint64_t), "an answer is five numbers");
_Static_assert(sizeof(struct lafindry_explanation) == 10 * sizeof(uint64_t), "an explanation is ten numbers");
_Static_assert(LAFINDRY_MOST_DIGITS == sizeof "18446744073709551615" - 1, "no number has more digits than UINT64_MAX");

/* The patch of paper 01, and its image. */
static const struct document SOURCE =
    BYTES(0x12, 0x15, 0x01, 0x15, 0x02, 0x10, 0x13, 0x15, 0x03, 0x15, 0x04, 0x11, 0x11, 0x1F);
static const struct document TARGET = BYTES(0x12, 0x15, 0x01, 0x15, 0x02, 0x12, 0x15, 0x03, 0x15, 0x03, 0x13, 0x15,
                                            0x04, 0x15, 0x05, 0x10, 0x11, 0x11, 0x1F);
static const struct document EMBEDDING =
    BYTES(0x20, 0x00, 0x21, 0x22, 0x01, 0x22, 0x01, 0x21, 0x22, 0x02, 0x20, 0x03, 0x21, 0x20, 0x02, 0x21, 0x22, 0x02,
          0x21, 0x22, 0x01, 0x20, 0x05, 0x20, 0x04, 0x2F);
static const struct document TREE =
    BYTES(0x30, 0x00, 0x30, 0x01, 0x31, 0x41, 0x32, 0x30, 0x02, 0x30, 0x03, 0x32, 0x32, 0x32, 0x3F);
static const struct document IMAGE = BYTES(0x30, 0x00, 0x30, 0x01, 0x30, 0x03, 0x31, 0x41, 0x32, 0x30, 0x03, 0x32,
                                           0x32, 0x30, 0x02, 0x30, 0x05, 0x32, 0x32, 0x32, 0x3F);

/* Calls. */

static struct call judge_table(struct document table)
{
    return (struct call){.entry = JUDGE_TABLE, .documents = {table}};
}

static struct call judge_embedding(struct document source, struct document target, struct document embedding)
{
    return (struct call){.entry = JUDGE_EMBEDDING, .documents = {source, target, embedding}};
}

static struct call explain(struct document source, struct document target, struct document embedding)
{
    return (struct call){.entry = EXPLAIN_CLASH, .documents = {source, target, embedding}};
}

static struct call judge_tree(struct document table, struct document tree)
{
    return (struct call){.entry = JUDGE_TREE, .documents = {table, tree}};
}

static struct call carry(struct document source, struct document target, struct document embedding,
                         struct document tree, size_t room)
{
    return (struct call){.entry = CARRY, .documents = {source, target, embedding, tree}, .room = room};
}

static struct call bring_back(struct document source, struct document target, struct document embedding,
                              struct document tree, size_t room)
{
    return (struct call){.entry = BRING_BACK, .documents = {source, target, embedding, tree}, .room = room};
}

static struct call read_along(struct document source, struct document target, struct document embedding,
                              struct document tree, size_t room)
{
    return (struct call){.entry = READ_ALONG, .documents = {source, target, embedding, tree}, .room = room};
}

static struct call extend(struct document table, struct document operations, size_t room)
{
    return (struct call){.entry = EXTEND_TABLE, .documents = {table, operations}, .room = room};
}

static struct call decimal(uint64_t number, size_t room)
{
    return (struct call){.entry = DECIMAL, .number = number, .room = room};
}

/* The patch carried, and a tree brought back and read by it. */
static struct call carry_patch(size_t room) { return carry(SOURCE, TARGET, EMBEDDING, TREE, room); }
static struct call bring_by_patch(struct document tree, size_t room)
{
    return bring_back(SOURCE, TARGET, EMBEDDING, tree, room);
}
static struct call read_by_patch(struct document tree, size_t room)
{
    return read_along(SOURCE, TARGET, EMBEDDING, tree, room);
}

/* Comparing and counting. */

static unsigned long passed, failed, passed_before, failed_before;

/* How many altered or damaged images were brought back. */
static unsigned long changed_images;

/* The call of bringing one back. */
static struct call changed_image(struct call call)
{
    changed_images++;
    return call;
}

static void begin_group(const char *name)
{
    printf("%s: ", name);
    fflush(stdout);
    passed_before = passed;
    failed_before = failed;
}

/* Counts a failure; whether it is one of the first of its group, which are printed. */
static int fail(void)
{
    failed++;
    return failed - failed_before <= 5;
}

static void end_group(void)
{
    if (all_junk())
        passed++;
    else if (fail())
        printf("\n  bytes far from what was lent were changed");
    printf("%s%lu passed, %lu failed\n", failed > failed_before ? "\n  " : "", passed - passed_before,
           failed - failed_before);
}

static struct lafindry_answer accepted(uint64_t value)
{
    return (struct lafindry_answer){.refusal = LAFINDRY_ACCEPTED, .value = value};
}

static struct lafindry_answer refused(uint64_t refusal, uint64_t document, uint64_t mark)
{
    return (struct lafindry_answer){.refusal = refusal, .document = document, .mark = mark};
}

static void print_answer(const char *word, struct lafindry_answer answer)
{
    printf(" %s {%llu, %llu, %llu, %llu, %llu}", word, (unsigned long long)answer.refusal,
           (unsigned long long)answer.document, (unsigned long long)answer.mark, (unsigned long long)answer.value,
           (unsigned long long)answer.filler);
}

static void print_clash(const char *word, struct clash clash)
{
    printf(" %s clash {%llu, %llu, %llu, %llu, %llu}", word, (unsigned long long)clash.reason,
           (unsigned long long)clash.source_type, (unsigned long long)clash.earlier, (unsigned long long)clash.later,
           (unsigned long long)clash.shared);
}

/* Makes a call. One that explains is wrong too where its answer is not that of judging the same documents. */
static struct result checked_call(const struct call *call)
{
    struct result result = make_call(call);
    if (call->entry == EXPLAIN_CLASH && result.wrong == NULL) {
        struct call judging = *call;
        judging.entry = JUDGE_EMBEDDING;
        if (!same_answer(result.answer, make_call(&judging).answer))
            result.wrong = "judging the same documents gave another answer";
    }
    return result;
}

/* What a call has to give: an answer, the clash where one is explained, and what is written where it writes. */
struct expected {
    struct lafindry_answer answer;
    struct clash clash;
    struct document written;
};

/* Makes a call and compares; the name and the number say which case it is. */
static void expect_at(const char *name, size_t number, struct expected expected, struct call call)
{
    struct result got = checked_call(&call);
    if (got.wrong == NULL && same_answer(got.answer, expected.answer) && same_clash(got.clash, expected.clash) &&
        same_bytes(got.written, expected.written)) {
        passed++;
        return;
    }
    if (fail()) {
        printf("\n  %s %zu:", name, number);
        print_answer("expected", expected.answer);
        print_answer("answered", got.answer);
        if (!same_clash(got.clash, expected.clash)) {
            print_clash("expected", expected.clash);
            print_clash("answered", got.clash);
        }
        if (!same_bytes(got.written, expected.written))
            printf("; what was written is not what was expected");
        if (got.wrong != NULL)
            printf("; %s", got.wrong);
    }
}

/* An answer alone: nothing is explained, and nothing is written, by a judge or after a refusal. */
static struct expected only(struct lafindry_answer answer) { return (struct expected){.answer = answer}; }
#define EXPECT(answer, call) expect_at("entries.c line", __LINE__, only(answer), (call))

/* A clash is explained: the offset of the later path, the reason, the source type, both members, and the number of
   steps that their paths share. */
#define EXPECT_CLASH(mark, reason, source_type, earlier, later, shared, call) \
    expect_at("entries.c line", __LINE__,                                     \
              explained_clash((mark), (struct clash){(reason), (source_type), (earlier), (later), (shared)}), (call))

static struct expected explained_clash(uint64_t mark, struct clash clash)
{
    return (struct expected){.answer = refused(LAFINDRY_PATH_CLASH, LAFINDRY_EMBEDDING, mark), .clash = clash};
}

/* A document is written, with so many filler elements, or elements on no followed path, or a report, with none. */
#define EXPECT_WRITTEN(document, filler, call) \
    expect_at("entries.c line", __LINE__, written_document((document), (filler)), (call))

static struct expected written_document(struct document document, uint64_t filler)
{
    struct lafindry_answer answer = accepted(document.length);
    answer.filler = filler;
    return (struct expected){.answer = answer, .written = document};
}

/* Paper 01's cases, and one of each other refusal. */

static void worked_judging_cases(void)
{
    begin_group("worked cases of judging");
    EXPECT(accepted(5), judge_table(SOURCE));
    EXPECT(accepted(6), judge_table(TARGET));
    EXPECT(accepted(5), judge_embedding(SOURCE, TARGET, EMBEDDING));
    EXPECT(accepted(4), judge_tree(SOURCE, TREE));
    EXPECT(accepted(6), judge_tree(TARGET, IMAGE));

    EXPECT(refused(LAFINDRY_BAD_FORM, LAFINDRY_TREE, 0), judge_tree(SOURCE, DOCUMENT(0x30)));
    EXPECT(refused(LAFINDRY_BAD_FORM, LAFINDRY_TREE, 2), judge_tree(SOURCE, DOCUMENT(0x30, 0x00, 0x3F)));
    EXPECT(refused(LAFINDRY_BAD_FORM, LAFINDRY_TREE, 15),
           judge_tree(SOURCE, DOCUMENT(0x30, 0x00, 0x30, 0x01, 0x31, 0x41, 0x32, 0x30, 0x02, 0x30, 0x03, 0x32, 0x32,
                                       0x32, 0x3F, 0x3F)));
    EXPECT(refused(LAFINDRY_UNEXPECTED, LAFINDRY_TREE, 2), judge_tree(SOURCE, DOCUMENT(0x30, 0x00, 0x32, 0x3F)));
    EXPECT(refused(LAFINDRY_UNEXPECTED, LAFINDRY_TREE, 0), judge_tree(SOURCE, DOCUMENT(0x30, 0x01, 0x32, 0x3F)));
    EXPECT(refused(LAFINDRY_BAD_OPERAND, LAFINDRY_TREE, 0), judge_tree(SOURCE, DOCUMENT(0x30, 0x05, 0x32, 0x3F)));
    EXPECT(refused(LAFINDRY_BAD_OPERAND, LAFINDRY_TREE, 2),
           judge_tree(SOURCE, DOCUMENT(0x30, 0x00, 0x31, 0x1F, 0x32, 0x3F)));

    EXPECT(refused(LAFINDRY_NO_FINITE_INSTANCE, LAFINDRY_SOURCE_TABLE, 0),
           judge_table(DOCUMENT(0x12, 0x15, 0x00, 0x1F)));
    EXPECT(accepted(1), judge_table(DOCUMENT(0x14, 0x00, 0x1F)));
    EXPECT(refused(LAFINDRY_REPEATED_MEMBER, LAFINDRY_SOURCE_TABLE, 3),
           judge_table(DOCUMENT(0x13, 0x15, 0x01, 0x15, 0x01, 0x11, 0x1F)));
    EXPECT(refused(LAFINDRY_BAD_OPERAND, LAFINDRY_SOURCE_TABLE, 0), judge_table(DOCUMENT(0x14, 0x01, 0x1F)));

    /* The patch's embedding with both paths of source type 2 the same; then with its last two maps the same too. */
    EXPECT(refused(LAFINDRY_WRONG_END, LAFINDRY_EMBEDDING, 18),
           judge_embedding(SOURCE, TARGET,
                           DOCUMENT(0x20, 0x00, 0x21, 0x22, 0x01, 0x22, 0x01, 0x21, 0x22, 0x02, 0x20, 0x03, 0x21, 0x20,
                                    0x02, 0x21, 0x22, 0x02, 0x21, 0x22, 0x02, 0x20, 0x05, 0x20, 0x04, 0x2F)));
    EXPECT(refused(LAFINDRY_PATH_CLASH, LAFINDRY_EMBEDDING, 18),
           judge_embedding(SOURCE, TARGET,
                           DOCUMENT(0x20, 0x00, 0x21, 0x22, 0x01, 0x22, 0x01, 0x21, 0x22, 0x02, 0x20, 0x03, 0x21, 0x20,
                                    0x02, 0x21, 0x22, 0x02, 0x21, 0x22, 0x02, 0x20, 0x05, 0x20, 0x05, 0x2F)));
    /* Two members of a choice whose paths differ first at a sequence. */
    EXPECT(refused(LAFINDRY_PATH_CLASH, LAFINDRY_EMBEDDING, 7),
           judge_embedding(DOCUMENT(0x13, 0x15, 0x01, 0x15, 0x02, 0x11, 0x11, 0x1F),
                           DOCUMENT(0x12, 0x15, 0x01, 0x15, 0x01, 0x13, 0x15, 0x02, 0x15, 0x03, 0x11, 0x11, 0x1F),
                           DOCUMENT(0x20, 0x00, 0x21, 0x22, 0x01, 0x22, 0x01, 0x21, 0x22, 0x02, 0x22, 0x01, 0x20, 0x02,
                                    0x20, 0x02, 0x2F)));
    EXPECT(refused(LAFINDRY_ROOT_MOVED, LAFINDRY_EMBEDDING, 0),
           judge_embedding(DOCUMENT(0x10, 0x1F), DOCUMENT(0x12, 0x15, 0x01, 0x10, 0x1F),
                           DOCUMENT(0x20, 0x01, 0x21, 0x2F)));
    /* A member of a sequence whose path has no step. */
    EXPECT(refused(LAFINDRY_WRONG_STEPS, LAFINDRY_EMBEDDING, 2),
           judge_embedding(DOCUMENT(0x12, 0x15, 0x01, 0x10, 0x1F), DOCUMENT(0x12, 0x15, 0x01, 0x10, 0x1F),
                           DOCUMENT(0x20, 0x00, 0x21, 0x20, 0x00, 0x21, 0x22, 0x01, 0x2F)));
    end_group();
}

/* The empty root of a source mapped to a choice of itself and an empty type: filler must not take the first member. */
static const struct document EMPTY_ROOT = BYTES(0x11, 0x1F);
static const struct document CHOICE_OF_ITSELF = BYTES(0x13, 0x15, 0x00, 0x15, 0x01, 0x11, 0x1F);
static const struct document MAPPED_ROOT = BYTES(0x20, 0x00, 0x2F);
static const struct document EMPTY_TREE = BYTES(0x30, 0x00, 0x32, 0x3F);

static void worked_writing_cases(void)
{
    begin_group("worked cases of carrying and bringing back");
    EXPECT_WRITTEN(IMAGE, 1, carry_patch(LAFINDRY_MOST_BYTES));
    EXPECT_WRITTEN(IMAGE, 1, carry_patch(21));
    EXPECT(refused(LAFINDRY_OUTPUT_TOO_SHORT, LAFINDRY_OUTPUT, 0), carry_patch(20));
    EXPECT_WRITTEN(TREE, 0, bring_by_patch(IMAGE, LAFINDRY_MOST_BYTES));
    EXPECT_WRITTEN(TREE, 0, bring_by_patch(IMAGE, 15));
    EXPECT(refused(LAFINDRY_OUTPUT_TOO_SHORT, LAFINDRY_OUTPUT, 0), bring_by_patch(IMAGE, 14));

    /* The image with a character in its filler element; it is no image however short the output is. */
    const struct document altered = DOCUMENT(0x30, 0x00, 0x30, 0x01, 0x30, 0x03, 0x31, 0x41, 0x32, 0x30, 0x03, 0x31,
                                             0x42, 0x32, 0x32, 0x30, 0x02, 0x30, 0x05, 0x32, 0x32, 0x32, 0x3F);
    EXPECT(refused(LAFINDRY_NO_IMAGE, LAFINDRY_TREE, 0),
           changed_image(bring_by_patch(altered, LAFINDRY_MOST_BYTES)));
    EXPECT(refused(LAFINDRY_NO_IMAGE, LAFINDRY_TREE, 0), changed_image(bring_by_patch(altered, 0)));

    /* The tree to be brought back is judged by the target table, the one to be carried by the source table, which has
       no type 5. */
    EXPECT(refused(LAFINDRY_UNEXPECTED, LAFINDRY_TREE, 4), bring_by_patch(TREE, LAFINDRY_MOST_BYTES));
    EXPECT(refused(LAFINDRY_BAD_OPERAND, LAFINDRY_TREE, 15),
           carry(SOURCE, TARGET, EMBEDDING, IMAGE, LAFINDRY_MOST_BYTES));

    const struct document filled = DOCUMENT(0x30, 0x00, 0x30, 0x01, 0x32, 0x32, 0x3F);
    const struct document filled_twice = DOCUMENT(0x30, 0x00, 0x30, 0x00, 0x30, 0x01, 0x32, 0x32, 0x32, 0x3F);
    EXPECT_WRITTEN(filled, 1, carry(EMPTY_ROOT, CHOICE_OF_ITSELF, MAPPED_ROOT, EMPTY_TREE, 7));
    EXPECT_WRITTEN(EMPTY_TREE, 0, bring_back(EMPTY_ROOT, CHOICE_OF_ITSELF, MAPPED_ROOT, filled, 4));
    EXPECT(refused(LAFINDRY_NO_IMAGE, LAFINDRY_TREE, 0),
           changed_image(bring_back(EMPTY_ROOT, CHOICE_OF_ITSELF, MAPPED_ROOT, filled_twice, ROOM)));
    end_group();
}

/* An optional choice of a text and an empty type, and a sequence of two such choices; paper 02, N3. */
static const struct document OPTIONAL_ROOT = BYTES(0x17, 0x15, 0x01, 0x15, 0x02, 0x10, 0x11, 0x1F);
static const struct document TWO_OPTIONAL =
    BYTES(0x12, 0x15, 0x03, 0x15, 0x03, 0x10, 0x11, 0x17, 0x15, 0x01, 0x15, 0x02, 0x1F);
static const struct document INTO_SECOND = BYTES(0x20, 0x00, 0x21, 0x22, 0x02, 0x22, 0x01, 0x21, 0x22, 0x02, 0x22, 0x02,
                                                 0x20, 0x01, 0x21, 0x20, 0x02, 0x2F);
static const struct document INTO_BOTH = BYTES(0x20, 0x00, 0x21, 0x22, 0x01, 0x22, 0x01, 0x21, 0x22, 0x02, 0x22, 0x02,
                                               0x20, 0x01, 0x21, 0x20, 0x02, 0x2F);

static void optional_cases(void)
{
    begin_group("worked cases of optional choices");
    EXPECT(refused(LAFINDRY_BAD_FORM, LAFINDRY_SOURCE_TABLE, 1), judge_table(DOCUMENT(0x17, 0x1F)));
    EXPECT(accepted(1), judge_table(DOCUMENT(0x17, 0x15, 0x00, 0x1F)));
    EXPECT(refused(LAFINDRY_REPEATED_MEMBER, LAFINDRY_SOURCE_TABLE, 3),
           judge_table(DOCUMENT(0x17, 0x15, 0x00, 0x15, 0x00, 0x1F)));

    /* Paths that part before their first choice: 9 for an optional choice, 10 for one that needs a member. */
    EXPECT(accepted(3), judge_embedding(OPTIONAL_ROOT, TWO_OPTIONAL, INTO_SECOND));
    EXPECT(refused(LAFINDRY_WRONG_STEPS, LAFINDRY_EMBEDDING, 7),
           judge_embedding(OPTIONAL_ROOT, TWO_OPTIONAL, INTO_BOTH));
    EXPECT(refused(LAFINDRY_PATH_CLASH, LAFINDRY_EMBEDDING, 7),
           judge_embedding(DOCUMENT(0x13, 0x15, 0x01, 0x15, 0x02, 0x10, 0x11, 0x1F), TWO_OPTIONAL, INTO_BOTH));

    /* Nothing is carried by the path up to the second optional choice, which is left empty; the first is filler. */
    const struct document nothing = DOCUMENT(0x30, 0x00, 0x30, 0x03, 0x32, 0x30, 0x03, 0x32, 0x32, 0x3F);
    EXPECT_WRITTEN(nothing, 1, carry(OPTIONAL_ROOT, TWO_OPTIONAL, INTO_SECOND, EMPTY_TREE, 10));
    EXPECT_WRITTEN(EMPTY_TREE, 0, bring_back(OPTIONAL_ROOT, TWO_OPTIONAL, INTO_SECOND, nothing, 4));
    EXPECT(refused(LAFINDRY_OUTPUT_TOO_SHORT, LAFINDRY_OUTPUT, 0),
           bring_back(OPTIONAL_ROOT, TWO_OPTIONAL, INTO_SECOND, nothing, 3));

    /* The first optional choice must stay as filler is, so with a member in it this is no image. */
    const struct document filled =
        DOCUMENT(0x30, 0x00, 0x30, 0x03, 0x30, 0x02, 0x32, 0x32, 0x30, 0x03, 0x32, 0x32, 0x3F);
    EXPECT(refused(LAFINDRY_NO_IMAGE, LAFINDRY_TREE, 0),
           changed_image(bring_back(OPTIONAL_ROOT, TWO_OPTIONAL, INTO_SECOND, filled, ROOM)));
    end_group();
}

/* A list of texts in a list of lists of lists of texts; paper 02, N4. */
static const struct document TEXTS = BYTES(0x14, 0x01, 0x10, 0x1F);
static const struct document NESTED_TEXTS = BYTES(0x14, 0x01, 0x14, 0x02, 0x14, 0x03, 0x10, 0x1F);
static const struct document INTO_NESTED =
    BYTES(0x20, 0x00, 0x21, 0x22, 0x01, 0x22, 0x01, 0x20, 0x02, 0x21, 0x22, 0x01, 0x2F);

static struct call read_nested(struct document tree, size_t room)
{
    return read_along(TEXTS, NESTED_TEXTS, INTO_NESTED, tree, room);
}

static void reading_cases(void)
{
    begin_group("worked cases of reading along");
    EXPECT_WRITTEN(TREE, 1, read_by_patch(IMAGE, LAFINDRY_MOST_BYTES));
    EXPECT(refused(LAFINDRY_OUTPUT_TOO_SHORT, LAFINDRY_OUTPUT, 0), read_by_patch(IMAGE, 14));
    /* The image with a character in its filler element, and a tree that is judged by the target table. */
    const struct document altered = DOCUMENT(0x30, 0x00, 0x30, 0x01, 0x30, 0x03, 0x31, 0x41, 0x32, 0x30, 0x03, 0x31,
                                             0x42, 0x32, 0x32, 0x30, 0x02, 0x30, 0x05, 0x32, 0x32, 0x32, 0x3F);
    EXPECT_WRITTEN(TREE, 1, read_by_patch(altered, 15));
    EXPECT(refused(LAFINDRY_UNEXPECTED, LAFINDRY_TREE, 4), read_by_patch(TREE, LAFINDRY_MOST_BYTES));
    /* Filler that is longer than it has to be: two elements more. */
    EXPECT_WRITTEN(EMPTY_TREE, 2,
                   read_along(EMPTY_ROOT, CHOICE_OF_ITSELF, MAPPED_ROOT,
                              DOCUMENT(0x30, 0x00, 0x30, 0x00, 0x30, 0x01, 0x32, 0x32, 0x32, 0x3F), 4));

    /* No item; one; one whose lists have a second item each. */
    EXPECT_WRITTEN(EMPTY_TREE, 0, read_nested(EMPTY_TREE, 4));
    EXPECT_WRITTEN(DOCUMENT(0x30, 0x00, 0x30, 0x01, 0x31, 0x41, 0x32, 0x32, 0x3F), 0,
                   read_nested(DOCUMENT(0x30, 0x00, 0x30, 0x01, 0x30, 0x02, 0x30, 0x03, 0x31, 0x41, 0x32, 0x32, 0x32,
                                        0x32, 0x3F),
                               9));
    EXPECT_WRITTEN(DOCUMENT(0x30, 0x00, 0x30, 0x01, 0x32, 0x32, 0x3F), 2,
                   read_nested(DOCUMENT(0x30, 0x00, 0x30, 0x01, 0x30, 0x02, 0x30, 0x03, 0x32, 0x30, 0x03, 0x31, 0x41,
                                        0x32, 0x32, 0x30, 0x02, 0x32, 0x32, 0x32, 0x3F),
                               7));
    /* The text lacks its item; the list lacks the rest of its path, also where only its second item does and the first
       one's text lacks its item: the list comes before the text. 17 comes before 14. */
    EXPECT(refused(LAFINDRY_UNREADABLE, LAFINDRY_TREE, 4),
           read_nested(DOCUMENT(0x30, 0x00, 0x30, 0x01, 0x30, 0x02, 0x32, 0x32, 0x32, 0x3F), 9));
    EXPECT(refused(LAFINDRY_UNREADABLE, LAFINDRY_TREE, 0),
           read_nested(DOCUMENT(0x30, 0x00, 0x30, 0x01, 0x32, 0x32, 0x3F), 9));
    EXPECT(refused(LAFINDRY_UNREADABLE, LAFINDRY_TREE, 0),
           read_nested(DOCUMENT(0x30, 0x00, 0x30, 0x01, 0x30, 0x02, 0x32, 0x32, 0x30, 0x01, 0x32, 0x32, 0x3F), 0));

    /* Nothing where the second optional choice, on which the paths agree, is empty; the first one may hold what it
       likes. A choice that needs a member can't be read there. */
    const struct document first = DOCUMENT(0x30, 0x00, 0x30, 0x03, 0x30, 0x01, 0x31, 0x41, 0x32, 0x32, 0x30, 0x03, 0x32,
                                           0x32, 0x3F);
    EXPECT_WRITTEN(EMPTY_TREE, 2, read_along(OPTIONAL_ROOT, TWO_OPTIONAL, INTO_SECOND, first, 4));
    EXPECT(refused(LAFINDRY_UNREADABLE, LAFINDRY_TREE, 0),
           read_along(DOCUMENT(0x13, 0x15, 0x01, 0x15, 0x02, 0x10, 0x11, 0x1F), TWO_OPTIONAL, INTO_SECOND, first, 4));
    end_group();
}

/* All lengths of output around what is needed, and longer ones. */
static void output_lengths(void)
{
    const struct expected too_short = only(refused(LAFINDRY_OUTPUT_TOO_SHORT, LAFINDRY_OUTPUT, 0));
    begin_group("lengths of output");
    for (size_t room = 0; room <= ROOM; room += room < 40 ? 1 : 5005) {
        expect_at("carried into", room, room < IMAGE.length ? too_short : written_document(IMAGE, 1),
                  carry_patch(room));
        expect_at("brought back into", room, room < TREE.length ? too_short : written_document(TREE, 0),
                  bring_by_patch(IMAGE, room));
        expect_at("read into", room, room < TREE.length ? too_short : written_document(TREE, 1),
                  read_by_patch(IMAGE, room));
    }
    end_group();
}

/* A table and operations on it; paper 02, N8. Type 0 is a sequence of type 1, 1 a choice of types 0 and 2, 2 a sequence
   of type 3, which is empty. */
static const struct document TABLE =
    BYTES(0x12, 0x15, 0x01, 0x13, 0x15, 0x00, 0x15, 0x02, 0x12, 0x15, 0x03, 0x11, 0x1F);

/* Type 1 gets type 3; then type 4, an optional choice of 1 and 4; type 4 gets 3. Refused: a sequence that would get 3
   (19), a type of no bytes (2), type 1 gets 3 again (5), a sequence of itself (6), type 1 gets 5 (4). */
static const struct document OPERATIONS =
    BYTES(0x52, 0x01, 0x03, 0x51, 0x05, 0x17, 0x15, 0x01, 0x15, 0x04, 0x52, 0x04, 0x03, 0x52, 0x00, 0x03, 0x51, 0x00,
          0x52, 0x01, 0x03, 0x51, 0x03, 0x12, 0x15, 0x05, 0x52, 0x01, 0x05);

/* What is kept of the types at first, and when type 1 has got type 3. */
static const struct document KEPT_FIRST =
    BYTES(4, 4, 0, 12, 3, 0, 9, 2, 0, 6, 1, 0, 3);
static const struct document KEPT_LOWER =
    BYTES(4, 3, 0, 9, 2, 0, 6, 2, 0, 6, 1, 0, 3);

/* The report: what is kept in the end, in KEPT_LAST bytes, then an answer for each operation. */
static const struct document REPORT =
    BYTES(5, 3, 0, 9, 2, 0, 6, 2, 0, 6, 1, 0, 3, 1, 0, 3,
          0, 4, 0, 5, 0, 5, 19, 0, 2, 0, 5, 0, 6, 0, 4, 0);
enum { KEPT_LAST = 16 };

/* The patch, or that table, with one of its documents replaced. */

/* Answers counted by refusal (0: accepted) and document, the sums of their other fields, and of the bytes written, each
   byte multiplied by its place from 1; clashes counted by reason. */
struct tally {
    uint64_t count[LAFINDRY_UNREADABLE + 1][LAFINDRY_OPERATIONS + 1], marks, values, fillers, bytes;
    uint64_t reasons[LAFINDRY_PARTS_AT_SEQUENCE + 1];
};

/* What each entry is given. */
static const struct document *const SOURCE_ONLY[] = {&SOURCE};
static const struct document *const TARGET_ONLY[] = {&TARGET};
static const struct document *const SETTING[] = {&SOURCE, &TARGET, &EMBEDDING};
static const struct document *const SOURCE_TREE[] = {&SOURCE, &TREE};
static const struct document *const PATCH[] = {&SOURCE, &TARGET, &EMBEDDING, &TREE};
static const struct document *const PATCH_IMAGE[] = {&SOURCE, &TARGET, &EMBEDDING, &IMAGE};
static const struct document *const OPERATED[] = {&TABLE, &OPERATIONS};

/* A document of the patch, or that table or its operations, given to an entry in the place `at`, and what is expected:
   the number of the document, and the answer for the documents as they are. */
static const struct place {
    const char *name;
    enum entry entry;
    const struct document *const *documents;
    int at;
    uint64_t number, value, filler;
    const struct document *written;
} places[] = {
    {"table, source", JUDGE_TABLE, SOURCE_ONLY, 0, LAFINDRY_SOURCE_TABLE, 5, 0, NULL},
    {"table, target", JUDGE_TABLE, TARGET_ONLY, 0, LAFINDRY_SOURCE_TABLE, 6, 0, NULL},
    {"embedding, source table", JUDGE_EMBEDDING, SETTING, 0, LAFINDRY_SOURCE_TABLE, 5, 0, NULL},
    {"embedding, target table", JUDGE_EMBEDDING, SETTING, 1, LAFINDRY_TARGET_TABLE, 5, 0, NULL},
    {"embedding", JUDGE_EMBEDDING, SETTING, 2, LAFINDRY_EMBEDDING, 5, 0, NULL},
    {"tree, table", JUDGE_TREE, SOURCE_TREE, 0, LAFINDRY_SOURCE_TABLE, 4, 0, NULL},
    {"tree", JUDGE_TREE, SOURCE_TREE, 1, LAFINDRY_TREE, 4, 0, NULL},
    {"carry, source table", CARRY, PATCH, 0, LAFINDRY_SOURCE_TABLE, 21, 1, &IMAGE},
    {"carry, target table", CARRY, PATCH, 1, LAFINDRY_TARGET_TABLE, 21, 1, &IMAGE},
    {"carry, embedding", CARRY, PATCH, 2, LAFINDRY_EMBEDDING, 21, 1, &IMAGE},
    {"carry, tree", CARRY, PATCH, 3, LAFINDRY_TREE, 21, 1, &IMAGE},
    {"bring back, source table", BRING_BACK, PATCH_IMAGE, 0, LAFINDRY_SOURCE_TABLE, 15, 0, &TREE},
    {"bring back, target table", BRING_BACK, PATCH_IMAGE, 1, LAFINDRY_TARGET_TABLE, 15, 0, &TREE},
    {"bring back, embedding", BRING_BACK, PATCH_IMAGE, 2, LAFINDRY_EMBEDDING, 15, 0, &TREE},
    {"bring back, tree", BRING_BACK, PATCH_IMAGE, 3, LAFINDRY_TREE, 15, 0, &TREE},
    {"read along, source table", READ_ALONG, PATCH_IMAGE, 0, LAFINDRY_SOURCE_TABLE, 15, 1, &TREE},
    {"read along, target table", READ_ALONG, PATCH_IMAGE, 1, LAFINDRY_TARGET_TABLE, 15, 1, &TREE},
    {"read along, embedding", READ_ALONG, PATCH_IMAGE, 2, LAFINDRY_EMBEDDING, 15, 1, &TREE},
    {"read along, tree", READ_ALONG, PATCH_IMAGE, 3, LAFINDRY_TREE, 15, 1, &TREE},
    {"extend, table", EXTEND_TABLE, OPERATED, 0, LAFINDRY_SOURCE_TABLE, 32, 0, &REPORT},
    {"extend, operations", EXTEND_TABLE, OPERATED, 1, LAFINDRY_OPERATIONS, 32, 0, &REPORT},
    {"explain, source table", EXPLAIN_CLASH, SETTING, 0, LAFINDRY_SOURCE_TABLE, 5, 0, NULL},
    {"explain, target table", EXPLAIN_CLASH, SETTING, 1, LAFINDRY_TARGET_TABLE, 5, 0, NULL},
    {"explain, embedding", EXPLAIN_CLASH, SETTING, 2, LAFINDRY_EMBEDDING, 5, 0, NULL},
};

enum { PLACES = sizeof places / sizeof places[0] };

/* For each place the tally of all changes of one byte, as the reference answers them; tests/reference/tests/changes.rs
   compares. No change makes two paths of the patch clash. */
static const struct tally by_reference[] = {
#include "changes.inc"
};

enum { TALLIES = sizeof by_reference / sizeof by_reference[0] };
_Static_assert(TALLIES + 3 == PLACES, "a tally for each place, those of explanations aside");

/* The tally of a place. Explaining answers as judging the embedding does, so its places, which are the last, have the
   tallies of that. */
static const struct tally *stored_tally(int place)
{
    enum { FIRST_OF_EMBEDDING = 2 };
    return &by_reference[place < TALLIES ? place : place - TALLIES + FIRST_OF_EMBEDDING];
}

/* The length of output lent with changed documents, and with a changed table or operations; some of their images and
   reports are longer. */
enum { PLACE_ROOM = 22, REPORT_ROOM = 33 };

static size_t room_of(enum entry entry)
{
    if (!writes(entry))
        return 0;
    return entry == EXTEND_TABLE ? REPORT_ROOM : PLACE_ROOM;
}

/* The call of a place with another document there. */
static struct call call_with(const struct place *place, struct document document)
{
    struct call call = {.entry = place->entry, .room = room_of(place->entry)};
    for (int i = 0; i < documents_of(place->entry); i++)
        call.documents[i] = *place->documents[i];
    call.documents[place->at] = document;
    return call;
}

/* Whether the document of a place is an image to bring back. */
static int is_image(const struct place *place) { return place->entry == BRING_BACK && place->at == 3; }

/* What is expected of the documents as they are. */
static struct expected as_they_are(const struct place *place)
{
    struct lafindry_answer answer = accepted(place->value);
    answer.filler = place->filler;
    return (struct expected){.answer = answer, .written = place->written == NULL ? NO_BYTES : *place->written};
}

/* The length of the whole commands that a document begins with. */
static size_t whole_commands(struct document document)
{
    size_t end = 0;
    while (end < document.length) {
        uint8_t code = document.bytes[end];
        int has_operand = code == 0x14 || code == 0x15 || code == 0x20 || code == 0x22 || code == 0x30 || code == 0x31;
        size_t next = end + (has_operand ? 2 : 1);
        if (next > document.length)
            break;
        end = next;
    }
    return end;
}

/* A beginning lacks the command that ends the document; it is refused where its bytes run out. The first one of each
   document is empty, and lent as a pointer to an inaccessible page. Operations have no such command. */
static void beginnings(void)
{
    begin_group("beginnings of the documents");
    for (int i = 0; i < PLACES; i++) {
        const struct place *place = &places[i];
        struct document beginning = *place->documents[place->at];
        expect_at(place->name, beginning.length, as_they_are(place), call_with(place, beginning));
        if (place->number == LAFINDRY_OPERATIONS)
            continue;
        while (beginning.length > 0) {
            beginning.length--;
            changed_images += is_image(place);
            struct lafindry_answer answer = refused(LAFINDRY_BAD_FORM, place->number, whole_commands(beginning));
            expect_at(place->name, beginning.length, only(answer), call_with(place, beginning));
        }
    }
    end_group();
}

/* Empty documents given as null pointers, and an output of no bytes. */
static void null_pointers(void)
{
    const uint8_t *s = SOURCE.bytes, *t = TARGET.bytes, *e = EMBEDDING.bytes, *tree = TREE.bytes;
    const size_t sn = SOURCE.length, tn = TARGET.length, en = EMBEDDING.length, treen = TREE.length;
    const struct {
        struct lafindry_answer expected, got;
    } cases[] = {
        {refused(LAFINDRY_BAD_FORM, LAFINDRY_SOURCE_TABLE, 0), lafindry_judge_table(NULL, 0)},
        {refused(LAFINDRY_BAD_FORM, LAFINDRY_SOURCE_TABLE, 0), lafindry_judge_embedding(NULL, 0, NULL, 0, NULL, 0)},
        {refused(LAFINDRY_BAD_FORM, LAFINDRY_TARGET_TABLE, 0), lafindry_judge_embedding(s, sn, NULL, 0, NULL, 0)},
        {refused(LAFINDRY_BAD_FORM, LAFINDRY_EMBEDDING, 0), lafindry_judge_embedding(s, sn, t, tn, NULL, 0)},
        {refused(LAFINDRY_BAD_FORM, LAFINDRY_SOURCE_TABLE, 0), lafindry_judge_tree(NULL, 0, NULL, 0)},
        {refused(LAFINDRY_BAD_FORM, LAFINDRY_TREE, 0), lafindry_judge_tree(s, sn, NULL, 0)},
        {refused(LAFINDRY_BAD_FORM, LAFINDRY_SOURCE_TABLE, 0),
         lafindry_carry(NULL, 0, NULL, 0, NULL, 0, NULL, 0, NULL, 0)},
        {refused(LAFINDRY_BAD_FORM, LAFINDRY_TREE, 0), lafindry_carry(s, sn, t, tn, e, en, NULL, 0, NULL, 0)},
        {refused(LAFINDRY_OUTPUT_TOO_SHORT, LAFINDRY_OUTPUT, 0),
         lafindry_carry(s, sn, t, tn, e, en, tree, treen, NULL, 0)},
        {refused(LAFINDRY_BAD_FORM, LAFINDRY_SOURCE_TABLE, 0),
         lafindry_bring_back(NULL, 0, NULL, 0, NULL, 0, NULL, 0, NULL, 0)},
        {refused(LAFINDRY_OUTPUT_TOO_SHORT, LAFINDRY_OUTPUT, 0),
         lafindry_bring_back(s, sn, t, tn, e, en, IMAGE.bytes, IMAGE.length, NULL, 0)},
        {refused(LAFINDRY_BAD_FORM, LAFINDRY_SOURCE_TABLE, 0),
         lafindry_read_along(NULL, 0, NULL, 0, NULL, 0, NULL, 0, NULL, 0)},
        {refused(LAFINDRY_BAD_FORM, LAFINDRY_TREE, 0), lafindry_read_along(s, sn, t, tn, e, en, NULL, 0, NULL, 0)},
        {refused(LAFINDRY_OUTPUT_TOO_SHORT, LAFINDRY_OUTPUT, 0),
         lafindry_read_along(s, sn, t, tn, e, en, IMAGE.bytes, IMAGE.length, NULL, 0)},
        {refused(LAFINDRY_BAD_FORM, LAFINDRY_SOURCE_TABLE, 0), lafindry_extend_table(NULL, 0, NULL, 0, NULL, 0)},
        {refused(LAFINDRY_OUTPUT_TOO_SHORT, LAFINDRY_OUTPUT, 0), lafindry_extend_table(s, sn, NULL, 0, NULL, 0)},
        {accepted(0), accepted(lafindry_decimal(0, NULL, 0))},
        {accepted(0), accepted(lafindry_decimal(UINT64_MAX, NULL, 0))},
    };

    begin_group("null pointers with length 0");
    for (size_t i = 0; i < sizeof cases / sizeof cases[0]; i++) {
        if (same_answer(cases[i].expected, cases[i].got)) {
            passed++;
        } else if (fail()) {
            printf("\n  case %zu:", i);
            print_answer("expected", cases[i].expected);
            print_answer("answered", cases[i].got);
        }
    }
    end_group();
}

/* Whether a clash is explained exactly where there is one, with its numbers in their ranges. */
static int is_explained_right(enum entry entry, const struct result *result)
{
    const struct clash none = {0}, clash = result->clash;
    if (entry != EXPLAIN_CLASH || result->answer.refusal != LAFINDRY_PATH_CLASH)
        return same_clash(clash, none);
    return clash.reason >= LAFINDRY_EQUAL_PATHS && clash.reason <= LAFINDRY_PARTS_AT_SEQUENCE &&
           clash.source_type < 64 && clash.earlier >= 1 && clash.earlier < clash.later && clash.later <= 16 &&
           clash.shared <= 12;
}

/* Whether an entry can refuse a document of this number. */
static int is_document(enum entry entry, uint64_t number)
{
    return (number >= LAFINDRY_SOURCE_TABLE && number <= LAFINDRY_OUTPUT) ||
           (entry == EXTEND_TABLE && number == LAFINDRY_OPERATIONS);
}

/* Whether the fields that don't apply are 0, and the others in their ranges. */
static int is_well_formed(enum entry entry, const struct result *result)
{
    const struct lafindry_answer answer = result->answer;
    if (!is_explained_right(entry, result))
        return 0;
    if (answer.refusal == LAFINDRY_ACCEPTED)
        return answer.document == 0 && answer.mark == 0 && answer.value > 0 &&
               (answer.filler == 0 || entry == CARRY || entry == READ_ALONG);
    return answer.refusal <= LAFINDRY_UNREADABLE && is_document(entry, answer.document) && answer.value == 0 &&
           answer.filler == 0;
}

static void add_to_tally(struct tally *tally, const struct result *result)
{
    tally->count[result->answer.refusal][result->answer.document]++;
    tally->marks += result->answer.mark;
    tally->values += result->answer.value;
    tally->fillers += result->answer.filler;
    if (result->clash.reason != LAFINDRY_NO_CLASH)
        tally->reasons[result->clash.reason]++;
    for (size_t i = 0; i < result->written.length; i++)
        tally->bytes += (i + 1) * result->written.bytes[i];
}

/* Each byte of the document of a place takes each other value; each answer is looked at alone. */
static struct tally tally_changes(const struct place *place)
{
    const struct document *document = place->documents[place->at];
    uint8_t bytes[64];
    struct tally tally = {0};
    memcpy(bytes, document->bytes, document->length);
    for (size_t at = 0; at < document->length; at++) {
        for (int change = 1; change <= 0xFF; change++) {
            bytes[at] = document->bytes[at] ^ (uint8_t)change;
            struct call call = call_with(place, (struct document){bytes, document->length});
            struct result result = checked_call(&call);
            changed_images += is_image(place);
            if (result.wrong == NULL && is_well_formed(place->entry, &result)) {
                passed++;
                add_to_tally(&tally, &result);
            } else if (fail()) {
                printf("\n  %s, byte %zu set to %02X:", place->name, at, (unsigned)bytes[at]);
                print_answer("answered", result.answer);
                print_clash("with", result.clash);
                printf("%s%s", result.wrong != NULL ? "; " : "", result.wrong != NULL ? result.wrong : "");
            }
        }
        bytes[at] = document->bytes[at];
    }
    return tally;
}

/* Prints how often the reference and the library gave each answer for the changes of a place, and compares. */
static void compare_tallies(const struct place *place, const struct tally *reference, const struct tally *library)
{
    printf("\n  %s:", place->name);
    for (int refusal = 0; refusal <= LAFINDRY_UNREADABLE; refusal++) {
        for (int document = 0; document <= LAFINDRY_OPERATIONS; document++) {
            const unsigned long long expected = reference->count[refusal][document];
            const unsigned long long counted = library->count[refusal][document];
            if (expected == 0 && counted == 0)
                continue;
            if (refusal == 0)
                printf(" accepted %llu/%llu;", expected, counted);
            else
                printf(" %d of document %d %llu/%llu;", refusal, document, expected, counted);
            if (expected == counted)
                passed++;
            else if (fail())
                printf("\n  %s: %d of document %d: %llu by the reference, %llu by the library;", place->name, refusal,
                       document, expected, counted);
        }
    }
    if (reference->marks == library->marks && reference->values == library->values &&
        reference->fillers == library->fillers && reference->bytes == library->bytes &&
        memcmp(reference->reasons, library->reasons, sizeof library->reasons) == 0)
        passed++;
    else if (fail())
        printf("\n  %s: the marks, values, fillers, bytes written or reasons are others", place->name);
}

static void changed_bytes(void)
{
    begin_group("changes of one byte, answers by the reference/by the library");
    for (int i = 0; i < PLACES; i++) {
        const struct tally by_library = tally_changes(&places[i]);
        compare_tallies(&places[i], stored_tally(i), &by_library);
    }
    printf("\n  ");
    end_group();
}

/* Documents at the limits and one beyond. */

struct made {
    uint8_t bytes[ROOM];
    size_t length;
};

/* Adds bytes to a document, so many times. */
static void add(struct made *made, size_t times, struct document part)
{
    for (; times > 0 && part.length > 0; times--) {
        if (made->length + part.length > ROOM) {
            fprintf(stderr, "a document is too long for its buffer\n");
            exit(2);
        }
        memcpy(made->bytes + made->length, part.bytes, part.length);
        made->length += part.length;
    }
}

static struct document document_of(const struct made *made)
{
    return (struct document){made->bytes, made->length};
}

/* A table of so many empty types. */
static struct document many_types(size_t types)
{
    static struct made made;
    made.length = 0;
    add(&made, types, DOCUMENT(0x11));
    add(&made, 1, DOCUMENT(0x1F));
    return document_of(&made);
}

/* A table with a sequence of so many members. */
static struct document many_members(size_t members)
{
    static struct made made;
    made.length = 0;
    add(&made, 1, DOCUMENT(0x12));
    add(&made, members, DOCUMENT(0x15, 0x01));
    add(&made, 1, DOCUMENT(0x11, 0x1F));
    return document_of(&made);
}

/* A target table with a text below so many sequences of one member. */
static struct document nested_sequences(uint8_t sequences)
{
    static struct made made;
    made.length = 0;
    for (int next = 1; next <= sequences; next++)
        add(&made, 1, DOCUMENT(0x12, 0x15, (uint8_t)next));
    add(&made, 1, DOCUMENT(0x10, 0x1F));
    return document_of(&made);
}

/* A table of 64 types whose filler has 16 to the power of 63 elements of the last type alone. */
static struct document tower(void)
{
    static struct made made;
    made.length = 0;
    for (int next = 1; next < 64; next++) {
        add(&made, 1, DOCUMENT(0x12));
        add(&made, 16, DOCUMENT(0x15, (uint8_t)next));
    }
    add(&made, 1, DOCUMENT(0x11, 0x1F));
    return document_of(&made);
}

/* An embedding of a text with a path of so many steps. */
static struct document many_steps(size_t steps)
{
    static struct made made;
    made.length = 0;
    add(&made, 1, DOCUMENT(0x20, 0x00, 0x21));
    add(&made, steps, DOCUMENT(0x22, 0x01));
    add(&made, 1, DOCUMENT(0x2F));
    return document_of(&made);
}

/* A tree of so many levels, each a list of itself. */
static struct document many_levels(size_t levels)
{
    static struct made made;
    made.length = 0;
    add(&made, levels, DOCUMENT(0x30, 0x00));
    add(&made, levels, DOCUMENT(0x32));
    add(&made, 1, DOCUMENT(0x3F));
    return document_of(&made);
}

/* Its image where each list is the member of a sequence, with what stands after each list and before the close of its
   sequence. */
static struct document many_lists(size_t lists, struct document after)
{
    static struct made made;
    made.length = 0;
    add(&made, lists, DOCUMENT(0x30, 0x00, 0x30, 0x01));
    for (; lists > 0; lists--) {
        add(&made, 1, DOCUMENT(0x32));
        add(&made, 1, after);
        add(&made, 1, DOCUMENT(0x32));
    }
    add(&made, 1, DOCUMENT(0x3F));
    return document_of(&made);
}

/* A text of so many characters as the root. */
static struct document text_root(size_t characters)
{
    static struct made made;
    made.length = 0;
    add(&made, 1, DOCUMENT(0x30, 0x00));
    add(&made, characters, DOCUMENT(0x31, 0x41));
    add(&made, 1, DOCUMENT(0x32, 0x3F));
    return document_of(&made);
}

/* A text of so many characters as the first member of the root, with what stands after it. */
static struct document text_member(size_t characters, struct document after)
{
    static struct made made;
    made.length = 0;
    add(&made, 1, DOCUMENT(0x30, 0x00, 0x30, 0x01));
    add(&made, characters, DOCUMENT(0x31, 0x41));
    add(&made, 1, DOCUMENT(0x32));
    add(&made, 1, after);
    add(&made, 1, DOCUMENT(0x32, 0x3F));
    return document_of(&made);
}

static const struct document TEXT = BYTES(0x10, 0x1F);
static const struct document TEXT_IN_SEQUENCE = BYTES(0x12, 0x15, 0x01, 0x10, 0x1F);
static const struct document LIST_OF_ITSELF = BYTES(0x14, 0x00, 0x1F);

/* Whether papers 01 and 02 (N5) allow a character. */
static int is_allowed(uint8_t character)
{
    return character == 0x09 || character == 0x0A || (character >= 0x20 && character <= 0x7E) || character >= 0xA0;
}

/* Each byte as the character of a text, and in a list, which holds none. */
static void all_characters(void)
{
    const struct document embedding = DOCUMENT(0x20, 0x00, 0x21, 0x22, 0x01, 0x2F);

    begin_group("all bytes as characters");
    for (size_t byte = 0; byte <= 0xFF; byte++) {
        const uint8_t character = (uint8_t)byte;
        const int allowed = is_allowed(character);
        const struct document tree = DOCUMENT(0x30, 0x00, 0x31, character, 0x32, 0x3F);
        const struct document image = DOCUMENT(0x30, 0x00, 0x30, 0x01, 0x31, character, 0x32, 0x32, 0x3F);
        const struct expected in_tree = only(refused(LAFINDRY_BAD_OPERAND, LAFINDRY_TREE, 2));
        const struct expected in_image = only(refused(LAFINDRY_BAD_OPERAND, LAFINDRY_TREE, 4));
        const struct expected one_element = only(accepted(1));
        expect_at("text judged, byte", byte, allowed ? one_element : in_tree, judge_tree(TEXT, tree));
        expect_at("text carried, byte", byte, allowed ? written_document(image, 0) : in_tree,
                  carry(TEXT, TEXT_IN_SEQUENCE, embedding, tree, image.length));
        expect_at("text brought back, byte", byte, allowed ? written_document(tree, 0) : in_image,
                  bring_back(TEXT, TEXT_IN_SEQUENCE, embedding, image, tree.length));
        changed_images += !allowed;
        expect_at("text read, byte", byte, allowed ? written_document(tree, 0) : in_image,
                  read_along(TEXT, TEXT_IN_SEQUENCE, embedding, image, tree.length));

        const struct expected unexpected = only(refused(LAFINDRY_UNEXPECTED, LAFINDRY_TREE, 2));
        const struct expected in_list = allowed ? unexpected : in_tree;
        expect_at("list judged, byte", byte, in_list, judge_tree(LIST_OF_ITSELF, tree));
        expect_at("list carried, byte", byte, in_list,
                  carry(LIST_OF_ITSELF, LIST_OF_ITSELF, embedding, tree, ROOM));
        expect_at("list brought back, byte", byte, in_list,
                  changed_image(bring_back(LIST_OF_ITSELF, LIST_OF_ITSELF, embedding, tree, ROOM)));
        expect_at("list read, byte", byte, in_list,
                  read_along(LIST_OF_ITSELF, LIST_OF_ITSELF, embedding, tree, ROOM));
    }
    end_group();
}

static void limits_of_documents(void)
{
    begin_group("limits of documents");
    EXPECT(accepted(64), judge_table(many_types(64)));
    EXPECT(refused(LAFINDRY_OVER_LIMIT, LAFINDRY_SOURCE_TABLE, 64), judge_table(many_types(65)));
    EXPECT(accepted(2), judge_table(many_members(16)));
    EXPECT(refused(LAFINDRY_OVER_LIMIT, LAFINDRY_SOURCE_TABLE, 33), judge_table(many_members(17)));
    EXPECT(accepted(1), judge_embedding(TEXT, nested_sequences(12), many_steps(12)));
    EXPECT(refused(LAFINDRY_OVER_LIMIT, LAFINDRY_EMBEDDING, 27),
           judge_embedding(TEXT, nested_sequences(13), many_steps(13)));
    EXPECT(accepted(128), judge_tree(LIST_OF_ITSELF, many_levels(128)));
    EXPECT(refused(LAFINDRY_OVER_LIMIT, LAFINDRY_TREE, 256), judge_tree(LIST_OF_ITSELF, many_levels(129)));

    /* 60,000 bytes, and 60,001. */
    EXPECT(accepted(1), judge_tree(TEXT, text_root(29998)));
    EXPECT(refused(LAFINDRY_TOO_LONG, LAFINDRY_TREE, 0), judge_tree(TEXT_IN_SEQUENCE, text_member(29997, NO_BYTES)));
    EXPECT(refused(LAFINDRY_OVER_LIMIT, LAFINDRY_SOURCE_TABLE, 64), judge_table(many_types(59999)));
    EXPECT(refused(LAFINDRY_TOO_LONG, LAFINDRY_SOURCE_TABLE, 0), judge_table(many_types(60000)));
    EXPECT(refused(LAFINDRY_TOO_LONG, LAFINDRY_TARGET_TABLE, 0),
           judge_embedding(TEXT, many_types(60000), many_steps(0)));
    EXPECT(refused(LAFINDRY_OVER_LIMIT, LAFINDRY_EMBEDDING, 27), judge_embedding(TEXT, TEXT, many_steps(29998)));
    EXPECT(refused(LAFINDRY_TOO_LONG, LAFINDRY_EMBEDDING, 0), judge_embedding(TEXT, TEXT, many_steps(29999)));
    end_group();
}

static void limits_of_levels(void)
{
    const struct document embedding = DOCUMENT(0x20, 0x00, 0x21, 0x22, 0x01, 0x22, 0x01, 0x2F);
    const struct document sequences = DOCUMENT(0x12, 0x15, 0x01, 0x14, 0x00, 0x1F);
    /* The same with filler of two levels beside each list. */
    const struct document filled = DOCUMENT(0x12, 0x15, 0x01, 0x15, 0x02, 0x14, 0x00, 0x12, 0x15, 0x03, 0x11, 0x1F);
    const struct document filler = DOCUMENT(0x30, 0x02, 0x30, 0x03, 0x32, 0x32);

    begin_group("limits of an image's levels");
    EXPECT_WRITTEN(many_lists(64, NO_BYTES), 0,
                   carry(LIST_OF_ITSELF, sequences, embedding, many_levels(64), 385));
    EXPECT_WRITTEN(many_levels(64), 0,
                   bring_back(LIST_OF_ITSELF, sequences, embedding, many_lists(64, NO_BYTES), 193));
    EXPECT_WRITTEN(many_lists(63, filler), 126, carry(LIST_OF_ITSELF, filled, embedding, many_levels(63), ROOM));
    EXPECT_WRITTEN(many_levels(63), 0, bring_back(LIST_OF_ITSELF, filled, embedding, many_lists(63, filler), ROOM));
    EXPECT_WRITTEN(many_levels(63), 126, read_along(LIST_OF_ITSELF, filled, embedding, many_lists(63, filler), ROOM));
    /* 129 levels. */
    EXPECT(refused(LAFINDRY_IMAGE_TOO_DEEP, LAFINDRY_OUTPUT, 0),
           carry(LIST_OF_ITSELF, filled, embedding, many_levels(64), ROOM));
    EXPECT(refused(LAFINDRY_IMAGE_TOO_DEEP, LAFINDRY_OUTPUT, 0),
           carry(LIST_OF_ITSELF, filled, embedding, many_levels(64), 0));
    EXPECT(refused(LAFINDRY_OVER_LIMIT, LAFINDRY_TREE, 259),
           bring_back(LIST_OF_ITSELF, filled, embedding, many_lists(64, filler), ROOM));
    EXPECT(refused(LAFINDRY_OVER_LIMIT, LAFINDRY_TREE, 259),
           read_along(LIST_OF_ITSELF, filled, embedding, many_lists(64, filler), ROOM));
    end_group();
}

static void limits_of_length(void)
{
    const struct document embedding = DOCUMENT(0x20, 0x00, 0x21, 0x22, 0x01, 0x2F);
    const struct document beside_empty = DOCUMENT(0x12, 0x15, 0x01, 0x15, 0x02, 0x10, 0x11, 0x1F);
    const struct document empty = DOCUMENT(0x30, 0x02, 0x32);

    begin_group("limits of an image's length");
    /* 60,000 bytes. */
    EXPECT_WRITTEN(text_member(29995, empty), 1, carry(TEXT, beside_empty, embedding, text_root(29995), 60000));
    EXPECT(refused(LAFINDRY_OUTPUT_TOO_SHORT, LAFINDRY_OUTPUT, 0),
           carry(TEXT, beside_empty, embedding, text_root(29995), 59999));
    EXPECT_WRITTEN(text_root(29995), 0,
                   bring_back(TEXT, beside_empty, embedding, text_member(29995, empty), 59994));
    EXPECT(refused(LAFINDRY_OUTPUT_TOO_SHORT, LAFINDRY_OUTPUT, 0),
           bring_back(TEXT, beside_empty, embedding, text_member(29995, empty), 59993));
    /* 60,002 bytes, then 59,999 and 60,001. */
    EXPECT(refused(LAFINDRY_IMAGE_TOO_LONG, LAFINDRY_OUTPUT, 0),
           carry(TEXT, beside_empty, embedding, text_root(29996), ROOM));
    EXPECT_WRITTEN(text_member(29996, NO_BYTES), 0,
                   carry(TEXT, TEXT_IN_SEQUENCE, embedding, text_root(29996), ROOM));
    EXPECT(refused(LAFINDRY_IMAGE_TOO_LONG, LAFINDRY_OUTPUT, 0),
           carry(TEXT, TEXT_IN_SEQUENCE, embedding, text_root(29997), ROOM));
    EXPECT(refused(LAFINDRY_IMAGE_TOO_LONG, LAFINDRY_OUTPUT, 0),
           carry(TEXT, TEXT_IN_SEQUENCE, embedding, text_root(29997), 0));
    EXPECT(refused(LAFINDRY_TOO_LONG, LAFINDRY_TREE, 0),
           bring_back(TEXT, TEXT_IN_SEQUENCE, embedding, text_member(29997, NO_BYTES), ROOM));
    EXPECT_WRITTEN(text_root(29995), 1,
                   read_along(TEXT, beside_empty, embedding, text_member(29995, empty), 59994));
    EXPECT(refused(LAFINDRY_OUTPUT_TOO_SHORT, LAFINDRY_OUTPUT, 0),
           read_along(TEXT, beside_empty, embedding, text_member(29995, empty), 59993));
    EXPECT(refused(LAFINDRY_TOO_LONG, LAFINDRY_TREE, 0),
           read_along(TEXT, TEXT_IN_SEQUENCE, embedding, text_member(29997, NO_BYTES), ROOM));
    /* Far longer than could be written in any time. */
    EXPECT(refused(LAFINDRY_IMAGE_TOO_LONG, LAFINDRY_OUTPUT, 0),
           carry(EMPTY_ROOT, tower(), MAPPED_ROOT, EMPTY_TREE, ROOM));
    end_group();
}

/* Why paths clash; paper 02, N9. */

/* What is explained of an embedding: the mark and the clash. Without a reason it is accepted. */
struct marked_clash {
    uint64_t mark;
    struct clash clash;
};

/* An embedding of the source and target of clashes_of: what follows `20 01`, up to the end. */
#define THREE(...) BYTES(0x20, 0x00, 0x21, 0x22, 0x01, 0x20, 0x01, __VA_ARGS__, 0x2F)

/* Paths of three members, and what is explained of them in a choice of either kind and in a sequence. */
static const struct {
    const char *paths;
    struct document embedding;
    struct marked_clash in_choice, in_sequence;
} three_paths[] = {
    {"paths 2, 1.1.1 and 1.1.1, case",
     THREE(0x21, 0x22, 0x02, 0x21, 0x22, 0x01, 0x22, 0x01, 0x22, 0x01, 0x21, 0x22, 0x01, 0x22, 0x01, 0x22, 0x01,
           0x20, 0x05, 0x20, 0x04, 0x20, 0x04),
     {17, {LAFINDRY_EQUAL_PATHS, 1, 2, 3, 3}},
     {17, {LAFINDRY_EQUAL_PATHS, 1, 2, 3, 3}}},
    /* The second is the first that clashes. */
    {"paths 2, 2 and 2, case",
     THREE(0x21, 0x22, 0x02, 0x21, 0x22, 0x02, 0x21, 0x22, 0x02, 0x20, 0x05, 0x20, 0x05, 0x20, 0x05),
     {10, {LAFINDRY_EQUAL_PATHS, 1, 1, 2, 1}},
     {10, {LAFINDRY_EQUAL_PATHS, 1, 1, 2, 1}}},
    {"paths 2, 1.1 and 1.1.2, case",
     THREE(0x21, 0x22, 0x02, 0x21, 0x22, 0x01, 0x22, 0x01, 0x21, 0x22, 0x01, 0x22, 0x01, 0x22, 0x02,
           0x20, 0x05, 0x20, 0x03, 0x20, 0x04),
     {15, {LAFINDRY_EARLIER_BEGINS, 1, 2, 3, 2}},
     {15, {LAFINDRY_EARLIER_BEGINS, 1, 2, 3, 2}}},
    {"paths 1.1.2, 2 and 1.1, case",
     THREE(0x21, 0x22, 0x01, 0x22, 0x01, 0x22, 0x02, 0x21, 0x22, 0x02, 0x21, 0x22, 0x01, 0x22, 0x01,
           0x20, 0x04, 0x20, 0x05, 0x20, 0x03),
     {17, {LAFINDRY_LATER_BEGINS, 1, 1, 3, 2}},
     {17, {LAFINDRY_LATER_BEGINS, 1, 1, 3, 2}}},
    /* Members of a sequence may part at one. */
    {"paths 1.1.1, 2 and 1.1.2, case",
     THREE(0x21, 0x22, 0x01, 0x22, 0x01, 0x22, 0x01, 0x21, 0x22, 0x02, 0x21, 0x22, 0x01, 0x22, 0x01, 0x22, 0x02,
           0x20, 0x04, 0x20, 0x05, 0x20, 0x04),
     {17, {LAFINDRY_PARTS_AT_SEQUENCE, 1, 1, 3, 2}},
     {0, {LAFINDRY_NO_CLASH, 0, 0, 0, 0}}},
    /* The third is a beginning of both others, but in a choice those two clash already. */
    {"paths 1.1, 1.2 and 1, case",
     THREE(0x21, 0x22, 0x01, 0x22, 0x01, 0x21, 0x22, 0x01, 0x22, 0x02, 0x21, 0x22, 0x01,
           0x20, 0x03, 0x20, 0x04, 0x20, 0x02),
     {12, {LAFINDRY_PARTS_AT_SEQUENCE, 1, 1, 2, 1}},
     {17, {LAFINDRY_LATER_BEGINS, 1, 1, 3, 1}}},
};

/* A source sequence whose one member is of this kind, with three empty types as members; and a target with the same
   kind as type 1, from which 1 leads to the sequence 2, 1.1 to the sequence 3, and 1.2, 1.1.1 and 1.1.2 to the empty
   type 4; and 2 to the empty type 5. */
static void clashes_of(const char *name, uint8_t kind)
{
    const struct document source = DOCUMENT(0x12, 0x15, 0x01, kind, 0x15, 0x02, 0x15, 0x03, 0x15, 0x04, 0x11, 0x11,
                                            0x11, 0x1F);
    const struct document target = DOCUMENT(0x12, 0x15, 0x01, kind, 0x15, 0x02, 0x15, 0x05, 0x12, 0x15, 0x03, 0x15,
                                            0x04, 0x12, 0x15, 0x04, 0x15, 0x04, 0x11, 0x11, 0x1F);
    begin_group(name);
    for (size_t i = 0; i < sizeof three_paths / sizeof three_paths[0]; i++) {
        const struct marked_clash e = kind == 0x12 ? three_paths[i].in_sequence : three_paths[i].in_choice;
        const int clashes = e.clash.reason != LAFINDRY_NO_CLASH;
        expect_at(three_paths[i].paths, i,
                  clashes ? explained_clash(e.mark, e.clash) : only(accepted(4)),
                  explain(source, target, three_paths[i].embedding));
    }
    end_group();
}

/* Cases of paper 01 and of optional choices, and such as only a choice has. */
static void clashes_of_choices(void)
{
    const struct document choice = DOCUMENT(0x13, 0x15, 0x01, 0x15, 0x02, 0x11, 0x11, 0x1F);
    const struct document three = DOCUMENT(0x13, 0x15, 0x01, 0x15, 0x02, 0x15, 0x03, 0x11, 0x11, 0x11, 0x1F);

    begin_group("worked cases of clashes");
    EXPECT_CLASH(18, LAFINDRY_EQUAL_PATHS, 2, 1, 2, 1,
                 explain(SOURCE, TARGET,
                         DOCUMENT(0x20, 0x00, 0x21, 0x22, 0x01, 0x22, 0x01, 0x21, 0x22, 0x02, 0x20, 0x03, 0x21, 0x20,
                                  0x02, 0x21, 0x22, 0x02, 0x21, 0x22, 0x02, 0x20, 0x05, 0x20, 0x05, 0x2F)));
    EXPECT_CLASH(7, LAFINDRY_PARTS_AT_SEQUENCE, 0, 1, 2, 0,
                 explain(choice,
                         DOCUMENT(0x12, 0x15, 0x01, 0x15, 0x01, 0x13, 0x15, 0x02, 0x15, 0x03, 0x11, 0x11, 0x1F),
                         DOCUMENT(0x20, 0x00, 0x21, 0x22, 0x01, 0x22, 0x01, 0x21, 0x22, 0x02, 0x22, 0x01, 0x20, 0x02,
                                  0x20, 0x02, 0x2F)));

    /* Paths that part before their first choice: nothing to explain for an optional choice. */
    EXPECT(accepted(3), explain(OPTIONAL_ROOT, TWO_OPTIONAL, INTO_SECOND));
    EXPECT(refused(LAFINDRY_WRONG_STEPS, LAFINDRY_EMBEDDING, 7), explain(OPTIONAL_ROOT, TWO_OPTIONAL, INTO_BOTH));
    EXPECT_CLASH(7, LAFINDRY_PARTS_AT_SEQUENCE, 0, 1, 2, 0,
                 explain(DOCUMENT(0x13, 0x15, 0x01, 0x15, 0x02, 0x10, 0x11, 0x1F), TWO_OPTIONAL, INTO_BOTH));

    /* 1.1, 1.2 and 1, where 1 leads from a choice to a choice: the third is a beginning of both others. */
    EXPECT_CLASH(12, LAFINDRY_LATER_BEGINS, 0, 1, 3, 1,
                 explain(three, DOCUMENT(0x13, 0x15, 0x01, 0x15, 0x02, 0x13, 0x15, 0x02, 0x15, 0x03, 0x11, 0x11, 0x1F),
                         DOCUMENT(0x20, 0x00, 0x21, 0x22, 0x01, 0x22, 0x01, 0x21, 0x22, 0x01, 0x22, 0x02, 0x21, 0x22,
                                  0x01, 0x20, 0x02, 0x20, 0x03, 0x20, 0x01, 0x2F)));
    /* 1.1.1 and 1.1.2, where 1 leads from a choice to a list of sequences. */
    EXPECT_CLASH(9, LAFINDRY_PARTS_AT_SEQUENCE, 0, 1, 2, 2,
                 explain(choice, DOCUMENT(0x13, 0x15, 0x01, 0x15, 0x02, 0x14, 0x03, 0x11, 0x12, 0x15, 0x02, 0x15, 0x02,
                                          0x1F),
                         DOCUMENT(0x20, 0x00, 0x21, 0x22, 0x01, 0x22, 0x01, 0x22, 0x01, 0x21, 0x22, 0x01, 0x22, 0x01,
                                  0x22, 0x02, 0x20, 0x02, 0x20, 0x02, 0x2F)));
    end_group();
}

/* The last two of 16 members of the last of 64 types have equal paths of 12 steps. */
static void greatest_clash(void)
{
    static struct made source, target, embedding;
    add(&source, 63, DOCUMENT(0x11));
    add(&source, 1, DOCUMENT(0x12));
    add(&source, 16, DOCUMENT(0x15, 0x00));
    add(&source, 1, DOCUMENT(0x1F));
    /* A sequence of lists of itself. */
    add(&target, 1, DOCUMENT(0x12));
    add(&target, 16, DOCUMENT(0x15, 0x01));
    add(&target, 1, DOCUMENT(0x14, 0x00, 0x1F));
    add(&embedding, 64, DOCUMENT(0x20, 0x00));
    for (int member = 1; member <= 16; member++) {
        add(&embedding, 1, DOCUMENT(0x21));
        add(&embedding, 6, DOCUMENT(0x22, (uint8_t)(member < 16 ? member : 15), 0x22, 0x01));
    }
    add(&embedding, 1, DOCUMENT(0x2F));

    begin_group("a clash with the greatest numbers");
    EXPECT_CLASH(503, LAFINDRY_EQUAL_PATHS, 63, 15, 16, 12,
                 explain(document_of(&source), document_of(&target), document_of(&embedding)));
    end_group();
}

/* A table refused in the place of the patch's source table, and of its target table. */
static void expect_table_refused(uint64_t refusal, uint64_t mark, struct document table)
{
    expect_at("source table, refusal", refusal, only(refused(refusal, LAFINDRY_SOURCE_TABLE, mark)),
              explain(table, TARGET, EMBEDDING));
    expect_at("target table, refusal", refusal, only(refused(refusal, LAFINDRY_TARGET_TABLE, mark)),
              explain(SOURCE, table, EMBEDDING));
}

/* Nothing to explain: accepted, and each refusal of each document but 10. */
static void without_clash(void)
{
    begin_group("embeddings without a clash");
    EXPECT(accepted(5), explain(SOURCE, TARGET, EMBEDDING));
    EXPECT(accepted(1), explain(TEXT, nested_sequences(12), many_steps(12)));
    expect_table_refused(LAFINDRY_TOO_LONG, 0, many_types(60000));
    expect_table_refused(LAFINDRY_BAD_FORM, 0, NO_BYTES);
    expect_table_refused(LAFINDRY_BAD_FORM, 1, DOCUMENT(0x12, 0x1F));
    expect_table_refused(LAFINDRY_OVER_LIMIT, 64, many_types(65));
    expect_table_refused(LAFINDRY_OVER_LIMIT, 64, many_types(59999));
    expect_table_refused(LAFINDRY_OVER_LIMIT, 33, many_members(17));
    expect_table_refused(LAFINDRY_BAD_OPERAND, 0, DOCUMENT(0x14, 0x01, 0x1F));
    expect_table_refused(LAFINDRY_REPEATED_MEMBER, 3, DOCUMENT(0x13, 0x15, 0x01, 0x15, 0x01, 0x11, 0x1F));
    expect_table_refused(LAFINDRY_NO_FINITE_INSTANCE, 1, DOCUMENT(0x11, 0x12, 0x15, 0x01, 0x1F));

    EXPECT(refused(LAFINDRY_TOO_LONG, LAFINDRY_EMBEDDING, 0), explain(TEXT, TEXT, many_steps(29999)));
    EXPECT(refused(LAFINDRY_BAD_FORM, LAFINDRY_EMBEDDING, 0), explain(TEXT, TEXT, NO_BYTES));
    EXPECT(refused(LAFINDRY_BAD_FORM, LAFINDRY_EMBEDDING, 2), explain(TEXT, TEXT, DOCUMENT(0x20, 0x00, 0x2F)));
    EXPECT(refused(LAFINDRY_OVER_LIMIT, LAFINDRY_EMBEDDING, 27), explain(TEXT, nested_sequences(13), many_steps(13)));
    EXPECT(refused(LAFINDRY_OVER_LIMIT, LAFINDRY_EMBEDDING, 27), explain(TEXT, TEXT, many_steps(29998)));
    EXPECT(refused(LAFINDRY_BAD_OPERAND, LAFINDRY_EMBEDDING, 3), explain(TEXT, TEXT, many_steps(1)));
    EXPECT(refused(LAFINDRY_ROOT_MOVED, LAFINDRY_EMBEDDING, 0),
           explain(TEXT, TEXT_IN_SEQUENCE, DOCUMENT(0x20, 0x01, 0x21, 0x2F)));
    EXPECT(refused(LAFINDRY_WRONG_END, LAFINDRY_EMBEDDING, 2), explain(TEXT, TEXT_IN_SEQUENCE, many_steps(0)));
    /* A member of a sequence whose path has no step; so has the other's, but 9 comes before 10. */
    EXPECT(refused(LAFINDRY_WRONG_STEPS, LAFINDRY_EMBEDDING, 2),
           explain(DOCUMENT(0x12, 0x15, 0x01, 0x15, 0x01, 0x11, 0x1F), EMPTY_ROOT,
                   DOCUMENT(0x20, 0x00, 0x21, 0x21, 0x20, 0x00, 0x2F)));
    /* The source table is judged before the target table, and both before the embedding. */
    EXPECT(refused(LAFINDRY_BAD_FORM, LAFINDRY_SOURCE_TABLE, 0), explain(NO_BYTES, NO_BYTES, NO_BYTES));
    EXPECT(refused(LAFINDRY_BAD_FORM, LAFINDRY_TARGET_TABLE, 0), explain(SOURCE, NO_BYTES, NO_BYTES));
    end_group();
}

/* Empty documents given as null pointers. */
static void null_pointers_explained(void)
{
    const uint8_t *s = SOURCE.bytes, *t = TARGET.bytes;
    const struct {
        uint64_t document;
        struct lafindry_explanation got;
    } cases[] = {
        {LAFINDRY_SOURCE_TABLE, lafindry_explain_clash(NULL, 0, NULL, 0, NULL, 0)},
        {LAFINDRY_TARGET_TABLE, lafindry_explain_clash(s, SOURCE.length, NULL, 0, NULL, 0)},
        {LAFINDRY_EMBEDDING, lafindry_explain_clash(s, SOURCE.length, t, TARGET.length, NULL, 0)},
    };

    begin_group("null pointers with length 0, explained");
    for (size_t i = 0; i < sizeof cases / sizeof cases[0]; i++) {
        const struct expected expected = only(refused(LAFINDRY_BAD_FORM, cases[i].document, 0));
        const struct result got = explained(cases[i].got);
        if (same_answer(got.answer, expected.answer) && same_clash(got.clash, expected.clash)) {
            passed++;
        } else if (fail()) {
            printf("\n  case %zu:", i);
            print_answer("answered", got.answer);
            print_clash("with", got.clash);
        }
    }
    end_group();
}

/* The paths 1.2, 2.1.1, 3.1 and 4.1.1 from a choice of four sequences, each of twice an optional choice of itself. All
   end at that type, so each step may become another; where a first step does, two paths clash. */
static const struct document FOUR = BYTES(0x13, 0x15, 0x01, 0x15, 0x02, 0x15, 0x03, 0x15, 0x04, 0x11, 0x11, 0x11, 0x11,
                                          0x1F);
static const struct document FOUR_SEQUENCES =
    BYTES(0x13, 0x15, 0x01, 0x15, 0x02, 0x15, 0x03, 0x15, 0x04, 0x12, 0x15, 0x05, 0x15, 0x05, 0x12, 0x15, 0x05, 0x15,
          0x05, 0x12, 0x15, 0x05, 0x15, 0x05, 0x12, 0x15, 0x05, 0x15, 0x05, 0x17, 0x15, 0x05, 0x1F);
static const struct document FOUR_PATHS =
    BYTES(0x20, 0x00, 0x21, 0x22, 0x01, 0x22, 0x02, 0x21, 0x22, 0x02, 0x22, 0x01, 0x22, 0x01, 0x21, 0x22, 0x03, 0x22,
          0x01, 0x21, 0x22, 0x04, 0x22, 0x01, 0x22, 0x01, 0x20, 0x05, 0x20, 0x05, 0x20, 0x05, 0x20, 0x05, 0x2F);

/* Changes of one byte that make paths clash. */
static void changed_paths(void)
{
    static const struct document *const setting[] = {&FOUR, &FOUR_SEQUENCES, &FOUR_PATHS};
    const struct place place = {"four paths", EXPLAIN_CLASH, setting, 2, LAFINDRY_EMBEDDING, 4, 0, NULL};
    /* With another first step the first path always parts from another at a sequence, and each of the others from the
       first. The second and fourth can equal each other; the third can begin either, and either can begin with it. */
    static const uint64_t reasons[] = {
        [LAFINDRY_EQUAL_PATHS] = 2,
        [LAFINDRY_EARLIER_BEGINS] = 2,
        [LAFINDRY_LATER_BEGINS] = 2,
        [LAFINDRY_PARTS_AT_SEQUENCE] = 6,
    };

    begin_group("changes of one byte, reasons by hand/by the library");
    expect_at(place.name, 0, as_they_are(&place), call_with(&place, FOUR_PATHS));
    const struct tally tally = tally_changes(&place);
    for (int reason = LAFINDRY_EQUAL_PATHS; reason <= LAFINDRY_PARTS_AT_SEQUENCE; reason++) {
        printf("%d %llu/%llu; ", reason, (unsigned long long)reasons[reason],
               (unsigned long long)tally.reasons[reason]);
        if (tally.reasons[reason] == reasons[reason])
            passed++;
        else if (fail())
            printf("\n  reason %d was given another number of times;", reason);
    }
    /* The second step of each path may be the other one. */
    if (tally.count[LAFINDRY_ACCEPTED][0] == 4)
        passed++;
    else if (fail())
        printf("\n  another number than 4 is accepted;");
    end_group();
}

static void explanations(void)
{
    clashes_of("clashes in a sequence", 0x12);
    clashes_of("clashes in a choice", 0x13);
    clashes_of("clashes in an optional choice", 0x17);
    clashes_of_choices();
    greatest_clash();
    without_clash();
    null_pointers_explained();
    changed_paths();
}

/* Operations on tables; paper 02, N8. */

/* The offsets behind the operations of OPERATIONS, in order; before the first there is 0. */
static const size_t operation_ends[] = {0, 3, 10, 13, 16, 18, 21, 26, 29};

/* The report where only so many of them are carried out: the first lowers type 1, the second appends type 4, and the
   others move nothing. */
static struct document report_after(size_t operations)
{
    static struct made made;
    const struct document kept_last = {REPORT.bytes, KEPT_LAST};
    made.length = 0;
    add(&made, 1, operations == 0 ? KEPT_FIRST : operations == 1 ? KEPT_LOWER : kept_last);
    add(&made, 1, (struct document){REPORT.bytes + KEPT_LAST, 2 * operations});
    return document_of(&made);
}

/* A beginning is carried out where its last operation is whole, and else refused where that begins. */
static void beginnings_of_operations(void)
{
    size_t whole = 0;
    begin_group("beginnings of operations");
    for (struct document beginning = {OPERATIONS.bytes, 0}; beginning.length <= OPERATIONS.length; beginning.length++) {
        if (whole + 1 < sizeof operation_ends / sizeof *operation_ends && operation_ends[whole + 1] == beginning.length)
            whole++;
        const struct lafindry_answer unread = refused(LAFINDRY_BAD_FORM, LAFINDRY_OPERATIONS, operation_ends[whole]);
        expect_at("operations up to", beginning.length,
                  operation_ends[whole] == beginning.length ? written_document(report_after(whole), 0) : only(unread),
                  extend(TABLE, beginning, ROOM));
    }
    end_group();
}

/* An operation that is refused on a table of a choice of 1 and 2, a sequence of 2 and an empty type. */
static const struct {
    uint8_t refusal;
    struct document operation;
} refused_operations[] = {
    /* Bytes that are not exactly one type's own commands: none, an end, two types, a member alone, too few members, an
       operand that is missing, a byte too many, no command. */
    {LAFINDRY_BAD_FORM, BYTES(0x51, 0)},
    {LAFINDRY_BAD_FORM, BYTES(0x51, 1, 0x1F)},
    {LAFINDRY_BAD_FORM, BYTES(0x51, 2, 0x11, 0x1F)},
    {LAFINDRY_BAD_FORM, BYTES(0x51, 2, 0x11, 0x11)},
    {LAFINDRY_BAD_FORM, BYTES(0x51, 2, 0x15, 0x00)},
    {LAFINDRY_BAD_FORM, BYTES(0x51, 1, 0x12)},
    {LAFINDRY_BAD_FORM, BYTES(0x51, 3, 0x13, 0x15, 0x00)},
    {LAFINDRY_BAD_FORM, BYTES(0x51, 1, 0x17)},
    {LAFINDRY_BAD_FORM, BYTES(0x51, 1, 0x14)},
    {LAFINDRY_BAD_FORM, BYTES(0x51, 2, 0x12, 0x15)},
    {LAFINDRY_BAD_FORM, BYTES(0x51, 3, 0x14, 0x00, 0x00)},
    {LAFINDRY_BAD_FORM, BYTES(0x51, 1, 0x16)},
    /* 17 members, none of which exists. */
    {LAFINDRY_OVER_LIMIT, BYTES(0x51, 35, 0x13, 0x15, 9, 0x15, 9, 0x15, 9, 0x15, 9, 0x15, 9, 0x15, 9, 0x15, 9, 0x15, 9,
                                0x15, 9, 0x15, 9, 0x15, 9, 0x15, 9, 0x15, 9, 0x15, 9, 0x15, 9, 0x15, 9, 0x15, 9)},
    /* The new type is type 3; there is no type 4. */
    {LAFINDRY_BAD_OPERAND, BYTES(0x51, 2, 0x14, 0x04)},
    {LAFINDRY_BAD_OPERAND, BYTES(0x51, 5, 0x17, 0x15, 0x04, 0x15, 0x04)},
    {LAFINDRY_REPEATED_MEMBER, BYTES(0x51, 5, 0x13, 0x15, 0x01, 0x15, 0x01)},
    {LAFINDRY_REPEATED_MEMBER, BYTES(0x51, 5, 0x17, 0x15, 0x03, 0x15, 0x03)},
    {LAFINDRY_NO_FINITE_INSTANCE, BYTES(0x51, 3, 0x12, 0x15, 0x03)},
    /* A sequence, an empty type and two types that are not there; the last with a member that is not there either. */
    {LAFINDRY_NO_CHOICE, BYTES(0x52, 0x01, 0x00)},
    {LAFINDRY_NO_CHOICE, BYTES(0x52, 0x02, 0x00)},
    {LAFINDRY_NO_CHOICE, BYTES(0x52, 0x03, 0x00)},
    {LAFINDRY_NO_CHOICE, BYTES(0x52, 0xFF, 0xFF)},
    {LAFINDRY_BAD_OPERAND, BYTES(0x52, 0x00, 0x03)},
    {LAFINDRY_REPEATED_MEMBER, BYTES(0x52, 0x00, 0x02)},
};

/* Each alone, and one after the other; then a member that is accepted. */
static void operations_refused(void)
{
    static struct made operations, report;
    const struct document table = DOCUMENT(0x13, 0x15, 0x01, 0x15, 0x02, 0x12, 0x15, 0x02, 0x11, 0x1F);
    const struct document kept = DOCUMENT(3, 2, 0, 6, 2, 0, 6, 1, 0, 3);
    const size_t count = sizeof refused_operations / sizeof *refused_operations;

    begin_group("refused operations");
    add(&report, 1, kept);
    for (size_t i = 0; i < count; i++) {
        const uint8_t number = refused_operations[i].refusal;
        expect_at("operation", i, written_document(DOCUMENT(3, 2, 0, 6, 2, 0, 6, 1, 0, 3, number, 0), 0),
                  extend(table, refused_operations[i].operation, 12));
        add(&operations, 1, refused_operations[i].operation);
        add(&report, 1, DOCUMENT(number, 0));
    }
    add(&operations, 1, DOCUMENT(0x52, 0x00, 0x00));
    add(&report, 1, DOCUMENT(0, 3));
    EXPECT_WRITTEN(document_of(&report), 0, extend(table, document_of(&operations), ROOM));
    end_group();
}

/* Four sequences of 16 members, each of the next type, and an empty type: the filler of the first, which is this type,
   has more than 60,000 bytes. */
static void add_tower(struct made *made, uint8_t first)
{
    for (int next = first + 1; next <= first + 4; next++) {
        add(made, 1, DOCUMENT(0x12));
        add(made, 16, DOCUMENT(0x15, (uint8_t)next));
    }
    add(made, 1, DOCUMENT(0x11));
}

/* What is kept is lower, longer or no longer held at 60,001; and nothing moves. */
static void operations_accepted(void)
{
    static struct made held;
    add(&held, 1, DOCUMENT(0x13, 0x15, 0x01, 0x15, 0x00));
    add_tower(&held, 1);
    add(&held, 1, DOCUMENT(0x1F));
    /* Type 0 is a choice of 1 and 4; type 2, under type 1, a choice of 3 and 1. */
    const struct document nested =
        DOCUMENT(0x13, 0x15, 0x01, 0x15, 0x04, 0x12, 0x15, 0x02, 0x15, 0x06, 0x13, 0x15, 0x03, 0x15, 0x01, 0x12, 0x15,
                 0x07, 0x12, 0x15, 0x05, 0x12, 0x15, 0x06, 0x11, 0x12, 0x15, 0x06, 0x1F);

    begin_group("accepted operations");
    EXPECT_WRITTEN(DOCUMENT(1, 1, 0, 3), 0, extend(EMPTY_ROOT, NO_BYTES, 4));
    EXPECT_WRITTEN(DOCUMENT(5, 2, 0, 6, 1, 0, 3, 2, 0, 6, 1, 0, 3, 1, 0, 3, 0, 3, 0, 4, 0, 5), 0,
                   extend(CHOICE_OF_ITSELF,
                          DOCUMENT(0x51, 3, 0x12, 0x15, 0x01, 0x51, 1, 0x10, 0x51, 2, 0x14, 0x04), 22));
    EXPECT_WRITTEN(DOCUMENT(8, 4, 0, 12, 5, 0, 18, 4, 0, 12, 3, 0, 9, 3, 0, 9, 2, 0, 6, 1, 0, 3, 2, 0, 6), 0,
                   extend(nested, NO_BYTES, 25));
    /* The height of type 0 stays, and its length grows. */
    EXPECT_WRITTEN(DOCUMENT(8, 4, 0, 15, 3, 0, 12, 2, 0, 6, 3, 0, 9, 3, 0, 9, 2, 0, 6, 1, 0, 3, 2, 0, 6, 0, 8), 0,
                   extend(nested, DOCUMENT(0x52, 0x02, 0x06), 27));
    EXPECT_WRITTEN(DOCUMENT(6, 6, 0xEA, 0x61, 5, 0xEA, 0x61, 4, 0x33, 0x33, 3, 3, 0x33, 2, 0, 0x33, 1, 0, 3), 0,
                   extend(document_of(&held), NO_BYTES, 19));
    EXPECT_WRITTEN(DOCUMENT(6, 2, 0, 6, 5, 0xEA, 0x61, 4, 0x33, 0x33, 3, 3, 0x33, 2, 0, 0x33, 1, 0, 3, 0, 6), 0,
                   extend(document_of(&held), DOCUMENT(0x52, 0x00, 0x05), 21));
    end_group();
}

/* 64 types, and a 65th; 16 members of either kind of choice, and a 17th, which comes after 19. */
static void limits_of_operations(void)
{
    static struct made operations, report, choice;
    begin_group("limits of operations");
    add(&report, 1, DOCUMENT(64));
    add(&report, 64, DOCUMENT(1, 0, 3));
    for (int types = 2; types <= 64; types++)
        add(&report, 1, DOCUMENT(0, (uint8_t)types));
    add(&report, 1, DOCUMENT(LAFINDRY_OVER_LIMIT, 0));
    add(&operations, 64, DOCUMENT(0x51, 1, 0x11));
    EXPECT_WRITTEN(document_of(&report), 0, extend(EMPTY_ROOT, document_of(&operations), ROOM));

    for (int kind = 0x13; kind <= 0x17; kind += 4) {
        operations.length = report.length = choice.length = 0;
        add(&choice, 1, DOCUMENT((uint8_t)kind, 0x15, 0x01, 0x15, 0x02));
        add(&choice, 17, DOCUMENT(0x11));
        add(&choice, 1, DOCUMENT(0x1F));
        add(&report, 1, kind == 0x13 ? DOCUMENT(18, 2, 0, 6) : DOCUMENT(18, 1, 0, 3));
        add(&report, 17, DOCUMENT(1, 0, 3));
        for (int member = 3; member <= 17; member++)
            add(&operations, 1, DOCUMENT(0x52, 0x00, (uint8_t)member));
        add(&report, 14, DOCUMENT(0, 18));
        add(&report, 1, DOCUMENT(LAFINDRY_OVER_LIMIT, 0));
        expect_at("members of kind", (size_t)kind, written_document(document_of(&report), 0),
                  extend(document_of(&choice), document_of(&operations), ROOM));
    }
    EXPECT_WRITTEN(DOCUMENT(2, 2, 0, 51, 1, 0, 3, LAFINDRY_NO_CHOICE, 0), 0,
                   extend(many_members(16), DOCUMENT(0x52, 0x00, 0x01), 9));
    end_group();
}

/* The longest document of operations, types of no bytes, and with it the longest report. */
static void greatest_report(void)
{
    static struct made operations, report;
    add(&operations, LAFINDRY_MOST_BYTES / 2, DOCUMENT(0x51, 0));
    add(&report, 1, DOCUMENT(64));
    add(&report, 64, DOCUMENT(1, 0, 3));
    add(&report, LAFINDRY_MOST_BYTES / 2, DOCUMENT(LAFINDRY_BAD_FORM, 0));

    begin_group("the longest report");
    EXPECT_WRITTEN(document_of(&report), 0,
                   extend(many_types(64), document_of(&operations), LAFINDRY_MOST_REPORT));
    EXPECT(refused(LAFINDRY_OUTPUT_TOO_SHORT, LAFINDRY_OUTPUT, 0),
           extend(many_types(64), document_of(&operations), LAFINDRY_MOST_REPORT - 1));
    /* The last operation without its length, and one byte more. */
    operations.length--;
    EXPECT(refused(LAFINDRY_BAD_FORM, LAFINDRY_OPERATIONS, LAFINDRY_MOST_BYTES - 2),
           extend(many_types(64), document_of(&operations), ROOM));
    add(&operations, 2, DOCUMENT(0));
    EXPECT(refused(LAFINDRY_TOO_LONG, LAFINDRY_OPERATIONS, 0),
           extend(many_types(64), document_of(&operations), ROOM));
    end_group();
}

/* A table is judged before operations, and both before the output. */
static void order_of_refusals(void)
{
    const struct {
        uint64_t refusal, mark;
        struct document table;
    } tables[] = {
        {LAFINDRY_BAD_FORM, 0, {NULL, 0}},
        {LAFINDRY_BAD_OPERAND, 0, BYTES(0x14, 0x01, 0x1F)},
        {LAFINDRY_REPEATED_MEMBER, 3, BYTES(0x13, 0x15, 0x01, 0x15, 0x01, 0x11, 0x1F)},
        {LAFINDRY_NO_FINITE_INSTANCE, 0, BYTES(0x12, 0x15, 0x00, 0x1F)},
    };
    static struct made made;
    add(&made, ROOM, DOCUMENT(0x52));
    const struct document too_long = document_of(&made);

    begin_group("refused tables and operations");
    for (size_t i = 0; i < sizeof tables / sizeof tables[0]; i++)
        expect_at("table", i, only(refused(tables[i].refusal, LAFINDRY_SOURCE_TABLE, tables[i].mark)),
                  extend(tables[i].table, too_long, 0));
    EXPECT(refused(LAFINDRY_OVER_LIMIT, LAFINDRY_SOURCE_TABLE, 64), extend(many_types(65), too_long, 0));
    EXPECT(refused(LAFINDRY_TOO_LONG, LAFINDRY_SOURCE_TABLE, 0), extend(many_types(60000), too_long, 0));
    EXPECT(refused(LAFINDRY_TOO_LONG, LAFINDRY_OPERATIONS, 0), extend(TABLE, too_long, 0));
    EXPECT(refused(LAFINDRY_BAD_FORM, LAFINDRY_OPERATIONS, 3), extend(TABLE, DOCUMENT(0x52, 0x00, 0x00, 0x53), 0));
    end_group();
}

/* The report into all lengths of output around its own, and longer ones. */
static void lengths_for_reports(void)
{
    const struct expected too_short = only(refused(LAFINDRY_OUTPUT_TOO_SHORT, LAFINDRY_OUTPUT, 0));
    begin_group("lengths of output for a report");
    for (size_t room = 0; room <= ROOM; room += room < 40 ? 1 : 5005)
        expect_at("reported into", room, room < REPORT.length ? too_short : written_document(REPORT, 0),
                  extend(TABLE, OPERATIONS, room));
    end_group();
}

static void operations_on_tables(void)
{
    beginnings_of_operations();
    operations_refused();
    operations_accepted();
    limits_of_operations();
    greatest_report();
    order_of_refusals();
    lengths_for_reports();
}

/* Numbers in decimal: those at which one digit more begins, the greatest length of a document, and the greatest numbers
   of all. */
static const struct {
    uint64_t number;
    const char *digits;
} numbers[] = {
    {0, "0"},
    {1, "1"},
    {9, "9"},
    {10, "10"},
    {99, "99"},
    {100, "100"},
    {101, "101"},
    {999, "999"},
    {1000, "1000"},
    {9999, "9999"},
    {10000, "10000"},
    {59999, "59999"},
    {LAFINDRY_MOST_BYTES, "60000"},
    {65536, "65536"},
    {99999, "99999"},
    {100000, "100000"},
    {1234567890, "1234567890"},
    {UINT32_MAX, "4294967295"},
    {UINT32_MAX + UINT64_C(1), "4294967296"},
    {INT64_MAX, "9223372036854775807"},
    {UINT64_C(9999999999999999999), "9999999999999999999"},
    {UINT64_C(10000000000000000000), "10000000000000000000"},
    {UINT64_MAX - 1, "18446744073709551614"},
    {UINT64_MAX, "18446744073709551615"},
};

/* Each of them into all lengths of output up to some more than is ever needed, and longer ones. */
static void decimal_numbers(void)
{
    const struct expected too_short = only(accepted(0));
    unsigned long cases = 0;
    begin_group("numbers in decimal");
    for (size_t i = 0; i < sizeof numbers / sizeof numbers[0]; i++) {
        const char *text = numbers[i].digits;
        const struct document digits = {(const uint8_t *)text, strlen(text)};
        char name[LAFINDRY_MOST_DIGITS + sizeof " into"];
        snprintf(name, sizeof name, "%s into", text);
        for (size_t room = 0; room <= ROOM; room += room < LAFINDRY_MOST_DIGITS + 4 ? 1 : 20025, cases++)
            expect_at(name, room, room < digits.length ? too_short : written_document(digits, 0),
                      decimal(numbers[i].number, room));
    }
    printf("%lu cases; ", cases);
    end_group();
}

/* 5,355 images with a byte changed and 21 cut off, 63 and 256 with a character that stands wrong, and 4 by hand. */
static void count_of_changed_images(void)
{
    begin_group("altered or damaged images brought back");
    printf("%lu; ", changed_images);
    if (changed_images == 5355 + 21 + 63 + 256 + 4)
        passed++;
    else if (fail())
        printf("not as many as there were");
    end_group();
}

int main(void)
{
    map_buffers();
    worked_judging_cases();
    worked_writing_cases();
    optional_cases();
    reading_cases();
    output_lengths();
    beginnings();
    null_pointers();
    changed_bytes();
    all_characters();
    limits_of_documents();
    limits_of_levels();
    limits_of_length();
    explanations();
    operations_on_tables();
    decimal_numbers();
    count_of_changed_images();
    printf("%lu passed, %lu failed\n", passed, failed);
    return failed == 0 ? 0 : 1;
}
