/*
 * A start for a desktop editor: loads a source table, a target table, an embedding and a tree, judges them, carries the
 * tree, brings its image back and compares. Where a fifth file is given, the image as it was edited on the larger unit,
 * it reads that along the paths. Every refusal is printed in words; where two paths of the embedding clash, a second
 * line says which and why, and where an edited image can't be read, which element that is about.
 *
 *     editor [SOURCE-TABLE TARGET-TABLE EMBEDDING TREE [EDITED-IMAGE]]
 *
 * Without files it takes those of examples/patch. It ends with 0 where the tree came back and the edited image, if
 * there is one, was read, 1 after a refusal, and 2 where it could not do its work.
 */
#include "lafindry.h"

#include <inttypes.h>
#include <stdio.h>
#include <string.h>

enum { DONE = 0, REFUSED = 1, FAILED = 2 };

/* A loaded file. One byte more than a document may have is kept, so that the library can refuse what is too long. */
struct document {
    const char *file;
    uint8_t bytes[LAFINDRY_MOST_BYTES + 1];
    size_t length;
};

/* The documents by their numbers less 1, and the two outputs. They are large, so they don't stand on the stack. */
static struct document documents[4] = {
    {.file = "examples/patch/s1"},
    {.file = "examples/patch/s2"},
    {.file = "examples/patch/em"},
    {.file = "examples/patch/tr"},
};
static uint8_t image[LAFINDRY_MOST_BYTES], source[LAFINDRY_MOST_BYTES];

/* The edited image, which is document 4 where it is read; it has no file where none is given. */
static struct document edited;

static const char *const names[] = {
    [LAFINDRY_SOURCE_TABLE] = "source table", [LAFINDRY_TARGET_TABLE] = "target table",
    [LAFINDRY_EMBEDDING] = "embedding",       [LAFINDRY_TREE] = "tree",
    [LAFINDRY_OUTPUT] = "output",
};

/* What a refusal's mark counts. */
enum mark { NOTHING, BYTES, TYPES };

static const struct {
    enum mark mark;
    const char *words;
} refusals[] = {
    [LAFINDRY_TOO_LONG] = {NOTHING, "longer than 60,000 bytes"},
    [LAFINDRY_BAD_FORM] = {BYTES, "no command that can stand there, or the bytes run out"},
    [LAFINDRY_OVER_LIMIT] = {BYTES, "a type, member, step or level too many"},
    [LAFINDRY_BAD_OPERAND] = {BYTES, "no such type, no such step, or a character that is not allowed"},
    [LAFINDRY_REPEATED_MEMBER] = {BYTES, "a choice names a type twice"},
    [LAFINDRY_NO_FINITE_INSTANCE] = {TYPES, "the type has no finite instance"},
    [LAFINDRY_ROOT_MOVED] = {NOTHING, "the root is not mapped to the root"},
    [LAFINDRY_WRONG_END] = {BYTES, "the path ends at the wrong type"},
    [LAFINDRY_WRONG_STEPS] = {BYTES, "the path has the wrong kind of steps, or too few"},
    [LAFINDRY_PATH_CLASH] = {BYTES, "the path clashes with an earlier one of the same type"},
    [LAFINDRY_UNEXPECTED] = {BYTES, "no conforming tree goes on like this"},
    [LAFINDRY_IMAGE_TOO_DEEP] = {NOTHING, "the image would have more than 128 levels"},
    [LAFINDRY_IMAGE_TOO_LONG] = {NOTHING, "the image would be longer than 60,000 bytes"},
    [LAFINDRY_OUTPUT_TOO_SHORT] = {NOTHING, "too short for what would be written"},
    [LAFINDRY_NO_IMAGE] = {NOTHING, "not the image of any source tree"},
    [LAFINDRY_UNREADABLE] = {BYTES, "the paths of the source element that stands here can't be followed"},
};

/* The words for LAFINDRY_WRONG_STEPS where the path belongs to an optional choice, such as of modules that a patch may
   leave out. */
static const char optional_steps[] =
    "a path of an optional choice leads through some choice, the first of them is an optional one, and up to there it "
    "takes the same steps as the first member's path";

/* Why two paths clash, as the end of a sentence about both. */
static const char *const clashes[] = {
    [LAFINDRY_EQUAL_PATHS] = " and are equal, so both members would have the same place",
    [LAFINDRY_EARLIER_BEGINS] =
        ", and the earlier one ends there, so the place of the later member would lie inside that of the earlier",
    [LAFINDRY_LATER_BEGINS] =
        ", and the later one ends there, so the place of the earlier member would lie inside that of the later",
    [LAFINDRY_PARTS_AT_SEQUENCE] =
        " and part at a sequence, which always has all its members, so filler could look like the member that was not "
        "chosen",
};

/* Whether the path at an offset of the embedding belongs to an optional choice of the source table. Both documents have
   passed the checks of form, so each byte that is looked at is a command. */
static int is_of_optional(uint64_t offset)
{
    enum { LIST = 0x14, MEMBER = 0x15, OPTIONAL = 0x17, MAPS_TO = 0x20, PATH = 0x21 };
    const struct document *table = &documents[0], *embedding = &documents[2];
    /* The path's source type is the last that is mapped before it. */
    size_t types = 0;
    for (size_t i = 0; i < offset && i < embedding->length; i += embedding->bytes[i] == PATH ? 1 : 2)
        types += embedding->bytes[i] == MAPS_TO;
    /* Every command of the table but a member begins a type. */
    for (size_t i = 0; i < table->length; i += table->bytes[i] == LIST || table->bytes[i] == MEMBER ? 2 : 1)
        if (table->bytes[i] != MEMBER && --types == 0)
            return table->bytes[i] == OPTIONAL;
    return 0;
}

/* Prints which two paths of the embedding clash and why, in a sentence. */
static void print_clash(void)
{
    const struct document *s = &documents[0], *t = &documents[1], *e = &documents[2];
    struct lafindry_explanation clash =
        lafindry_explain_clash(s->bytes, s->length, t->bytes, t->length, e->bytes, e->length);
    if (clash.reason == LAFINDRY_NO_CLASH || clash.reason >= sizeof clashes / sizeof clashes[0])
        return;
    printf("source type %" PRIu64 ": the paths of members %" PRIu64 " and %" PRIu64 " share ", clash.source_type,
           clash.earlier, clash.later);
    if (clash.shared == 0)
        printf("no step");
    else
        printf("%" PRIu64 " step%s", clash.shared, clash.shared == 1 ? "" : "s");
    printf("%s\n", clashes[clash.reason]);
}

/* Prints of which type the element is that stands for a source element which can't be read, and what it may lack. The
   edited image has passed all checks of a tree, so an element is opened at the mark. */
static void print_unread(uint64_t mark)
{
    if (mark + 1 >= edited.length)
        return;
    printf("the element there is of target type %d: a list on its paths lacks the item that is needed, or no member's "
           "path is there\n",
           edited.bytes[mark + 1]);
}

/* Prints a refusal: the document, document 4 being called so, the place in it if there is one, and the reason; of a
   clash, its explanation too, and of what can't be read, the element. */
static void print_refusal_of(struct lafindry_answer answer, const char *tree)
{
    /* An answer out of range would mean that the header and the library are not of one version. */
    if (answer.refusal >= sizeof refusals / sizeof refusals[0] || answer.document >= sizeof names / sizeof names[0]) {
        printf("refused: an unknown answer\n");
        return;
    }
    printf("refused: %s", answer.document == LAFINDRY_TREE ? tree : names[answer.document]);
    if (refusals[answer.refusal].mark == BYTES)
        printf(", offset %" PRIu64, answer.mark);
    if (refusals[answer.refusal].mark == TYPES)
        printf(", type %" PRIu64, answer.mark);
    int optional = answer.refusal == LAFINDRY_WRONG_STEPS && is_of_optional(answer.mark);
    printf(": %s (refusal %" PRIu64 ")\n", optional ? optional_steps : refusals[answer.refusal].words, answer.refusal);
    if (answer.refusal == LAFINDRY_PATH_CLASH)
        print_clash();
    if (answer.refusal == LAFINDRY_UNREADABLE)
        print_unread(answer.mark);
}

static void print_refusal(struct lafindry_answer answer) { print_refusal_of(answer, names[LAFINDRY_TREE]); }

/* Loads a file; whether that succeeded. */
static int load(struct document *document)
{
    FILE *file = fopen(document->file, "rb");
    if (file == NULL) {
        perror(document->file);
        return 0;
    }
    document->length = fread(document->bytes, 1, sizeof document->bytes, file);
    int good = !ferror(file);
    if (!good)
        perror(document->file);
    if (fclose(file) != 0) {
        perror(document->file);
        good = 0;
    }
    return good;
}

/* Prints what a judge answered about a document; whether it was accepted. */
static int judged(struct lafindry_answer answer, uint64_t number, const char *counted)
{
    if (answer.refusal != LAFINDRY_ACCEPTED) {
        print_refusal(answer);
        return 0;
    }
    const struct document *document = &documents[number - 1];
    printf("%s: %s, %zu bytes, %" PRIu64 " %s\n", names[number], document->file, document->length, answer.value,
           counted);
    return 1;
}

/* Judges the target table. A table that is judged alone is document 1 in a refusal; here it is document 2. */
static struct lafindry_answer judge_target(const struct document *table)
{
    struct lafindry_answer answer = lafindry_judge_table(table->bytes, table->length);
    if (answer.refusal != LAFINDRY_ACCEPTED)
        answer.document = LAFINDRY_TARGET_TABLE;
    return answer;
}

/* Judges the four documents in their order; whether all are accepted. An editor would do this when it opens a file;
   carrying and bringing back judge them again. */
static int judge_all(void)
{
    const struct document *s = &documents[0], *t = &documents[1], *e = &documents[2], *tree = &documents[3];
    return judged(lafindry_judge_table(s->bytes, s->length), LAFINDRY_SOURCE_TABLE, "types") &&
           judged(judge_target(t), LAFINDRY_TARGET_TABLE, "types") &&
           judged(lafindry_judge_embedding(s->bytes, s->length, t->bytes, t->length, e->bytes, e->length),
                  LAFINDRY_EMBEDDING, "edges") &&
           judged(lafindry_judge_tree(s->bytes, s->length, tree->bytes, tree->length), LAFINDRY_TREE, "elements");
}

/* Carries the tree, brings its image back and compares; gives the status to end with. */
static int go_there_and_back(void)
{
    const struct document *s = &documents[0], *t = &documents[1], *e = &documents[2], *tree = &documents[3];
    struct lafindry_answer there = lafindry_carry(s->bytes, s->length, t->bytes, t->length, e->bytes, e->length,
                                                  tree->bytes, tree->length, image, sizeof image);
    if (there.refusal != LAFINDRY_ACCEPTED) {
        print_refusal(there);
        return REFUSED;
    }
    printf("image: %" PRIu64 " bytes, filler elements: %" PRIu64 "\n", there.value, there.filler);

    struct lafindry_answer back =
        lafindry_bring_back(s->bytes, s->length, t->bytes, t->length, e->bytes, e->length, image, (size_t)there.value,
                            source, sizeof source);
    if (back.refusal != LAFINDRY_ACCEPTED) {
        print_refusal(back);
        return REFUSED;
    }
    int same = back.value == tree->length && memcmp(source, tree->bytes, tree->length) == 0;
    printf("brought back: %" PRIu64 " bytes, %s\n", back.value, same ? "the same as the tree" : "another tree");
    return same ? DONE : FAILED;
}

/* Reads the edited image along the paths; gives the status to end with. */
static int read_edited(void)
{
    const struct document *s = &documents[0], *t = &documents[1], *e = &documents[2], *tree = &documents[3];
    struct lafindry_answer read =
        lafindry_read_along(s->bytes, s->length, t->bytes, t->length, e->bytes, e->length, edited.bytes, edited.length,
                            source, sizeof source);
    if (read.refusal != LAFINDRY_ACCEPTED) {
        print_refusal_of(read, "edited image");
        return REFUSED;
    }
    int same = read.value == tree->length && memcmp(source, tree->bytes, tree->length) == 0;
    printf("edited image: %s, %zu bytes, elements on no followed path: %" PRIu64 "\n", edited.file, edited.length,
           read.filler);
    printf("read along: %" PRIu64 " bytes, %s\n", read.value, same ? "the same as the tree" : "another tree");
    return DONE;
}

int main(int count, char **arguments)
{
    if (count != 1 && count != 5 && count != 6) {
        fprintf(stderr, "usage: editor [SOURCE-TABLE TARGET-TABLE EMBEDDING TREE [EDITED-IMAGE]]\n");
        return FAILED;
    }
    for (int i = 0; i < 4; i++) {
        if (count > 1)
            documents[i].file = arguments[1 + i];
        if (!load(&documents[i]))
            return FAILED;
    }
    if (count == 6) {
        edited.file = arguments[5];
        if (!load(&edited))
            return FAILED;
    }
    int status = judge_all() ? go_there_and_back() : REFUSED;
    if (status == DONE && edited.file != NULL)
        status = read_edited();
    if (fflush(stdout) != 0 || ferror(stdout)) {
        perror("standard output");
        return FAILED;
    }
    return status;
}
