/*
 * Lafindry: judging tables, embeddings and tree documents of paper 01, carrying a source document into its image, and
 * bringing an image back. Tables may have optional choices, for what a document may leave out, the paths of choices
 * may lead through lists, and texts may have accents (paper 02, N3, N6 and N5). A target document that was edited, so
 * that it is no image any more, can be read along the paths (N4). Of an embedding whose paths clash, one function says
 * which two do and why (N9); one appends types and members to a table and reports the height and the filler's length of
 * each type (N8); another writes a number, such as those of an answer, in decimal (N2).
 *
 * Every function takes any bytes or any number and always answers. A document is lent as a pointer and a length;
 * nothing is read beyond it, nothing is kept, and nothing is allocated. A pointer may be anything where its length is
 * 0. The most stack that was measured, on documents of 128 levels and 60,000 bytes, is 549 KB (lafindry_bring_back),
 * 500 KB (lafindry_read_along), 491 KB (lafindry_carry), 81 KB (lafindry_extend_table) and 16 KB (the others), so a
 * thread that calls should have a megabyte.
 *
 * Characters of a tree are bytes of ISO 8859-1: 09, 0A, 20 to 7E and A0 to FF (hexadecimal); others are refused with
 * LAFINDRY_BAD_OPERAND. Bytes of UTF-8 are not recognised as such: turn names into ISO 8859-1 first.
 *
 * The caller's duty, which no function checks: each buffer has the length stated with it, and the output shares no byte
 * with a document.
 */
#ifndef LAFINDRY_H
#define LAFINDRY_H

#include <stddef.h>
#include <stdint.h>

#ifdef __cplusplus
extern "C" {
#endif

/* An answer, by value. Fields that don't apply are 0. */
struct lafindry_answer {
    uint64_t refusal;  /* 0: accepted; else one of the refusals below */
    uint64_t document; /* the refused document, one of the documents below */
    uint64_t mark;     /* where: an offset in that document, or for LAFINDRY_NO_FINITE_INSTANCE a type's number */
    uint64_t value;    /* accepted: the number of types, edges or elements, or the number of bytes written */
    uint64_t filler;   /* accepted by lafindry_carry: the number of the image's filler elements; by lafindry_read_along:
                          the number of elements, the root aside, on no followed path */
};

/*
 * Why an embedding is refused with LAFINDRY_PATH_CLASH, by value. The first five numbers are those of the answer that
 * lafindry_judge_embedding gives. The others name two members of a source type, in the order of the table, and compare
 * their paths; they are 0 where the embedding is accepted or refused for something else.
 */
struct lafindry_explanation {
    uint64_t refusal;     /* as in an answer: LAFINDRY_PATH_CLASH where there is something to explain */
    uint64_t document;    /* as in an answer */
    uint64_t mark;        /* as in an answer: of a clash, the offset of the later member's path */
    uint64_t value;       /* as in an answer: accepted, the number of edges */
    uint64_t filler;      /* as in an answer: 0 */
    uint64_t reason;      /* LAFINDRY_NO_CLASH, or why the paths clash: one of the reasons below */
    uint64_t source_type; /* the source type, counted from 0 */
    uint64_t earlier;     /* the first of its members, counted from 1, whose path the later one's clashes with */
    uint64_t later;       /* the member whose path is marked, counted from 1 */
    uint64_t shared;      /* the number of steps with which both paths begin */
};

/* Reasons for a clash. Of two paths that clash exactly one holds. */
enum {
    LAFINDRY_NO_CLASH = 0,            /* nothing to explain */
    LAFINDRY_EQUAL_PATHS = 1,         /* the paths are equal */
    LAFINDRY_EARLIER_BEGINS = 2,      /* the earlier path is a shorter beginning of the later one */
    LAFINDRY_LATER_BEGINS = 3,        /* the later path is a shorter beginning of the earlier one */
    LAFINDRY_PARTS_AT_SEQUENCE = 4    /* the first step where the paths differ leaves a sequence; for choices only */
};

/* Refusals, by paper 01's numbers. For one document they are tried in this order; LAFINDRY_NO_IMAGE is tried before
   the refusals of the output. LAFINDRY_UNREADABLE and LAFINDRY_NO_CHOICE are paper 02's: the first is tried by
   lafindry_read_along where lafindry_bring_back tries LAFINDRY_NO_IMAGE, the other is answered to an operation, in a
   report, and is tried first there. */
enum {
    LAFINDRY_ACCEPTED = 0,
    LAFINDRY_TOO_LONG = 1,            /* a document is longer than LAFINDRY_MOST_BYTES */
    LAFINDRY_BAD_FORM = 2,            /* a command that can't stand there, or bytes run out */
    LAFINDRY_OVER_LIMIT = 3,          /* 65th type, 17th member, 13th step, 129th level */
    LAFINDRY_BAD_OPERAND = 4,         /* no such type, no such step, character not allowed */
    LAFINDRY_REPEATED_MEMBER = 5,     /* a choice, optional or not, names a type twice */
    LAFINDRY_NO_FINITE_INSTANCE = 6,  /* a type has no finite instance */
    LAFINDRY_ROOT_MOVED = 7,          /* the root is not mapped to the root */
    LAFINDRY_WRONG_END = 8,           /* a path ends at the wrong type */
    LAFINDRY_WRONG_STEPS = 9,         /* a path has the wrong kind of steps, or too few; or, from an optional choice,
                                         the steps before its first choice step are not the type's first path's */
    LAFINDRY_PATH_CLASH = 10,         /* a path clashes with an earlier one of the same type */
    LAFINDRY_UNEXPECTED = 11,         /* no conforming document has this command after the same beginning */
    LAFINDRY_IMAGE_TOO_DEEP = 12,     /* the image to be written has a 129th level */
    LAFINDRY_IMAGE_TOO_LONG = 13,     /* the image to be written is longer than LAFINDRY_MOST_BYTES */
    LAFINDRY_OUTPUT_TOO_SHORT = 14,   /* the output is shorter than what would be written */
    LAFINDRY_NO_IMAGE = 15,           /* the tree to be brought back is the image of no conforming source document */
    LAFINDRY_UNREADABLE = 17,         /* the paths of a source element can't be followed: an item that a list must have
                                         is missing, or no member's path is there */
    LAFINDRY_NO_CHOICE = 19           /* the type to extend doesn't exist or is no choice, optional or not */
};

/* Documents. */
enum {
    LAFINDRY_SOURCE_TABLE = 1, /* the table, where there is one only */
    LAFINDRY_TARGET_TABLE = 2,
    LAFINDRY_EMBEDDING = 3,
    LAFINDRY_TREE = 4,
    LAFINDRY_OUTPUT = 5,
    LAFINDRY_OPERATIONS = 11   /* operations on a table */
};

/* Operations on a table, by the byte that each begins with. What is appended becomes the last. */
enum {
    LAFINDRY_APPEND_TYPE = 0x51,  /* then n and n bytes: append the type whose own commands these bytes are */
    LAFINDRY_APPEND_MEMBER = 0x52 /* then t and m: append a member of type m to type t, a choice, optional or not */
};

/* The greatest length of a document, so that an output of this length is never too short for one. */
enum { LAFINDRY_MOST_BYTES = 60000 };

/* The greatest length of a report, so that an output of this length is never too short for one. It is more than
   LAFINDRY_MOST_BYTES: a report is no document. */
enum { LAFINDRY_MOST_REPORT = 60193 };

/* The greatest number of digits of a number, so that an output of this length is never too short for one. */
enum { LAFINDRY_MOST_DIGITS = 20 };

/* Judges a table; `value` is its number of types. */
struct lafindry_answer lafindry_judge_table(const uint8_t *table, size_t table_length);

/* Judges an embedding of a source table in a target table, after both tables; `value` is its number of edges. */
struct lafindry_answer lafindry_judge_embedding(const uint8_t *source_table, size_t source_table_length,
                                                const uint8_t *target_table, size_t target_table_length,
                                                const uint8_t *embedding, size_t embedding_length);

/* Judges an embedding as lafindry_judge_embedding does, and explains its answer where two paths clash. */
struct lafindry_explanation lafindry_explain_clash(const uint8_t *source_table, size_t source_table_length,
                                                   const uint8_t *target_table, size_t target_table_length,
                                                   const uint8_t *embedding, size_t embedding_length);

/* Judges a tree document by a table, after the table; `value` is its number of elements. */
struct lafindry_answer lafindry_judge_tree(const uint8_t *table, size_t table_length,
                                           const uint8_t *tree, size_t tree_length);

/*
 * Carries a source tree, after judging all documents: writes its image at the start of the output; `value` is the
 * image's length and `filler` its number of filler elements. Every later byte of the output, and after a refusal every
 * byte of it, is left as it was.
 */
struct lafindry_answer lafindry_carry(const uint8_t *source_table, size_t source_table_length,
                                      const uint8_t *target_table, size_t target_table_length,
                                      const uint8_t *embedding, size_t embedding_length,
                                      const uint8_t *tree, size_t tree_length,
                                      uint8_t *output, size_t output_length);

/*
 * Brings a target tree back, after judging all documents, the tree by the target table: writes the source document
 * whose image it is at the start of the output; `value` is that document's length. Every later byte of the output, and
 * after a refusal every byte of it, is left as it was.
 */
struct lafindry_answer lafindry_bring_back(const uint8_t *source_table, size_t source_table_length,
                                           const uint8_t *target_table, size_t target_table_length,
                                           const uint8_t *embedding, size_t embedding_length,
                                           const uint8_t *tree, size_t tree_length,
                                           uint8_t *output, size_t output_length);

/*
 * Reads a target tree along the paths, after judging all documents, the tree by the target table: writes the source
 * document that the paths lead to at the start of the output, whatever else the tree holds; `value` is that document's
 * length and `filler` the number of the tree's elements, the root aside, on no followed path. In a list that stands for
 * one item the first is followed, in the list that takes a source list's items all of them. An optional choice is read
 * as nothing exactly where the one that its paths agree on is there and empty. On an image this writes what
 * lafindry_bring_back writes and counts the filler elements that lafindry_carry counted.
 *
 * Refused with LAFINDRY_UNREADABLE where the paths of a source element can't be followed; the mark is the offset of the
 * target element that stands for it, of several for the first in the source document, where an element comes before its
 * children. Every later byte of the output, and after a refusal every byte of it, is left as it was.
 */
struct lafindry_answer lafindry_read_along(const uint8_t *source_table, size_t source_table_length,
                                           const uint8_t *target_table, size_t target_table_length,
                                           const uint8_t *embedding, size_t embedding_length,
                                           const uint8_t *tree, size_t tree_length,
                                           uint8_t *output, size_t output_length);

/*
 * Judges a table and carries out operations on it, one after the other: writes a report at the start of the output;
 * `value` is its length, 1 + 3 N + 2 O for N types in the end and O operations. The report has
 *
 *   - N, the number of types after all operations;
 *   - for each type three bytes: its height, and the length in bytes of its filler element, held at 60,001, the higher
 *     byte first;
 *   - for each operation two bytes: 0 and the number of types then, or a refusal and 0. A refused operation leaves the
 *     table as it was; its document is LAFINDRY_SOURCE_TABLE and its mark 0.
 *
 * A type is refused with LAFINDRY_BAD_FORM where its bytes are not exactly one type's own commands, without 1F, and
 * then with 3 to 6 as a table written with it would be; a member with LAFINDRY_NO_CHOICE, and then with 3 (a 17th
 * member), 4 or 5. The operations are refused as a whole, as LAFINDRY_OPERATIONS, with LAFINDRY_TOO_LONG, and with
 * LAFINDRY_BAD_FORM at the offset of the first that can't be read. Every later byte of the output, and after a refusal
 * every byte of it, is left as it was.
 */
struct lafindry_answer lafindry_extend_table(const uint8_t *table, size_t table_length,
                                             const uint8_t *operations, size_t operations_length,
                                             uint8_t *output, size_t output_length);

/*
 * Writes a number in decimal, as ASCII digits without leading zeros, 0 being one digit, at the start of the output, and
 * answers how many digits these are. Every later byte of the output is left as it was; no null character is added.
 * Where the output is shorter than the digits, answers 0, and every byte of it is left as it was.
 */
size_t lafindry_decimal(uint64_t number, uint8_t *output, size_t output_length);

#ifdef __cplusplus
}
#endif

#endif
