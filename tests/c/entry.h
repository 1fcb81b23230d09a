/*
 * What the tests call.
 */
#ifndef ENTRY_H
#define ENTRY_H

/* The five entries, lafindry_explain_clash, lafindry_read_along, lafindry_extend_table and lafindry_decimal; those that
   write are the last. */
enum entry {
    JUDGE_TABLE,
    JUDGE_EMBEDDING,
    EXPLAIN_CLASH,
    JUDGE_TREE,
    CARRY,
    BRING_BACK,
    READ_ALONG,
    EXTEND_TABLE,
    DECIMAL
};

#endif
