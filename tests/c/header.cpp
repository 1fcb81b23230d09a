// The header in a C++ program: the patch's source table is judged through it, the clash of paper 01's choice whose
// paths part at a sequence is explained, a text is read by the first of two items, and a table is extended. Prints
// 'N passed, M failed'.
#include "lafindry.h"

#include <cstdio>
#include <cstring>

static_assert(sizeof(lafindry_explanation) == 10 * sizeof(uint64_t), "an explanation is ten numbers");

static bool judges()
{
    const uint8_t table[] = {0x12, 0x15, 0x01, 0x15, 0x02, 0x10, 0x13, 0x15, 0x03, 0x15, 0x04, 0x11, 0x11, 0x1F};
    const lafindry_answer answer = lafindry_judge_table(table, sizeof table);
    return answer.refusal == LAFINDRY_ACCEPTED && answer.value == 5;
}

static bool explains()
{
    const uint8_t source[] = {0x13, 0x15, 0x01, 0x15, 0x02, 0x11, 0x11, 0x1F};
    const uint8_t target[] = {0x12, 0x15, 0x01, 0x15, 0x01, 0x13, 0x15, 0x02, 0x15, 0x03, 0x11, 0x11, 0x1F};
    const uint8_t embedding[] = {0x20, 0x00, 0x21, 0x22, 0x01, 0x22, 0x01, 0x21, 0x22, 0x02, 0x22, 0x01, 0x20, 0x02,
                                 0x20, 0x02, 0x2F};
    const lafindry_explanation e =
        lafindry_explain_clash(source, sizeof source, target, sizeof target, embedding, sizeof embedding);
    return e.refusal == LAFINDRY_PATH_CLASH && e.document == LAFINDRY_EMBEDDING && e.mark == 7 && e.value == 0 &&
           e.filler == 0 && e.reason == LAFINDRY_PARTS_AT_SEQUENCE && e.source_type == 0 && e.earlier == 1 &&
           e.later == 2 && e.shared == 0;
}

static bool reads()
{
    const uint8_t source[] = {0x10, 0x1F}, target[] = {0x14, 0x01, 0x10, 0x1F};
    const uint8_t embedding[] = {0x20, 0x00, 0x21, 0x22, 0x01, 0x2F};
    const uint8_t tree[] = {0x30, 0x00, 0x30, 0x01, 0x31, 0x41, 0x32, 0x30, 0x01, 0x31, 0x42, 0x32, 0x32, 0x3F};
    const uint8_t expected[] = {0x30, 0x00, 0x31, 0x41, 0x32, 0x3F};
    uint8_t output[sizeof expected];
    const lafindry_answer answer = lafindry_read_along(source, sizeof source, target, sizeof target, embedding,
                                                       sizeof embedding, tree, sizeof tree, output, sizeof output);
    return answer.refusal == LAFINDRY_ACCEPTED && answer.value == sizeof expected && answer.filler == 1 &&
           std::memcmp(output, expected, sizeof expected) == 0;
}

// A sequence of type 0 is appended to one empty type; a member of that sequence is refused.
static bool extends()
{
    const uint8_t table[] = {0x11, 0x1F};
    const uint8_t operations[] = {LAFINDRY_APPEND_TYPE, 3, 0x12, 0x15, 0x00, LAFINDRY_APPEND_MEMBER, 0x01, 0x00};
    const uint8_t expected[] = {2, 1, 0, 3, 2, 0, 6, LAFINDRY_ACCEPTED, 2, LAFINDRY_NO_CHOICE, 0};
    uint8_t report[sizeof expected];
    const lafindry_answer answer =
        lafindry_extend_table(table, sizeof table, operations, sizeof operations, report, sizeof report);
    return answer.refusal == LAFINDRY_ACCEPTED && answer.value == sizeof expected &&
           std::memcmp(report, expected, sizeof expected) == 0;
}

int main()
{
    const int passed = judges() + explains() + reads() + extends();
    std::printf("%d passed, %d failed\n", passed, 4 - passed);
    return passed == 4 ? 0 : 1;
}
