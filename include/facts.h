/* What is found out about the rules of a sheet as it stands, for callers in C and C++. Link libfacts.a of dist/. Limits, refusals
 * and their texts are those of pass.h. */
#ifndef MUTUAL_RECURSION_FACTS_H
#define MUTUAL_RECURSION_FACTS_H

#include "pass.h"

#ifdef __cplusplus
extern "C" {
#endif

/* A sheet has at most so many rules. */
#define FACTS_RULES 128

/* A row is a set of rules: bit j % 64 of word j / 64 is the j-th rule of the sheet, counted from 0. It has so many words. */
#define FACTS_ROW_WORDS 2

/* Where in `numbers` a number of the answer stands. */
enum facts_place {
    FACTS_REFUSAL,     /* 0, or why the sheet is refused: of 1 to 6 */
    FACTS_RULE_COUNT,  /* how many rules there are */
    FACTS_CYCLE_COUNT, /* how many left-recursive cycles there are */
    FACTS_NUMBERS      /* so many numbers there are */
};

/* Where in `marks` a row begins. */
enum facts_mark {
    FACTS_NULLABLE = 0,     /* the rules that can be empty */
    FACTS_NOT_INLINABLE = 2 /* those that cannot be inlined */
};

/* Whether a row has the j-th rule. */
static inline int facts_has(const uint64_t row[2], uint32_t j) {
    return (int)(row[j / 64] >> (j % 64) & 1);
}

/* The sheet is read and not changed. None of the pointers is null, and no two of the pieces of memory overlap. The work area has
 * at least PASS_WORK_BYTES. The reading of left corners is the original's where `textbook` is 0, else the textbook's
 * (docs/SPECIFICATION.md, section 14). Of each rule `calls` has those that it calls, and `corners` its left corners; of each
 * cycle, the one with the least id first, `cycles` has its members. Zeros stand behind the last row, and everywhere under a
 * refusal. PASS_BAD_LENGTH and PASS_SHORT_BUFFER leave the work area as it was, all else leaves zeros everywhere in it. */
void find_facts(const uint8_t *sheet, size_t sheet_length, uint8_t *work, size_t work_length, uint32_t textbook,
                uint32_t numbers[3], uint64_t marks[4], uint64_t calls[128][2], uint64_t corners[128][2],
                uint64_t cycles[128][2]);

#ifdef __cplusplus
}
#endif

#endif
