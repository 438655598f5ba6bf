/* What a sheet holds, for callers in C and C++. Link libsheet.a of dist/. Limits, refusals and their texts are those of pass.h. */
#ifndef MUTUAL_RECURSION_SHEET_H
#define MUTUAL_RECURSION_SHEET_H

#include "pass.h"

#ifdef __cplusplus
extern "C" {
#endif

/* A sheet has at most so many rules. */
#define SHEET_RULES 128

/* Where in `numbers` a number of the answer stands. */
enum sheet_place {
    SHEET_REFUSAL,             /* 0, or why the sheet is refused: of 1 to 6 */
    SHEET_KIND,                /* of the unit */
    SHEET_PRESERVED,           /* the place of the list of preserved ids, in words from the sheet's start */
    SHEET_PRESERVED_COUNT,     /* how many preserved ids there are */
    SHEET_ALTERNATIVE_COUNTER, /* the next free id of each sort */
    SHEET_ELEMENT_COUNTER,
    SHEET_LABEL_COUNTER,
    SHEET_ACTION_COUNTER,
    SHEET_PREDICATE_COUNTER,
    SHEET_RULE_COUNT, /* how many rules, alternatives and elements there are, nested ones counted */
    SHEET_ALTERNATIVE_COUNT,
    SHEET_ELEMENT_COUNT,
    SHEET_NUMBERS /* so many numbers there are */
};

/* The kinds of units; the pass leaves the first and the last as they are. */
enum sheet_kind { SHEET_LEXER = 1, SHEET_PARSER = 2, SHEET_COMBINED = 3 };

/* The sheet is read and not changed. None of the pointers is null, and no two of the pieces of memory overlap. The work area has
 * at least PASS_WORK_BYTES. Of each rule, in the order of the sheet, `ids`, `names` and `places` have its id, its name and its
 * place in words; zeros stand behind the last rule. A refusal is followed by zeros everywhere. PASS_BAD_LENGTH and
 * PASS_SHORT_BUFFER leave the work area as it was, all else leaves zeros everywhere in it. */
void read_sheet(const uint8_t *sheet, size_t sheet_length, uint8_t *work, size_t work_length, uint32_t numbers[12],
                uint32_t ids[128], uint32_t names[128], uint32_t places[128]);

#ifdef __cplusplus
}
#endif

#endif
