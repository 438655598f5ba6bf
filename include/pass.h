/* The pass for callers in C and C++: it joins the left-recursive cycles of a grammar. The grammar comes and goes as a sheet,
 * which is bytes (docs/SPECIFICATION.md, section 2). Link libpass.a of dist/; examples/c shows a call. Beside it are sheet.h,
 * facts.h and plans.h, each with an archive of its name, for what is known of a sheet and decided for its cycles; and convert.h,
 * for sheets that were written before calls had a precedence, which are no sheets for any of the others.
 *
 * An archive defines the functions that its header declares and no other, uses none but memcpy, memmove, memset and memcmp, and
 * has no variables: nothing stays from one call to the next, and calls with buffers of their own may run side by side. */
#ifndef MUTUAL_RECURSION_PASS_H
#define MUTUAL_RECURSION_PASS_H

#include <stddef.h>
#include <stdint.h>

#ifdef __cplusplus
extern "C" {
#endif

/* The version of the project. */
#define PASS_VERSION "0.1.0"

/* A sheet has at least and at most so many bytes. */
#define PASS_SHEET_LEAST_BYTES 32
#define PASS_SHEET_MOST_BYTES 32768

/* A lent buffer has at least so many bytes. It may be longer, begin at any address and hold anything. */
#define PASS_RESULT_BYTES 32768
#define PASS_TRAIL_BYTES 65536
#define PASS_WORK_BYTES 65536

/* Where in `numbers` a number of the answer stands. */
enum pass_place {
    PASS_REFUSAL,       /* 0, or why the sheet is refused */
    PASS_PLANS,         /* how many plans were applied, each of which joins a cycle */
    PASS_STEPS,         /* the substitution steps of these plans together */
    PASS_RESULT_LENGTH, /* of the new sheet, in bytes */
    PASS_TRAIL_LENGTH,  /* of the trail's entries, in bytes */
    PASS_NUMBERS        /* so many numbers there are */
};

/* Why a sheet is refused. Of the first six the lowest that holds is given. Then the pass runs, and the first of the others that
 * it meets ends it. A cycle that cannot be joined is no reason: it stays as it is. */
enum pass_refusal {
    PASS_BAD_LENGTH = 1,
    PASS_SHORT_BUFFER = 2,
    PASS_BAD_TRAILER = 3,
    PASS_BAD_RECORD = 4,
    PASS_SHARED_NUMBER = 5,
    PASS_ID_PAST_COUNTER = 6,
    PASS_PLAN_TOO_LARGE = 7,
    PASS_COUNTER_PAST_END = 8,
    PASS_RESULT_TOO_LARGE = 9
};

/* A refusal in words, or NULL where no refusal has this number. */
static inline const char *pass_refusal_text(uint32_t refusal) {
    switch (refusal) {
    case PASS_BAD_LENGTH:
        return "the sheet's length is under 32 bytes, over 32,768 or not a multiple of 4";
    case PASS_SHORT_BUFFER:
        return "a lent buffer is too short: the result under 32,768 bytes, the trail or the work area under 65,536";
    case PASS_BAD_TRAILER:
        return "the trailer is bad: a unit kind other than 1, 2 and 3, a first distance that is not the number of words in "
               "front of the trailer, or a second distance above the first";
    case PASS_BAD_RECORD:
        return "a record is bad: cut short or running into the preserved list, a value outside its list, a name 0, a label "
               "id without a label name, blocks over 8 deep, over 128 rules, or preserved ids that do not rise";
    case PASS_SHARED_NUMBER:
        return "two rules share an id or a name, or two alternatives, elements, labels, actions or predicates share an id";
    case PASS_ID_PAST_COUNTER:
        return "an id of an alternative, element, label, action or predicate is not below its counter";
    case PASS_PLAN_TOO_LARGE:
        return "after a substitution step a planned list has over 1,024 alternatives, 8,192 outermost elements or 2,048 "
               "options of its alternatives";
    case PASS_COUNTER_PAST_END:
        return "applying a plan would take a counter above 4,294,967,295";
    case PASS_RESULT_TOO_LARGE:
        return "what would be handed back is too large: a sheet over 32,768 bytes or a trail over 4,096 entries";
    default:
        return NULL;
    }
}

/* The trail says where each new node comes from, in entries of four words, each with its low byte first: kind, id, reason, and
 * the owner, which is an id of the same kind. */
#define PASS_ENTRY_BYTES 16

enum pass_kind {
    PASS_RULE = 1,
    PASS_ALTERNATIVE = 2,
    PASS_ELEMENT = 3,
    PASS_LABEL = 4,
    PASS_ACTION = 5,
    PASS_PREDICATE = 6
};

enum pass_reason {
    PASS_RULE_BOUNDARY = 1, /* of a new alternative, whose owner is its origin; and of a joined rule, which owns itself */
    PASS_BLOCK_BOUNDARY = 2 /* of a copy, whose owner is what was copied */
};

/* The sheet is read and not changed. None of the pointers is null, and no two of the five pieces of memory overlap. At the end:
 *
 * - Where nothing is refused, numbers[PASS_REFUSAL] is 0. The new sheet stands at the front of the result and the entries at the
 *   front of the trail, with zeros behind them to the buffers' ends. The work area has zeros everywhere.
 * - A refusal is followed by four numbers 0. PASS_BAD_LENGTH and PASS_SHORT_BUFFER leave the three buffers as they were, every
 *   other one leaves zeros everywhere in them.
 *
 * pass reads left corners as the original does, whose search ends at every symbol; pass_textbook goes past a symbol that can be
 * empty (docs/SPECIFICATION.md, section 14). */
void pass(const uint8_t *sheet, size_t sheet_length, uint8_t *result, size_t result_length, uint8_t *trail,
          size_t trail_length, uint8_t *work, size_t work_length, uint32_t numbers[5]);
void pass_textbook(const uint8_t *sheet, size_t sheet_length, uint8_t *result, size_t result_length, uint8_t *trail,
                   size_t trail_length, uint8_t *work, size_t work_length, uint32_t numbers[5]);

#ifdef __cplusplus
}
#endif

#endif
