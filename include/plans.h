/* What is decided for the left-recursive cycles of a sheet as it stands, for callers in C and C++. Link libplans.a of dist/. Limits,
 * refusals and their texts are those of pass.h. */
#ifndef MUTUAL_RECURSION_PLANS_H
#define MUTUAL_RECURSION_PLANS_H

#include "pass.h"

#ifdef __cplusplus
extern "C" {
#endif

/* A sheet has at most so many rules, and so many cycles. */
#define PLANS_RULES 128

/* A row is a set of rules: bit j % 64 of word j / 64 is the j-th rule of the sheet, counted from 0. It has so many words. */
#define PLANS_ROW_WORDS 2

/* Where in `numbers` a number of the answer stands. */
enum plans_place {
    PLANS_REFUSAL,      /* 0, or why the sheet is refused: of 1 to 6 */
    PLANS_COUNT,        /* of plan_nth: how many cycles there are; of first_plan: how many in front of it were declined */
    PLANS_DECISION,     /* one of the next list */
    PLANS_HUB,          /* the rule that would take the others in, by its place among the rules, from 0 on */
    PLANS_CLAUSE,       /* why the cycle is declined; 0 where it is not */
    PLANS_STEPS,        /* the substitution steps of the plan */
    PLANS_ALTERNATIVES, /* how many alternatives the hub would have */
    PLANS_NONE,         /* 0 */
    PLANS_NUMBERS       /* so many numbers there are */
};

enum plans_decision {
    PLANS_PLANNED = 0,
    PLANS_DECLINED = 1,
    PLANS_TOO_LARGE = 2, /* a planned list is too large, for which the pass has refusal 7 */
    PLANS_NO_CYCLE = 3   /* there is no such cycle; of first_plan: none that has a plan */
};

/* Why a cycle is declined (docs/SPECIFICATION.md, section 10). */
enum plans_clause {
    PLANS_NO_HUB = 1,
    PLANS_HUB_WITH_ARGUMENTS = 2,
    PLANS_SATELLITE_NOT_INLINABLE = 3,
    PLANS_BEYOND_BUDGET = 4,
    PLANS_DANGLING_REFERENCE = 5,
    PLANS_BLOCKED_CORNER = 6,
    PLANS_LABEL_COLLISION = 7,
    PLANS_BINDING_COLLISION = 8,
    PLANS_OPTION_COLLISION = 9,
    PLANS_NO_STEPS = 10,
    PLANS_NOT_REWRITABLE = 11
};

/* A clause in words, or NULL where no clause has this number. */
static inline const char *plans_clause_text(uint32_t clause) {
    switch (clause) {
    case PLANS_NO_HUB:
        return "no hub: every alternative of every member begins with a call of a member or of a rule that can be empty";
    case PLANS_HUB_WITH_ARGUMENTS:
        return "a hub with arguments: the rule that would take the others in has arguments";
    case PLANS_SATELLITE_NOT_INLINABLE:
        return "a satellite that cannot be inlined: it has arguments or something else of its own, a labelled alternative, "
               "or an action or predicate in it";
    case PLANS_BEYOND_BUDGET:
        return "a step beyond the budget: the substitution does not end within 64 steps, or the square of the number of the "
               "members' alternatives where that is more";
    case PLANS_DANGLING_REFERENCE:
        return "a dangling reference: an action or predicate beside a call that would be replaced refers to the called rule";
    case PLANS_BLOCKED_CORNER:
        return "a blocked corner: an alternative begins with a call of a member that has a label, arguments, options, or a "
               "quantifier other than one and greedy optional";
    case PLANS_LABEL_COLLISION:
        return "a label collision: the spliced elements and the others have labels of one name";
    case PLANS_BINDING_COLLISION:
        return "a binding collision: of the spliced elements and the others one refers to a name that the other binds";
    case PLANS_OPTION_COLLISION:
        return "an option collision: an option that is spliced in has another value than the first of its name";
    case PLANS_NO_STEPS:
        return "no steps: no alternative of the hub begins with a call that would be replaced";
    case PLANS_NOT_REWRITABLE:
        return "not directly rewritable: an alternative of the planned list passes arguments to the hub, has nothing but "
               "epsilon, actions and predicates, has nothing behind the hub's call that cannot be empty, or has another left "
               "corner in the cycle";
    default:
        return NULL;
    }
}

/* The decision for the nth cycle, from 0 on; 0 is the one with the least id. The sheet is read and not changed. None of the
 * pointers is null, and no two of the pieces of memory overlap. The work area has at least PASS_WORK_BYTES. The reading of left
 * corners is the original's where `textbook` is 0, else the textbook's (docs/SPECIFICATION.md, section 14). Where there is a
 * plan, `removable` has the rules that would go, and the work area the planned list, in a form of its own; else both have zeros. A
 * refusal is followed by zeros everywhere, but refusals 1 and 2 leave the work area as it was. */
void plan_nth(const uint8_t *sheet, size_t sheet_length, uint8_t *work, size_t work_length, uint32_t textbook, uint32_t nth,
              uint32_t numbers[8], uint64_t removable[2]);

/* The first cycle that has a plan, as the pass looks for it: cycles in front of it are declined, and `clauses` has why. `cycle`
 * has its members. The work area ends as that of plan_nth does. */
void first_plan(const uint8_t *sheet, size_t sheet_length, uint8_t *work, size_t work_length, uint32_t textbook,
                uint32_t numbers[8], uint64_t cycle[2], uint64_t removable[2], uint32_t clauses[128]);

#ifdef __cplusplus
}
#endif

#endif
