/* Tells the left-recursive cycles of a stored sheet: cycles SHEET
 * A line for each: the ids of its rules, and how it would be joined or why it is left. The status is as that of pass.c. */
#include "facts.h"
#include "plans.h"
#include "sheet.h"

#include <stdio.h>

static uint8_t sheet[PASS_SHEET_MOST_BYTES + 1];
static uint8_t work[PASS_WORK_BYTES];
static uint32_t ids[SHEET_RULES], names[SHEET_RULES], places[SHEET_RULES];
static uint64_t marks[2 * FACTS_ROW_WORDS], calls[FACTS_RULES][FACTS_ROW_WORDS], corners[FACTS_RULES][FACTS_ROW_WORDS];
static uint64_t cycles[FACTS_RULES][FACTS_ROW_WORDS];

static void print_rules(const uint64_t row[2]) {
    uint32_t j;
    for (j = 0; j < FACTS_RULES; j++)
        if (facts_has(row, j)) printf(" %u", ids[j]);
}

static void print_cycle(size_t length, uint32_t nth) {
    uint32_t numbers[PLANS_NUMBERS];
    uint64_t removable[PLANS_ROW_WORDS];
    plan_nth(sheet, length, work, sizeof work, 0, nth, numbers, removable);
    printf("rules");
    print_rules(cycles[nth]);
    switch (numbers[PLANS_DECISION]) {
    case PLANS_PLANNED:
        printf(": joined in %u by %u steps, without", ids[numbers[PLANS_HUB]], numbers[PLANS_STEPS]);
        print_rules(removable);
        printf("\n");
        break;
    case PLANS_DECLINED:
        printf(": left by clause %u, %s\n", numbers[PLANS_CLAUSE], plans_clause_text(numbers[PLANS_CLAUSE]));
        break;
    default:
        printf(": too large\n");
    }
}

/* The number of bytes, or -1. */
static long read_sheet_file(const char *path) {
    FILE *file = fopen(path, "rb");
    size_t length;
    int bad;
    if (file == NULL) return -1;
    length = fread(sheet, 1, sizeof sheet, file);
    bad = ferror(file);
    fclose(file);
    return bad ? -1 : (long)length;
}

int main(int argc, char **argv) {
    uint32_t numbers[SHEET_NUMBERS], found[FACTS_NUMBERS], nth;
    long length = argc == 2 ? read_sheet_file(argv[1]) : -1;
    if (length < 0) {
        fprintf(stderr, "usage: cycles SHEET, which can be read\n");
        return 2;
    }
    read_sheet(sheet, (size_t)length, work, sizeof work, numbers, ids, names, places);
    if (numbers[SHEET_REFUSAL] != 0) {
        fprintf(stderr, "refused: %s\n", pass_refusal_text(numbers[SHEET_REFUSAL]));
        return 1;
    }
    find_facts(sheet, (size_t)length, work, sizeof work, 0, found, marks, calls, corners, cycles);
    for (nth = 0; nth < found[FACTS_CYCLE_COUNT]; nth++) print_cycle((size_t)length, nth);
    return fflush(stdout) == 0 ? 0 : 2;
}
