/* Asks all archives about sheets, which come from standard input, each behind its length in four bytes. Writes for each sheet a line
 * with its number, then a line for each call: the function, what it was asked, its numbers, and a digest of all that it handed
 * over. What is lent is full of junk, so that nothing is told of bytes that nobody wrote. */
#include "convert.h"
#include "facts.h"
#include "pass.h"
#include "plans.h"
#include "sheet.h"

#include <stdio.h>
#include <string.h>

enum { JUNK = 0xa5, LONGEST = 40000 };

static uint8_t sheet[LONGEST], result[PASS_RESULT_BYTES], trail[PASS_TRAIL_BYTES], work[PASS_WORK_BYTES];
static uint64_t digest;

/* FNV-1a, of what was handed over since the last line. */
static void see(const void *bytes, size_t length) {
    const uint8_t *own = (const uint8_t *)bytes;
    for (; length > 0; length--) digest = (digest ^ *own++) * 1099511628211u;
}

static void begin(void) {
    digest = 14695981039346656037u;
    memset(work, JUNK, sizeof work);
}

static void end_line(const uint32_t *numbers, int count) {
    int k;
    for (k = 0; k < count; k++) printf(" %lu", (unsigned long)numbers[k]);
    see(work, sizeof work);
    printf(" %016llx\n", (unsigned long long)digest);
}

static void ask_sheet(size_t length) {
    uint32_t numbers[SHEET_NUMBERS], ids[SHEET_RULES], names[SHEET_RULES], places[SHEET_RULES];
    begin();
    read_sheet(sheet, length, work, sizeof work, numbers, ids, names, places);
    see(ids, sizeof ids);
    see(names, sizeof names);
    see(places, sizeof places);
    printf("read_sheet");
    end_line(numbers, SHEET_NUMBERS);
}

/* How many cycles there are. */
static uint32_t ask_facts(size_t length, uint32_t textbook) {
    uint32_t numbers[FACTS_NUMBERS];
    uint64_t marks[2 * FACTS_ROW_WORDS], calls[FACTS_RULES][FACTS_ROW_WORDS], corners[FACTS_RULES][FACTS_ROW_WORDS];
    uint64_t cycles[FACTS_RULES][FACTS_ROW_WORDS];
    begin();
    find_facts(sheet, length, work, sizeof work, textbook, numbers, marks, calls, corners, cycles);
    see(marks, sizeof marks);
    see(calls, sizeof calls);
    see(corners, sizeof corners);
    see(cycles, sizeof cycles);
    printf("find_facts %u", textbook);
    end_line(numbers, FACTS_NUMBERS);
    return numbers[FACTS_CYCLE_COUNT];
}

static void ask_plans(size_t length, uint32_t textbook, uint32_t cycles) {
    uint32_t numbers[PLANS_NUMBERS], clauses[PLANS_RULES], nth;
    uint64_t cycle[PLANS_ROW_WORDS], removable[PLANS_ROW_WORDS];
    /* One more than there are, of which there is none. */
    for (nth = 0; nth <= cycles; nth++) {
        begin();
        plan_nth(sheet, length, work, sizeof work, textbook, nth, numbers, removable);
        see(removable, sizeof removable);
        printf("plan_nth %u %u", textbook, nth);
        end_line(numbers, PLANS_NUMBERS);
    }
    begin();
    first_plan(sheet, length, work, sizeof work, textbook, numbers, cycle, removable, clauses);
    see(cycle, sizeof cycle);
    see(removable, sizeof removable);
    see(clauses, sizeof clauses);
    printf("first_plan %u", textbook);
    end_line(numbers, PLANS_NUMBERS);
}

static void ask_pass(size_t length, uint32_t textbook) {
    uint32_t numbers[PASS_NUMBERS];
    begin();
    memset(result, JUNK, sizeof result);
    memset(trail, JUNK, sizeof trail);
    (textbook ? pass_textbook : pass)(sheet, length, result, sizeof result, trail, sizeof trail, work, sizeof work, numbers);
    see(result, sizeof result);
    see(trail, sizeof trail);
    printf("pass %u", textbook);
    end_line(numbers, PASS_NUMBERS);
}

static void ask_convert(size_t length) {
    uint32_t numbers[CONVERT_NUMBERS];
    begin();
    memset(result, JUNK, sizeof result);
    convert(sheet, length, result, sizeof result, work, sizeof work, numbers);
    see(result, sizeof result);
    printf("convert");
    end_line(numbers, CONVERT_NUMBERS);
}

int main(void) {
    uint32_t length, textbook, count = 0;
    while (fread(&length, sizeof length, 1, stdin) == 1) {
        if (length > LONGEST || fread(sheet, 1, length, stdin) != length) return 2;
        printf("sheet %u\n", count++);
        ask_sheet(length);
        ask_convert(length);
        for (textbook = 0; textbook < 2; textbook++) {
            ask_plans(length, textbook, ask_facts(length, textbook));
            ask_pass(length, textbook);
        }
    }
    return fflush(stdout) == 0 ? 0 : 2;
}
