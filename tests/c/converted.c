/* Holds the archive to what convert.h says. Takes sheets from standard input, each behind its length in four bytes, and lends buffers
 * that are longer than needed, begin at odd addresses and are full of junk. Writes the two numbers of each answer, and the new
 * sheet where nothing is refused. Under a promise that is not kept: a line on standard error, and the status 1. */
#include "convert.h"

#include <stdio.h>
#include <stdlib.h>
#include <string.h>

enum { JUNK = 0xa5, MORE = 8, LONGEST = 40000 };

/* A byte in front of what is lent and a byte behind it, which nothing may touch. */
static uint8_t result[1 + PASS_RESULT_BYTES + MORE + 1], work[1 + PASS_WORK_BYTES + MORE + 1];
static uint8_t sheet[LONGEST], kept[LONGEST];

static void fail(const char *what) {
    fprintf(stderr, "converted: %s\n", what);
    exit(1);
}

static int all(const uint8_t *bytes, size_t from, size_t to, uint8_t byte) {
    for (; from < to; from++)
        if (bytes[from] != byte) return 0;
    return 1;
}

static void call(size_t length, size_t result_short, size_t work_short, uint32_t *numbers) {
    memset(result, JUNK, sizeof result);
    memset(work, JUNK, sizeof work);
    memset(numbers, JUNK, (CONVERT_NUMBERS + 1) * sizeof *numbers);
    convert(sheet, length, result + 1, sizeof result - 2 - result_short, work + 1, sizeof work - 2 - work_short, numbers);
    if (!all((uint8_t *)(numbers + CONVERT_NUMBERS), 0, sizeof *numbers, JUNK)) fail("a third number was touched");
    if (result[0] != JUNK || result[sizeof result - 1] != JUNK || work[0] != JUNK || work[sizeof work - 1] != JUNK)
        fail("bytes beside a buffer were touched");
}

static int all_are(uint8_t byte) { return all(result, 1, sizeof result - 1, byte) && all(work, 1, sizeof work - 1, byte); }

/* Each buffer is lent one byte too short. */
static void check_short(size_t length, uint32_t *numbers) {
    int k;
    for (k = 0; k < 2; k++) {
        call(length, MORE + (k == 0), MORE + (k == 1), numbers);
        if (numbers[CONVERT_REFUSAL] != PASS_SHORT_BUFFER && numbers[CONVERT_REFUSAL] != PASS_BAD_LENGTH)
            fail("a short buffer is not refused");
        if (numbers[CONVERT_RESULT_LENGTH] != 0 || !all_are(JUNK)) fail("a short buffer that was written");
    }
}

static void check_ends(const uint32_t *numbers) {
    if (numbers[CONVERT_REFUSAL] == 0) {
        if (!all(result, 1 + numbers[CONVERT_RESULT_LENGTH], sizeof result - 1, 0)) fail("no zeros behind the result");
        if (!all(work, 1, sizeof work - 1, 0)) fail("no zeros in the work area");
        return;
    }
    if (numbers[CONVERT_RESULT_LENGTH] != 0) fail("a refusal with a length");
    if (!all_are(numbers[CONVERT_REFUSAL] <= PASS_SHORT_BUFFER ? JUNK : 0)) fail("a refusal that leaves other buffers");
}

static void put(const void *bytes, size_t length) {
    if (fwrite(bytes, 1, length, stdout) != length) fail("standard output");
}

int main(void) {
    uint32_t length, numbers[CONVERT_NUMBERS + 1];
    while (fread(&length, sizeof length, 1, stdin) == 1) {
        if (length > LONGEST || fread(sheet, 1, length, stdin) != length) fail("standard input");
        memcpy(kept, sheet, length);
        check_short(length, numbers);
        call(length, 0, 0, numbers);
        check_ends(numbers);
        if (memcmp(kept, sheet, length) != 0) fail("the sheet was changed");
        put(numbers, CONVERT_NUMBERS * sizeof *numbers);
        put(result + 1, numbers[CONVERT_RESULT_LENGTH]);
    }
    return fflush(stdout) == 0 ? 0 : 1;
}
