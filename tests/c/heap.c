/* Calls the pass with all that it is lent on the heap, not a byte longer than needed, for valgrind to watch. Takes sheets from
 * standard input, each behind its length in four bytes; writes the five numbers of each answer. With FAULT the work area is a
 * byte shorter than is said, so that there is something to be found. */
#include "pass.h"

#include <stdio.h>
#include <stdlib.h>
#include <string.h>

#ifndef FAULT
#define FAULT 0
#endif

enum { JUNK = 0xa5 };

static uint8_t *lend(size_t length) {
    uint8_t *bytes = malloc(length ? length : 1);
    if (bytes == NULL) exit(2);
    memset(bytes, JUNK, length);
    return bytes;
}

static void call(const uint8_t *sheet, size_t length, int textbook, uint32_t *numbers) {
    uint8_t *result = lend(PASS_RESULT_BYTES), *trail = lend(PASS_TRAIL_BYTES), *work = lend(PASS_WORK_BYTES - FAULT);
    (textbook ? pass_textbook : pass)(sheet, length, result, PASS_RESULT_BYTES, trail, PASS_TRAIL_BYTES, work, PASS_WORK_BYTES,
                                      numbers);
    free(work);
    free(trail);
    free(result);
}

int main(void) {
    uint32_t length;
    while (fread(&length, sizeof length, 1, stdin) == 1) {
        uint8_t *sheet = lend(length);
        uint32_t *numbers = malloc(PASS_NUMBERS * sizeof *numbers);
        if (numbers == NULL || fread(sheet, 1, length, stdin) != length) return 2;
        call(sheet, length, 1, numbers);
        call(sheet, length, 0, numbers);
        fwrite(numbers, sizeof *numbers, PASS_NUMBERS, stdout);
        free(numbers);
        free(sheet);
    }
    return fflush(stdout) == 0 ? 0 : 2;
}
