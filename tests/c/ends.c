/* Holds the archive to what pass.h says of buffers. Takes sheets from standard input, each behind its length in four bytes, and
 * lends buffers that are longer than needed, begin at odd addresses and are full of junk. Writes the five numbers of each
 * answer, and where nothing is refused the new sheet and the trail. Under a promise that is not kept: a line on standard error,
 * and the status 1. */
#include "pass.h"

#include <stdio.h>
#include <stdlib.h>
#include <string.h>

enum { JUNK = 0xa5, MORE = 8, LONGEST = 40000 };

/* A byte in front of what is lent and a byte behind it, which nothing may touch. */
static uint8_t result[1 + PASS_RESULT_BYTES + MORE + 1];
static uint8_t trail[1 + PASS_TRAIL_BYTES + MORE + 1];
static uint8_t work[1 + PASS_WORK_BYTES + MORE + 1];
static uint8_t sheet[LONGEST], kept[LONGEST];

static void fail(const char *what) {
    fprintf(stderr, "ends: %s\n", what);
    exit(1);
}

static int all(const uint8_t *bytes, size_t from, size_t to, uint8_t byte) {
    for (; from < to; from++)
        if (bytes[from] != byte) return 0;
    return 1;
}

static void fill(void) {
    memset(result, JUNK, sizeof result);
    memset(trail, JUNK, sizeof trail);
    memset(work, JUNK, sizeof work);
}

static void call(int textbook, size_t length, size_t short_by[3], uint32_t *numbers) {
    (textbook ? pass_textbook : pass)(sheet, length, result + 1, sizeof result - 2 - short_by[0], trail + 1,
                                      sizeof trail - 2 - short_by[1], work + 1, sizeof work - 2 - short_by[2], numbers);
}

static int all_are(uint8_t byte) {
    return all(result, 1, sizeof result - 1, byte) && all(trail, 1, sizeof trail - 1, byte) &&
           all(work, 1, sizeof work - 1, byte);
}

static void check_ends(const uint32_t *numbers) {
    const uint8_t *buffers[3] = {result, trail, work};
    const size_t lengths[3] = {sizeof result, sizeof trail, sizeof work};
    int k;
    for (k = 0; k < 3; k++)
        if (buffers[k][0] != JUNK || buffers[k][lengths[k] - 1] != JUNK) fail("bytes beside a buffer were touched");
    if (numbers[PASS_REFUSAL] == 0) {
        if (!all(result, 1 + numbers[PASS_RESULT_LENGTH], sizeof result - 1, 0)) fail("no zeros behind the result");
        if (!all(trail, 1 + numbers[PASS_TRAIL_LENGTH], sizeof trail - 1, 0)) fail("no zeros behind the trail");
        if (!all(work, 1, sizeof work - 1, 0)) fail("no zeros in the work area");
        return;
    }
    if (numbers[PASS_PLANS] || numbers[PASS_STEPS] || numbers[PASS_RESULT_LENGTH] || numbers[PASS_TRAIL_LENGTH])
        fail("a refusal with another number");
    if (!all_are(numbers[PASS_REFUSAL] <= PASS_SHORT_BUFFER ? JUNK : 0)) fail("a refusal that leaves other buffers");
}

/* Each buffer is lent one byte too short. */
static void check_short(size_t length) {
    uint32_t numbers[PASS_NUMBERS];
    int k;
    for (k = 0; k < 3; k++) {
        size_t short_by[3] = {MORE, MORE, MORE};
        fill();
        call(k == 1, length, short_by, numbers);
        if (numbers[PASS_REFUSAL] == PASS_SHORT_BUFFER) fail("a buffer of the least length is refused");
        short_by[k] = MORE + 1;
        fill();
        call(k == 1, length, short_by, numbers);
        check_ends(numbers);
        if (numbers[PASS_REFUSAL] != PASS_SHORT_BUFFER && numbers[PASS_REFUSAL] != PASS_BAD_LENGTH)
            fail("a short buffer is not refused");
    }
}

static void put(const void *bytes, size_t length) {
    if (fwrite(bytes, 1, length, stdout) != length) fail("standard output");
}

int main(void) {
    size_t none[3] = {0, 0, 0};
    uint32_t length, numbers[PASS_NUMBERS + 1];
    int textbook;
    while (fread(&length, sizeof length, 1, stdin) == 1) {
        if (length > LONGEST || fread(sheet, 1, length, stdin) != length) fail("standard input");
        memcpy(kept, sheet, length);
        check_short(length);
        for (textbook = 1; textbook >= 0; textbook--) {
            memset(numbers, JUNK, sizeof numbers);
            fill();
            call(textbook, length, none, numbers);
            check_ends(numbers);
            if (!all((uint8_t *)(numbers + PASS_NUMBERS), 0, sizeof *numbers, JUNK)) fail("a sixth number was touched");
        }
        if (memcmp(kept, sheet, length) != 0) fail("the sheet was changed");
        put(numbers, PASS_NUMBERS * sizeof *numbers);
        put(result + 1, numbers[PASS_RESULT_LENGTH]);
        put(trail + 1, numbers[PASS_TRAIL_LENGTH]);
    }
    return fflush(stdout) == 0 ? 0 : 1;
}
