/* Calls the pass on a stored sheet: pass SHEET [textbook]
 * Prints the five numbers on a line, then a line `t` for each entry of the trail. The status is 0; 1 where the sheet is refused,
 * with the cause on standard error; 2 where it cannot be read or the answer cannot be written. */
#include "pass.h"

#include <stdio.h>
#include <string.h>

/* One byte more than a sheet can have, so that a longer file is seen to be too long. */
static uint8_t sheet[PASS_SHEET_MOST_BYTES + 1];
static uint8_t result[PASS_RESULT_BYTES];
static uint8_t trail[PASS_TRAIL_BYTES];
static uint8_t work[PASS_WORK_BYTES];

static uint32_t word(const uint8_t *at) {
    return at[0] | (uint32_t)at[1] << 8 | (uint32_t)at[2] << 16 | (uint32_t)at[3] << 24;
}

/* The number of bytes, or -1. */
static long read_sheet_file(const char *path) {
    FILE *file = fopen(path, "rb");
    size_t length;
    int bad;
    if (file == NULL) return -1;
    length = fread(sheet, 1, sizeof sheet, file);
    bad = ferror(file);
    fclose(file);
    return bad ? -1 : (long)length;
}

static void print_answer(const uint32_t numbers[PASS_NUMBERS]) {
    uint32_t at;
    printf("%u %u %u %u %u\n", numbers[PASS_REFUSAL], numbers[PASS_PLANS], numbers[PASS_STEPS],
           numbers[PASS_RESULT_LENGTH], numbers[PASS_TRAIL_LENGTH]);
    for (at = 0; at < numbers[PASS_TRAIL_LENGTH]; at += PASS_ENTRY_BYTES)
        printf("t %u %u %u %u\n", word(trail + at), word(trail + at + 4), word(trail + at + 8), word(trail + at + 12));
}

int main(int argc, char **argv) {
    uint32_t numbers[PASS_NUMBERS];
    int textbook = argc == 3 && strcmp(argv[2], "textbook") == 0;
    long length;
    if (argc != 2 && !textbook) {
        fprintf(stderr, "usage: pass SHEET [textbook]\n");
        return 2;
    }
    length = read_sheet_file(argv[1]);
    if (length < 0) {
        perror(argv[1]);
        return 2;
    }
    (textbook ? pass_textbook : pass)(sheet, (size_t)length, result, sizeof result, trail, sizeof trail, work,
                                      sizeof work, numbers);
    print_answer(numbers);
    if (fflush(stdout) != 0) {
        perror("standard output");
        return 2;
    }
    if (numbers[PASS_REFUSAL] == 0) return 0;
    fprintf(stderr, "refused: %s\n", pass_refusal_text(numbers[PASS_REFUSAL]));
    return 1;
}
