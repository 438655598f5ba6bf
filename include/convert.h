/* Makes a sheet of today of an old one, for callers in C and C++. Link libconvert.a of dist/. Limits, refusals and their texts are
 * those of pass.h.
 *
 * In an old sheet the payload of a call has two words, its name and its arguments. In one of today it has a third, the call's
 * precedence: 0 for none, else one more than the precedence. Nothing in a sheet says which form it has, and no reader can tell:
 * a sheet of the other form is often refused by PASS_BAD_RECORD, but not always, since its words may read as something else. So
 * the caller must know which sheets are old. */
#ifndef MUTUAL_RECURSION_CONVERT_H
#define MUTUAL_RECURSION_CONVERT_H

#include "pass.h"

#ifdef __cplusplus
extern "C" {
#endif

/* Where in `numbers` a number of the answer stands. */
enum convert_place {
    CONVERT_REFUSAL,       /* 0, or why the old sheet is refused: of 1 to 6, or 9 */
    CONVERT_RESULT_LENGTH, /* of the new sheet, in bytes; 0 under a refusal */
    CONVERT_NUMBERS        /* so many numbers there are */
};

/* The old sheet is read and not changed. None of the pointers is null, and no two of the four pieces of memory overlap. The
 * result has at least PASS_RESULT_BYTES, the work area at least PASS_WORK_BYTES. Units of all kinds are converted. At the end:
 *
 * - Where nothing is refused, numbers[CONVERT_REFUSAL] is 0. The new sheet stands at the front of the result, with zeros behind
 *   it to the buffer's end. It holds the same as the old one, and no call has a precedence: it has four bytes more for each
 *   call. The work area has zeros everywhere.
 * - Of 1 to 6 the lowest that holds of the old sheet, read as an old one, is given. PASS_RESULT_TOO_LARGE is given where none of
 *   these holds, and the new sheet would have over PASS_SHEET_MOST_BYTES.
 * - PASS_BAD_LENGTH and PASS_SHORT_BUFFER leave both buffers as they were, every other refusal leaves zeros everywhere in them. */
void convert(const uint8_t *sheet, size_t sheet_length, uint8_t *result, size_t result_length, uint8_t *work,
             size_t work_length, uint32_t numbers[2]);

#ifdef __cplusplus
}
#endif

#endif
