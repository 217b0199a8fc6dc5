/*
 * This program lists what each quorum of the mnemonics on standard input recovers, with the passphrase TREZOR. Each call of the
 * library lists four quorums. The last line of a listing has the cursor for the next call, unless it is "end".
 *
 *   cc -std=c89 -Iinclude examples/c/drill.c libshamir.a -o drill
 *   ./drill < FILE
 *
 * The exit status is 1 if the library refuses the mnemonics. It is 2 if the input is too long or can't be read, and 3 if the list
 * can't be written.
 */
#include <stdio.h>
#include <string.h>

#include "shamir.h"

static char lines[SHAMIR_MNEMONICS_BYTES_MAX], text[65536], after[SHAMIR_NAMES_BYTES_MAX];

int main(void)
{
    static const char more[] = "more after ";
    size_t lines_bytes = fread(lines, 1, sizeof lines, stdin), after_bytes = 0;

    /* fread may have read only the beginning of a longer input, so getc looks for one more byte. */
    if (ferror(stdin) || getc(stdin) != EOF || ferror(stdin)) {
        return 2;
    }
    for (;;) {
        shamir_answer answer = shamir_drill(
            lines, lines_bytes, "TREZOR", 6, SHAMIR_EXPONENT_MAX, after, after_bytes, 4, SHAMIR_FORM_DIGITS, NULL, 0, text,
            sizeof text);
        size_t last = (size_t)answer.second;

        if (answer.code != SHAMIR_DONE) {
            return 1;
        }
        if (fwrite(text, 1, last, stdout) != last || fflush(stdout) != 0) {
            return 3;
        }
        if (strncmp(text + last, more, strlen(more)) != 0) {
            return 0;
        }
        /* The cursor lies between these words and the line feed. It is copied, as the next call writes to text. */
        last += strlen(more);
        after_bytes = (size_t)answer.written - 1 - last;
        memcpy(after, text + last, after_bytes);
    }
}
