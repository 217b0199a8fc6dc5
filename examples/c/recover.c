/*
 * This program recovers the master secret from a file of mnemonics, and prints it in hexadecimal digits.
 *
 *   cc -std=c89 -Iinclude examples/c/recover.c libshamir.a -o recover
 *   ./recover FILE [PASSPHRASE]
 *
 * The exit status is 0 if the secret was printed, and 1 if the library refuses the file or the passphrase. It is 2 if the
 * program gets other arguments, if it can't read the file, or if the file is too long. It is 3 if the program can't write
 * the secret.
 */
#include <stdio.h>
#include <string.h>

#include "shamir.h"

/* This is enough for a backup of the maximum length, with as many bytes of comments. */
static char lines[2 * SHAMIR_MNEMONICS_BYTES_MAX];
static uint8_t secret[SHAMIR_SECRET_BYTES_MAX];

/* The hexadecimal digits of the secret, and a line feed. */
static char digits[2 * SHAMIR_SECRET_BYTES_MAX + 1];

/* Reads a file into lines. Returns 0 if the file can't be read or is too long. */
static int read_lines(const char *name, size_t *bytes)
{
    FILE *file = fopen(name, "rb");
    int whole;

    if (file == NULL) {
        perror(name);
        return 0;
    }
    /* A buffer of the stream would keep a copy of the mnemonics. */
    setvbuf(file, NULL, _IONBF, 0);
    *bytes = fread(lines, 1, sizeof lines, file);
    /* fread may have read only the beginning of a longer file, so getc looks for one more byte. */
    whole = !ferror(file) && getc(file) == EOF && !ferror(file);
    if (!whole) {
        fprintf(stderr, "%s: it can't be read, or is too long\n", name);
    }
    fclose(file);
    return whole;
}

/* Prints a refusal as the command shamir does: its line if it has one, its number and its text. */
static void print_refusal(const shamir_answer *answer)
{
    char text[SHAMIR_TEXT_BYTES_MAX];
    size_t bytes = (size_t)shamir_text(answer, text, sizeof text).written;

    fprintf(stderr, "recover: ");
    if (answer->line != 0) {
        fprintf(stderr, "line %lu: ", (unsigned long)answer->line);
    }
    fprintf(stderr, "%lu %.*s\n", (unsigned long)answer->code, (int)bytes, text);
}

/* Prints a secret of this many bytes, and returns the exit status. */
static int print_secret(size_t bytes)
{
    static const char hexadecimal[] = "0123456789abcdef";
    size_t i;

    for (i = 0; i < bytes; i++) {
        digits[2 * i] = hexadecimal[secret[i] >> 4];
        digits[2 * i + 1] = hexadecimal[secret[i] & 15];
    }
    digits[2 * bytes] = '\n';
    /* A buffer of stdout would keep a copy of the secret. */
    setvbuf(stdout, NULL, _IONBF, 0);
    if (fwrite(digits, 1, 2 * bytes + 1, stdout) != 2 * bytes + 1 || fflush(stdout) != 0) {
        perror("recover: the secret can't be written");
        return 3;
    }
    return 0;
}

/* Prints the secret that the lines give, or the refusal, and returns the exit status. */
static int recover(size_t bytes, const char *passphrase)
{
    shamir_answer answer = shamir_recover(
        lines, bytes, passphrase, strlen(passphrase), SHAMIR_EXPONENT_MAX, NULL, 0, secret, sizeof secret);

    if (answer.code != SHAMIR_DONE) {
        print_refusal(&answer);
        return 1;
    }
    return print_secret((size_t)answer.written);
}

int main(int argc, char **argv)
{
    int status = 2;
    size_t bytes;

    if (argc < 2 || argc > 3) {
        fprintf(stderr, "usage: recover FILE [PASSPHRASE]\n");
    } else if (read_lines(argv[1], &bytes)) {
        status = recover(bytes, argc == 3 ? argv[2] : "");
    }
    shamir_wipe(lines, sizeof lines);
    shamir_wipe(secret, sizeof secret);
    shamir_wipe(digits, sizeof digits);
    return status;
}
