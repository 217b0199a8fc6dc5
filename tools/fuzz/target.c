/*
 * A target of libFuzzer for the calls of shamir.h. tools/fuzz builds it with dist/c, and runs it.
 *
 * The first byte of an input chooses the call, and the second the room for its output. Then come two arguments: a text that ends with
 * a NUL, such as a plan, names or a passphrase, and the lines. Each argument and each output has a block of its own, so that a sanitizer
 * sees what lies outside. The program stops if an answer contradicts the header or another call.
 */
#include <stdio.h>
#include <stdlib.h>
#include <string.h>

#include "shamir.h"

#define UNTOUCHED 0xa5
#define MUST(condition) ((condition) ? (void)0 : failed(#condition))

static const size_t rooms[] = {0, 1, 8, 16, 100, 500, 2000, SHAMIR_LISTING_BYTES_ENOUGH, 20000, SHAMIR_MNEMONICS_BYTES_MAX};

typedef struct {
    char *data;
    size_t size;
} block;

static void failed(const char *what)
{
    fprintf(stderr, "this isn't so: %s\n", what);
    abort();
}

static block block_of(const void *data, size_t size)
{
    block made = {malloc(size ? size : 1), size};

    MUST(made.data != NULL);
    memcpy(made.data, data, size);
    return made;
}

/* Makes a call of lines and another text. Its random bytes are those of the lines. */
static shamir_answer call(unsigned which, block text, block lines, block room)
{
    const uint8_t *bytes = (const uint8_t *)lines.data;
    shamir_parameters parameters = {1, 0, 0};
    shamir_judgement judgement;
    shamir_share share;

    switch (which % 15) {
    case 0:
        return shamir_parse(lines.data, lines.size, &share, (uint8_t *)room.data, room.size);
    case 1:
        return shamir_recover(lines.data, lines.size, text.data, text.size, 0, "", 0, (uint8_t *)room.data, room.size);
    case 2:
        return shamir_encrypted(lines.data, lines.size, &parameters, (uint8_t *)room.data, room.size);
    case 3:
        return shamir_decrypt(&parameters, bytes, lines.size, text.data, text.size, "", 0, (uint8_t *)room.data, room.size);
    case 4:
        return shamir_drill(lines.data, lines.size, "TREZOR", 6, 0, text.data, text.size, 3, SHAMIR_FORM_DIGITS, "", 0, room.data, room.size);
    case 5:
        return shamir_status(lines.data, lines.size, room.data, room.size);
    case 6:
        return shamir_reissue(text.data, text.size, "0.0", 3, lines.data, lines.size, room.data, room.size);
    case 7:
        return shamir_resplit(text.data, text.size, lines.data, lines.size, bytes, lines.size < 14 ? lines.size : 14, room.data, room.size);
    case 8:
        return shamir_repair(lines.data, lines.size, room.data, room.size);
    case 9:
        return shamir_fingerprint(bytes, lines.size, room.data, room.size);
    case 10:
        return shamir_create(
            text.data, text.size, bytes, lines.size < 16 ? lines.size : 16, "", 0, 0, 1, bytes, lines.size < 14 ? lines.size : 14, room.data,
            room.size);
    case 11:
        return shamir_judge(lines.data, lines.size, text.data, text.size, &judgement, room.data, room.size);
    case 12:
        parameters.extendable = 1;
        return shamir_create_from_encrypted(
            text.data, text.size, &parameters, bytes, lines.size < 16 ? lines.size : 16, bytes, lines.size < 14 ? lines.size : 14, room.data,
            room.size);
    case 13:
        return shamir_decrypt_round(&parameters, (uint8_t)(lines.size % 5), bytes, lines.size, text.data, text.size, (uint8_t *)room.data, room.size);
    default:
        return shamir_words(text.data, text.size, room.data, room.size);
    }
}

/* Checks what the header says of each answer and its output, and that the answer has a text. */
static void check_answer(shamir_answer answer, block room)
{
    char text[SHAMIR_TEXT_BYTES_MAX];
    size_t untouched = answer.code == SHAMIR_DONE ? (size_t)answer.written : 0;

    MUST(answer.code == SHAMIR_DONE || answer.written == 0);
    MUST(answer.written <= room.size);
    for (; untouched < room.size; untouched++)
        MUST((uint8_t)room.data[untouched] == UNTOUCHED);
    MUST(answer.code != SHAMIR_E_TOO_SHORT || answer.first > room.size);
    answer = shamir_text(&answer, text, sizeof text);
    MUST(answer.code == SHAMIR_DONE && memcmp(text, "unknown answer", answer.written < 14 ? (size_t)answer.written : 14) != 0);
}

/* Checks what calls say of the same lines. */
static void check_lines(block lines)
{
    uint8_t value[SHAMIR_SECRET_BYTES_MAX];
    char fits[SHAMIR_REPAIRED_BYTES_MAX], status[SHAMIR_STATUS_BYTES_MAX], alone[SHAMIR_STATUS_BYTES_MAX];
    shamir_judgement judgement;
    shamir_share share;
    shamir_answer counted = shamir_quorums(lines.data, lines.size), told = shamir_status(lines.data, lines.size, status, sizeof status);
    shamir_answer parsed = shamir_parse(lines.data, lines.size, &share, value, sizeof value);
    shamir_answer repaired = shamir_repair(lines.data, lines.size, fits, sizeof fits);
    shamir_answer judged = shamir_judge("", 0, lines.data, lines.size, &judgement, alone, sizeof alone);

    MUST(judged.code == parsed.code && judged.line == 0 && (judged.code != SHAMIR_DONE || !judgement.again));
    MUST(judged.code != SHAMIR_DONE || told.code != SHAMIR_DONE ||
         (judged.written == told.written && memcmp(alone, status, (size_t)told.written) == 0));
    MUST(counted.code == told.code && counted.line == told.line);
    MUST(told.code != SHAMIR_DONE || (counted.first > 0) == (told.first >= told.second));
    MUST(parsed.code != SHAMIR_DONE || (repaired.code == SHAMIR_DONE && repaired.first == 1));
    MUST(parsed.code != SHAMIR_E_BAD_CHECKSUM || repaired.code == SHAMIR_E_BAD_CHECKSUM || repaired.code == SHAMIR_E_WRONG_WORD);
}

int LLVMFuzzerTestOneInput(const uint8_t *data, size_t size)
{
    size_t text_bytes = size > 2 ? strnlen((const char *)data + 2, size - 2) : 0, used = 3 + text_bytes;
    block text, lines, room;
    shamir_answer answer;

    if (size < 2)
        return 0;
    text = block_of(data + 2, text_bytes);
    lines = used < size ? block_of(data + used, size - used) : block_of("", 0);
    room.size = rooms[data[1] % (sizeof rooms / sizeof rooms[0])];
    room.data = malloc(room.size ? room.size : 1);
    MUST(room.data != NULL);
    memset(room.data, UNTOUCHED, room.size);
    answer = call(data[0], text, lines, room);
    check_answer(answer, room);
    check_lines(lines);
    free(text.data);
    free(lines.data);
    free(room.data);
    return 0;
}
