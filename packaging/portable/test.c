/*
 * This program recovers the secret of each vector, and makes each other call of shamir.h with an example. It compares the
 * answers with values that other programs computed.
 *
 *     cc -O2 test.c shamir.c && ./a.out
 *
 * It prints each difference, and its exit status is 1 if there is any.
 *
 * SPDX-License-Identifier: MIT
 */
#include <stdio.h>
#include <string.h>

#include "shamir.h"

#define KEY "TREZOR"
#define EM "email\nemerald\nemission\nemperor\nemphasis\nemployer\nempty\n"
#define SECRET "bb54aac4b89dc868ba37d9cc21b2cece"
#define PLAN "2/2of3,1of1,1of1"
#define RANDOM "000102030405060708090a0b0c0d0e0f10111213141516171819"
#define FIRST \
    "academic aluminum acrobat leaf buyer drink heat negative damage union purchase photo " \
    "inmate training amazing yield bucket wrote mule cluster\n"
#define SECOND \
    "academic aluminum acrobat lily august piece column laser headset unusual blimp nuclear " \
    "sweater criminal credit eyebrow trouble silent axis skin\n"
#define THIRD \
    "academic aluminum acrobat lungs dive behavior mobile ting perfect ultimate weapon join " \
    "paper involve clinic acrobat jerky preach gross usual\n"
#define FOURTH \
    "academic aluminum beard leader chest elite grant group club deploy increase divorce " \
    "puny cylinder romp frequent crush ruler erode bucket\n"
#define FIFTH \
    "academic aluminum ceramic leader cylinder decorate mobile devote echo finger program firm " \
    "starting dwarf grumpy harvest enforce raisin sprinkle phantom\n"

#define ANEW \
    "cleanup pecan academic academic broken exact editor public best party forecast darkness " \
    "burning yelp window mama warmth market laundry response\n"

/* A vector: its mnemonics in lines, and its secret in hexadecimal digits. It has none if the mnemonics are to be refused. */
typedef struct {
    const char *lines;
    const char *secret;
} vector;

static const vector vectors[] = {
@VECTORS@
};

static int differences;
static char text[SHAMIR_MNEMONICS_BYTES_MAX];

static void expect(const char *what, int is_right)
{
    if (!is_right) {
        printf("%s: another answer than is right\n", what);
        differences = 1;
    }
}

/* Returns whether a call succeeded and wrote this text. */
static int wrote(shamir_answer answer, const char *right)
{
    return answer.code == SHAMIR_DONE && answer.written == strlen(right) && memcmp(text, right, strlen(right)) == 0;
}

static size_t bytes_of(const char *digits, uint8_t *bytes)
{
    static const char all[] = "0123456789abcdef";
    size_t i;

    for (i = 0; digits[2 * i]; i++)
        bytes[i] = (uint8_t)((strchr(all, digits[2 * i]) - all) << 4 | (strchr(all, digits[2 * i + 1]) - all));
    return i;
}

static void check_vector(const vector *it)
{
    uint8_t right[SHAMIR_SECRET_BYTES_MAX], secret[SHAMIR_SECRET_BYTES_MAX];
    size_t bytes = bytes_of(it->secret, right);
    shamir_answer answer = shamir_recover(
        it->lines, strlen(it->lines), KEY, strlen(KEY), SHAMIR_EXPONENT_MAX, "", 0, secret, sizeof secret);

    if (bytes)
        expect(it->lines, answer.code == SHAMIR_DONE && answer.written == bytes && memcmp(secret, right, bytes) == 0);
    else
        expect(it->lines, answer.code > SHAMIR_E_HIGH_EXPONENT && answer.written == 0);
}

static void check_creation(void)
{
    uint8_t secret[SHAMIR_SECRET_BYTES_MAX], chance[SHAMIR_RANDOM_BYTES_MAX];
    size_t bytes = bytes_of(SECRET, secret), count = bytes_of(RANDOM, chance);
    shamir_answer needed = shamir_random_needed(PLAN, strlen(PLAN), bytes);

    expect("shamir_random_needed", needed.code == SHAMIR_DONE && needed.first == count);
    expect("shamir_create",
           wrote(shamir_create(PLAN, strlen(PLAN), secret, bytes, KEY, strlen(KEY), 0, 0, chance, count, text, sizeof text),
                 FIRST SECOND THIRD FOURTH FIFTH));
    expect("shamir_create with another flag",
           shamir_create(PLAN, strlen(PLAN), secret, bytes, KEY, strlen(KEY), 0, 2, chance, count, text, sizeof text).code ==
               SHAMIR_E_OUT_OF_RANGE);
    expect("shamir_fingerprint", wrote(shamir_fingerprint(secret, bytes, text, sizeof text), "df41d8fe"));
}

/* Another program computed the encrypted secret, and the texts that the rounds leave. */
static void check_encrypted(void)
{
    static const char two[] = FOURTH FIFTH;
    static const char *const texts[] = {
        SECRET, "7b3377e2884ece1fba37d9cc21b2cece", "5ba74e3c43bc2c757b3377e2884ece1f", "04447ff0a4a32f695ba74e3c43bc2c75"};
    uint8_t right[SHAMIR_SECRET_BYTES_MAX], value[SHAMIR_SECRET_BYTES_MAX], secret[SHAMIR_SECRET_BYTES_MAX];
    size_t bytes = bytes_of("ae3283670d8226e104447ff0a4a32f69", right);
    shamir_parameters parameters;
    shamir_answer answer = shamir_encrypted(two, strlen(two), &parameters, value, sizeof value);
    uint8_t round;

    expect("shamir_encrypted", answer.code == SHAMIR_DONE && answer.written == bytes && memcmp(value, right, bytes) == 0 &&
           parameters.id == 1 && parameters.extendable == 0 && parameters.exponent == 0);
    answer = shamir_decrypt(&parameters, value, bytes, KEY, strlen(KEY), "df41d8fe", 8, secret, sizeof secret);
    bytes = bytes_of(SECRET, right);
    expect("shamir_decrypt", answer.code == SHAMIR_DONE && answer.written == bytes && memcmp(secret, right, bytes) == 0);
    for (round = 4; round-- > 0; memcpy(value, secret, bytes)) {
        answer = shamir_decrypt_round(&parameters, round, value, bytes, KEY, strlen(KEY), secret, sizeof secret);
        (void)bytes_of(texts[round], right);
        expect("shamir_decrypt_round", answer.code == SHAMIR_DONE && answer.written == bytes && memcmp(secret, right, bytes) == 0);
    }
    answer = shamir_decrypt_round(&parameters, 4, value, bytes, KEY, strlen(KEY), secret, sizeof secret);
    expect("shamir_decrypt_round with a fifth round", answer.code == SHAMIR_E_OUT_OF_RANGE);
}

static void check_reading(void)
{
    static const char four[] = FIRST SECOND FOURTH, without[] = "academic aluminum acrobat leaf buyer drink heat negative damage union "
                                                                "purchase photo inmate training amazing yield bucket wrote mule ?";
    static const char extendable[] = "enemy favorite academic acid cowboy phrase havoc level response walnut budget painting inside trash adjust "
                                     "froth kitchen learn tidy punish\nenemy favorite academic always academic sniff script carpet romp kind "
                                     "promise scatter center unfair training emphasis evening belong fake enforce\n";
    static const uint8_t chance[] = {0x12, 0x34};
    uint8_t value[SHAMIR_SECRET_BYTES_MAX];
    shamir_judgement judgement;
    shamir_parameters parameters;
    shamir_share share;
    shamir_answer answer = shamir_parse(FIRST, strlen(FIRST) - 1, &share, value, sizeof value);

    expect("shamir_parse", answer.code == SHAMIR_DONE && answer.written == 16 && share.id == 1 && share.extendable == 0 &&
           share.exponent == 0 && share.group_index == 0 && share.group_threshold == 2 && share.group_count == 3 &&
           share.member_index == 0 && share.member_threshold == 2);
    answer = shamir_parse(SECOND, strlen(SECOND) - 1, &share, NULL, 0);
    expect("shamir_parse without a room", answer.code == SHAMIR_E_TOO_SHORT && answer.first == 16 && share.member_index == 1);
    expect("shamir_status", wrote(shamir_status(four, strlen(four), text, sizeof text),
           "groups 2 of 2\ngroup 0 members 2 of 2 0.0+0.1\ngroup 1 members 1 of 1 1.0\n"));
    answer = shamir_judge(four, strlen(four), THIRD, strlen(THIRD) - 1, &judgement, text, sizeof text);
    expect("shamir_judge", answer.first == 2 && answer.second == 2 && judgement.share.member_index == 2 && judgement.again == 0 &&
           wrote(answer, "groups 2 of 2\ngroup 0 members 3 of 2 0.0+0.1+0.2\ngroup 1 members 1 of 1 1.0\n"));
    answer = shamir_quorums(four, strlen(four));
    expect("shamir_quorums", answer.code == SHAMIR_DONE && answer.first == 1 && answer.written == 0);
    expect("shamir_drill", wrote(shamir_drill(four, strlen(four), KEY, strlen(KEY), SHAMIR_EXPONENT_MAX, "", 0, 9, SHAMIR_FORM_DIGITS,
           "", 0, text, sizeof text), "0.0+0.1+1.0 " SECRET "\nend\n"));
    expect("shamir_reissue", wrote(shamir_reissue(PLAN, strlen(PLAN), "0.2", 3, four, strlen(four), text, sizeof text), THIRD));
    expect("shamir_resplit", wrote(shamir_resplit("1of1", 4, extendable, strlen(extendable), chance, sizeof chance, text, sizeof text), ANEW));
    answer = shamir_encrypted(extendable, strlen(extendable), &parameters, value, sizeof value);
    expect("shamir_create_from_encrypted", wrote(shamir_create_from_encrypted("1of1", 4, &parameters, value, (size_t)answer.written,
           chance, sizeof chance, text, sizeof text), ANEW));
    expect("shamir_repair", wrote(shamir_repair(without, strlen(without), text, sizeof text), FIRST));
    expect("shamir_words", wrote(shamir_words("em", 2, text, sizeof text), EM));
}

static void check_telling(void)
{
    shamir_answer refused = shamir_words("", 0, NULL, 0);

    expect("a buffer that is too short", refused.code == SHAMIR_E_TOO_SHORT && refused.first == SHAMIR_WORDS_BYTES_MAX);
    expect("shamir_text", wrote(shamir_text(&refused, text, sizeof text), "buffer too short: 7231 bytes needed"));
    expect("shamir_version", wrote(shamir_version(text, sizeof text), SHAMIR_VERSION));
    shamir_wipe(text, sizeof text);
    expect("shamir_wipe", text[0] == 0 && memcmp(text, text + 1, sizeof text - 1) == 0);
}

int main(void)
{
    size_t i;

    for (i = 0; i < sizeof vectors / sizeof vectors[0]; i++)
        check_vector(&vectors[i]);
    check_creation();
    check_reading();
    check_encrypted();
    check_telling();
    if (!differences)
        printf("%u vectors and an example of each call: all answers are right\n", (unsigned)(sizeof vectors / sizeof vectors[0]));
    return differences;
}
