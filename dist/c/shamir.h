/*
 * shamir.h: SLIP-0039 backups of a master secret, for C and C++. The manual page shamir(3) is made of these comments.
 * SPDX-License-Identifier: MIT
 *
 * The library creates backups, reads and judges mnemonics, recovers secrets and runs drills. It also reports whether mnemonics are
 * enough for a recovery, counts quorums, gives and decrypts encrypted secrets and creates backups of them, computes lost mnemonics and
 * fingerprints of secrets, splits a backup anew by another plan, finds words that can't be read, and lists words of the word list. docs/LIBRARY.md introduces it with
 * examples.
 *
 * A backup consists of mnemonics, which are lines of words. A mnemonic spells a share, which has fields and a value: the bytes
 * that a recovery combines. shamir_parse gives both. Each mnemonic is a member of a group. Groups and members are numbered from
 * 0, and the name of a mnemonic has both numbers: 0.2 is member 2 of group 0.
 *
 * A group is complete if the number of its members at hand is at least its member threshold. Mnemonics are enough if the number
 * of complete groups is at least the group threshold. A quorum is a minimal set of mnemonics that is enough: no mnemonic of it
 * can be left out. A drill tries every quorum.
 *
 * The values of the members of a group combine to a group share, and the group shares combine to the encrypted secret. A digest
 * is four bytes by which the library usually detects values that don't belong together. A group with the member threshold 1
 * has no digest, and the group shares have none if the group threshold is 1.
 *
 * Each call works in buffers of its caller. It allocates no memory, makes no system call and keeps nothing between calls. It
 * returns for every input. Calls share no data, so any number of threads can make calls at once. The library as plain C
 * (dist/c) has this header too. There, each call but shamir_wipe takes memory from malloc, and frees it before it returns.
 *
 * A call uses at most SHAMIR_STACK_BYTES bytes of stack (as plain C far fewer); the main thread has more by default. In a thread
 * with a smaller stack, a call can crash the program. Give a thread more than SHAMIR_STACK_BYTES, because its own functions use
 * some too.
 *
 * A buffer is a pointer and a length in bytes. If the length is 0, the pointer isn't used and may be NULL. A pointer to a
 * struct must not be NULL. An output buffer or an output struct must not overlap any other argument. Lengths exclude any
 * terminating NUL; an embedded NUL is part of the text. No call writes a terminating NUL. Texts have the type char, and
 * secrets, values and random bytes have the type uint8_t. So a compiler can warn if a text and bytes are exchanged.
 *
 * Each call of the library but shamir_wipe returns a shamir_answer. If its code is SHAMIR_DONE, the call succeeded. The output is
 * at the start of the output buffer, and the bytes after it are unchanged. The answer's field "written" is the length of the output.
 * Any other code is a refusal. On refusal the output buffer is unchanged, and "written" is 0. The output struct is unchanged too,
 * unless the output buffer is too short: then the struct is as after success. Functions that stand in the header alone are tested,
 * and not proved.
 *
 * Before a call that gets a secret, a passphrase or a mnemonic returns, it clears the stack that it used. This is tested, not
 * proved. It clears no registers. The caller clears its own buffers, with shamir_wipe. examples/c/cleared.c keeps them out of swap
 * and core files too. The time of a call can depend on secrets. docs/PROOFS.md says what is proved and what isn't.
 */
#ifndef SHAMIR_H
#define SHAMIR_H

#include <stddef.h>
#include <stdint.h>
#include <string.h>

/*
 * The version of this header, as a text and as a number. shamir_version gives the version of the library. The number is
 * 1000000 * A + 1000 * B + C for the version A.B.C, so a later version has a greater number.
 */
#define SHAMIR_VERSION "1.0.0"
#define SHAMIR_VERSION_NUMBER 1000000

#ifdef __cplusplus
extern "C" {
#endif

/* The minimum and maximum length of a master secret, and of the value of a mnemonic. The length is even. */
#define SHAMIR_SECRET_BYTES_MIN 16
#define SHAMIR_SECRET_BYTES_MAX 128

/* The maximum number of random bytes that a backup takes. */
#define SHAMIR_RANDOM_BYTES_MAX 32574

/* The maximum length of a mnemonic that a call writes, and of all mnemonics of a backup with a line feed after each. */
#define SHAMIR_MNEMONIC_BYTES_MAX 989
#define SHAMIR_MNEMONICS_BYTES_MAX 253440

/* The maximum number of mnemonics in a backup. */
#define SHAMIR_MNEMONICS_MAX 256

/* The maximum number of groups of a backup. */
#define SHAMIR_GROUPS_MAX 16

/* The maximum length of a line, without its line feed, for the calls that take lines. It applies to comments too. */
#define SHAMIR_LINE_BYTES_MAX 1024

/* The maximum length of a list of names, such as the cursor of shamir_drill. */
#define SHAMIR_NAMES_BYTES_MAX 1215

/* The maximum length of the output of shamir_status. */
#define SHAMIR_STATUS_BYTES_MAX 1638

/* The length of a fingerprint. */
#define SHAMIR_FINGERPRINT_BYTES_MAX 8

/* An output buffer of this length is enough for every call of shamir_drill. */
#define SHAMIR_LISTING_BYTES_ENOUGH 2700

/* The maximum length of the output of shamir_words: that of all 1,024 words, with a line feed after each. */
#define SHAMIR_WORDS_BYTES_MAX 7231

/* The maximum length of the output of shamir_repair: that of two mnemonics, each with its line feed. */
#define SHAMIR_REPAIRED_BYTES_MAX 1980

/* The forms in which a listing of shamir_drill tells secrets: their digits, their fingerprints, or whether one is expected. */
#define SHAMIR_FORM_DIGITS 0
#define SHAMIR_FORM_FINGERPRINTS 1
#define SHAMIR_FORM_EXPECTED 2

/* The maximum length of the output of shamir_text. */
#define SHAMIR_TEXT_BYTES_MAX 64

/* The maximum iteration exponent, which shamir_create explains. As max_exponent, it allows every exponent. */
#define SHAMIR_EXPONENT_MAX 15

/* The maximum number of bytes of stack that a call uses. It is measured, not proved. */
#define SHAMIR_STACK_BYTES 524288

/* If the code is SHAMIR_E_DIGEST_MISMATCH, first is the group whose digest doesn't match, or this number for the group shares. */
#define SHAMIR_OF_GROUPS 16

/*
 * These attributes let a compiler warn if an answer is ignored, or if a pointer to a struct is NULL. GCC warns of an ignored
 * answer even if the call is cast to void. If you mean to ignore an answer, assign it to a variable, and cast that variable to
 * void. The answer of shamir_text can be ignored without a warning (SHAMIR_CALL_IGNORABLE).
 */
#if defined(__GNUC__)
#define SHAMIR_CALL __attribute__((visibility("default"), warn_unused_result))
#define SHAMIR_CALL_IGNORABLE __attribute__((visibility("default")))
#define SHAMIR_STRUCT(position) __attribute__((nonnull(position)))
#else
#define SHAMIR_CALL
#define SHAMIR_CALL_IGNORABLE
#define SHAMIR_STRUCT(position)
#endif

/* A function whose body stands in this header. C89 has no keyword for it. */
#if defined(__GNUC__)
#define SHAMIR_INLINE static __inline__ __attribute__((warn_unused_result))
#elif defined(__cplusplus) || (defined(__STDC_VERSION__) && __STDC_VERSION__ >= 199901L)
#define SHAMIR_INLINE static inline
#else
#define SHAMIR_INLINE static
#endif

/*
 * The codes of an answer. A call that refuses gives the code of the first cause that applies. The command shamir uses the
 * same numbers, except 1 to 4, which only the library gives. Only the library as plain C gives 4, and it gives 4 before any other
 * code. The text of each code says what the fields "first" and "second" of such a refusal are. A field that it doesn't mention is
 * 0. Groups and members are numbered from 0. A later library of the same name may give further codes, so treat any other code as
 * a refusal too.
 */
typedef enum shamir_code {
    SHAMIR_DONE = 0,                      /* the call succeeded */
    SHAMIR_E_TOO_SHORT = 1,               /* the output buffer is too short; first: the number of bytes needed */
    SHAMIR_E_OUT_OF_RANGE = 2,            /* a number is out of range */
    SHAMIR_E_HIGH_EXPONENT = 3,           /* the exponent of the mnemonics is above max_exponent; first: this exponent */
    SHAMIR_E_NO_MEMORY = 4,               /* no memory is left for the call */
    SHAMIR_E_UNKNOWN_WORD = 11,           /* a word isn't in the word list; first: which word of the line it is, from 1 */
    SHAMIR_E_WORD_COUNT = 12,             /* a mnemonic can't have this number of words; first: the number of words */
    SHAMIR_E_BAD_CHECKSUM = 13,           /* the checksum is wrong */
    SHAMIR_E_BAD_PADDING = 14,            /* a padding bit isn't 0 */
    SHAMIR_E_GROUP_THRESHOLD = 15,        /* the group threshold is above the group count */
    SHAMIR_E_NO_MNEMONIC = 17,            /* no mnemonic fits a line of marks */
    SHAMIR_E_WRONG_WORD = 18,             /* the checksum is wrong; first: see shamir_repair */
    SHAMIR_E_UNREADABLE_WORDS = 19,       /* more than three places of a line are open; first: how many are */
    SHAMIR_E_OTHER_IDENTIFIER = 21,       /* the identifier differs from that of earlier lines */
    SHAMIR_E_OTHER_EXTENDABLE = 22,       /* the extendable flag differs from that of earlier lines */
    SHAMIR_E_OTHER_EXPONENT = 23,         /* the iteration exponent differs from that of earlier lines */
    SHAMIR_E_OTHER_GROUP_THRESHOLD = 24,  /* the group threshold differs from that of earlier lines */
    SHAMIR_E_OTHER_GROUP_COUNT = 25,      /* the group count differs from that of earlier lines */
    SHAMIR_E_OTHER_LENGTH = 26,           /* the length of the value differs from that of earlier lines */
    SHAMIR_E_OTHER_MEMBER_THRESHOLD = 27, /* the group has another member threshold in earlier lines; first: the group */
    SHAMIR_E_CONFLICTING_SHARE = 28,      /* this name has another value in an earlier line; first: the group, second: the member */
    SHAMIR_E_NO_SHARES = 29,              /* no line holds a mnemonic */
    SHAMIR_E_INCOMPLETE = 30,             /* too few groups are complete; first: how many are, second: the group threshold */
    SHAMIR_E_BAD_PLAN = 31,               /* the text isn't a plan */
    SHAMIR_E_PLAN_GROUPS = 32,            /* the plan has more than 16 groups, or fewer than its group threshold */
    SHAMIR_E_PLAN_MEMBERS = 33,           /* a group has more than 16 members, or fewer than its threshold; first: the group */
    SHAMIR_E_ONE_OF_MANY = 34,            /* a group has several members and the member threshold 1; first: the group */
    SHAMIR_E_PASSPHRASE = 41,             /* a byte of the passphrase isn't printable ASCII; first: which byte it is, from 1 */
    SHAMIR_E_SECRET_LENGTH = 42,          /* a secret can't have this number of bytes; first: the number of bytes */
    SHAMIR_E_RANDOM_LENGTH = 43,          /* the number of random bytes is wrong; first: the number of bytes needed */
    SHAMIR_E_BAD_FINGERPRINT = 44,        /* the expected fingerprint isn't eight hexadecimal digits */
    SHAMIR_E_DIGEST_MISMATCH = 51,        /* a digest doesn't match; first: the group, or SHAMIR_OF_GROUPS for the group shares */
    SHAMIR_E_OTHER_SECRET = 52,           /* the secret has another fingerprint than the expected one */
    SHAMIR_E_BAD_CURSOR = 61,             /* the cursor isn't a list of names */
    SHAMIR_E_NOT_A_QUORUM = 62,           /* the cursor doesn't name a quorum of these mnemonics */
    SHAMIR_E_BAD_NAMES = 63,              /* the text isn't a list of names */
    SHAMIR_E_NOT_IN_PLAN = 64,            /* a name isn't in the plan; first: the group, second: the member */
    SHAMIR_E_OTHER_PLAN = 65,             /* a mnemonic can't belong to a backup of this plan */
    SHAMIR_E_UNDETERMINED = 66,           /* a mnemonic isn't determined; first: 256 * group + member, second: see shamir_reissue */
    SHAMIR_E_NOT_EXTENDABLE = 67,         /* the mnemonics don't have the extendable flag, so they can't be split anew */
    SHAMIR_E_SAME_IDENTIFIER = 68,        /* the random bytes give the identifier that the mnemonics have */
    SHAMIR_E_LINE_TOO_LONG = 71           /* a line has more than SHAMIR_LINE_BYTES_MAX bytes */
} shamir_code;

/*
 * The answer of a call.
 *
 * line is the number of the refused line, counted from 1, for the codes 11 to 15, 21 to 28 and 71 of calls that take lines.
 * Otherwise it is 0. Only shamir_drill sets the field "mismatches"; in answers of other calls this field is 0. first and second are the
 * details of a refusal. After success, first is a result of shamir_random_needed, shamir_create, shamir_drill, shamir_status,
 * shamir_judge, shamir_quorums, shamir_resplit, shamir_create_from_encrypted and shamir_repair, and second of shamir_drill,
 * shamir_status and shamir_judge. Otherwise they are 0.
 */
typedef struct shamir_answer {
    uint32_t code;       /* a shamir_code: SHAMIR_DONE, or the cause of the refusal */
    uint32_t mismatches; /* how many listed quorums have a digest mismatch, or another secret than the expected one */
    uint64_t line;       /* the refused line, or 0 */
    uint64_t first;      /* the first detail or result, or 0 */
    uint64_t second;     /* the second detail or result, or 0 */
    uint64_t written;    /* how many bytes the call wrote to its output buffer */
} shamir_answer;

/* The fields of a mnemonic. Its value isn't among them. */
typedef struct shamir_share {
    uint16_t id;              /* the identifier of the backup, 0 to 32767 */
    uint8_t extendable;       /* the extendable flag, 0 or 1 */
    uint8_t exponent;         /* the iteration exponent, 0 to 15 */
    uint8_t group_index;      /* the group, 0 to 15 */
    uint8_t group_threshold;  /* 1 to group_count */
    uint8_t group_count;      /* 1 to 16 */
    uint8_t member_index;     /* the member of the group, 0 to 15 */
    uint8_t member_threshold; /* 1 to 16 */
} shamir_share;

/* What a mnemonic is beside those that came before it. */
typedef struct shamir_judgement {
    shamir_share share; /* its fields, as shamir_parse gives them */
    uint8_t again;      /* 1 if its share is among those that came before it, else 0 */
} shamir_judgement;

/* What decrypts an encrypted secret beside the passphrase. */
typedef struct shamir_parameters {
    uint16_t id;        /* the identifier of the backup, 0 to 32767 */
    uint8_t extendable; /* the extendable flag, 0 or 1 */
    uint8_t exponent;   /* the iteration exponent, 0 to 15 */
} shamir_parameters;

/*
 * Reads one mnemonic.
 *
 * line is the mnemonic, without its line feed, in whole words. Any number of spaces, tabs and carriage returns may stand before,
 * between and after the words. Upper-case letters count as lower-case ones. A line feed in line counts as part of a word, and the
 * call refuses that word with 11.
 *
 * The fields go to *share, and the value goes to the start of value. written is its length, an even number from
 * SHAMIR_SECRET_BYTES_MIN to SHAMIR_SECRET_BYTES_MAX. The value is as secret as the mnemonic. If you only want the fields, let
 * value_bytes be 0: the call then refuses with 1, and *share has the fields.
 *
 * The call refuses with the first of these that applies: 11 to 15, 1.
 *
 *     shamir_share share;
 *     uint8_t value[SHAMIR_SECRET_BYTES_MAX];
 *     shamir_answer answer = shamir_parse(line, strlen(line), &share, value, sizeof value);
 */
SHAMIR_CALL SHAMIR_STRUCT(3)
shamir_answer shamir_parse(const char *line, size_t line_bytes, shamir_share *share, uint8_t *value, size_t value_bytes);

/*
 * Computes how many random bytes shamir_create takes. After success, the field first of the answer is this number.
 *
 * plan is the text of the plan: TofN for one group, or GT/T1ofN1,T2ofN2,.. for up to 16 groups. GT is the group threshold,
 * and at most the number of groups. Each T is the member threshold of a group, and each N is its number of members. T is at
 * most N, and may be 1 only if N is 1. Each number is from 1 to 16, without leading zeros. A plan has no spaces.
 *
 * secret_bytes is the length of the master secret.
 *
 * The call refuses with the first of these that applies: 31 to 34, 42. The groups of a plan are judged one after the other, so
 * the first group that can't be in a plan is refused: 2/1of3,5of2 with 34 for group 0, and not with 33 for group 1.
 *
 *     shamir_answer answer = shamir_random_needed("2of3", 4, 16);
 *     size_t random_bytes = (size_t)answer.first;
 */
SHAMIR_CALL
shamir_answer shamir_random_needed(const char *plan, size_t plan_bytes, size_t secret_bytes);

/*
 * Creates a backup of a master secret.
 *
 * plan          the text of the plan, as for shamir_random_needed
 * secret        the master secret: an even number of bytes, SHAMIR_SECRET_BYTES_MIN to SHAMIR_SECRET_BYTES_MAX
 * passphrase    an additional secret, which a recovery needs too: printable ASCII, from the space to ~; it may be empty
 * exponent      the iteration exponent, 0 to SHAMIR_EXPONENT_MAX
 * extendable    1 to set the extendable flag, which leaves the identifier out of the encryption, or 0
 * random        exactly as many bytes as shamir_random_needed gives; they must be unpredictable, and no other backup may use
 *               them
 * mnemonics     the output: the mnemonics in the order of groups and members, with a line feed after each; an output buffer
 *               of SHAMIR_MNEMONICS_BYTES_MAX bytes is always enough
 *
 * After success, the field first of the answer is the number of mnemonics.
 *
 * Set the extendable flag of a new backup, as the example does. A later backup of the same secret, with the same passphrase and
 * exponent and this flag, then gives the same secret as the first with every other passphrase too. Leave the flag out if a wallet
 * that has to read the backup may not know it, because the flag came into the standard later than the rest. For that reason,
 * the command shamir leaves it out unless it is asked for.
 *
 * With a passphrase, give a new backup the exponent 1, as the standard's reference implementation does, or a greater one. The
 * exponent slows down only guesses of the passphrase, so without one, as in the example, 0 is enough. The command takes 0 by
 * default. Each step doubles the time of a guess, and of each recovery too, which takes longest in a hardware wallet.
 *
 * The call takes 10,000 * 2^exponent iterations of PBKDF2, and twice as many for a secret of more than 64 bytes. If mnemonics
 * is too short, the call refuses with 1 only after these iterations, and first is the length of all mnemonics.
 *
 * The call refuses with the first of these that applies: 2 (an exponent above 15, or extendable above 1), 31 to 34, 41, 42, 43, 1.
 *
 *     static char mnemonics[SHAMIR_MNEMONICS_BYTES_MAX];
 *     shamir_answer answer = shamir_create("2of3", 4, secret, 16, "", 0, 0, 1, random, 14, mnemonics, sizeof mnemonics);
 */
SHAMIR_CALL
shamir_answer shamir_create(
    const char *plan, size_t plan_bytes, const uint8_t *secret, size_t secret_bytes, const char *passphrase, size_t passphrase_bytes,
    uint32_t exponent, uint32_t extendable, const uint8_t *random, size_t random_bytes, char *mnemonics, size_t mnemonics_bytes);

/*
 * The arguments of shamir_create, each by its name. A field that an initializer leaves out is 0 or NULL.
 *
 * shamir_create_with calls shamir_create with them. It stands in the header alone, and refuses what that call refuses.
 *
 *     shamir_create_options options = {
 *         .plan = "2of3", .plan_bytes = 4, .secret = secret, .secret_bytes = 16, .extendable = 1, .random = random,
 *         .random_bytes = 14, .mnemonics = mnemonics, .mnemonics_bytes = sizeof mnemonics};
 *     shamir_answer answer = shamir_create_with(&options);
 */
typedef struct shamir_create_options {
    const char *plan;        /* the plan, whose length is plan_bytes */
    size_t plan_bytes;
    const uint8_t *secret;   /* the master secret, whose length is secret_bytes */
    size_t secret_bytes;
    const char *passphrase;  /* the passphrase, whose length is passphrase_bytes */
    size_t passphrase_bytes;
    uint32_t exponent;       /* the iteration exponent */
    uint32_t extendable;     /* the extendable flag, 0 or 1 */
    const uint8_t *random;   /* the random bytes, random_bytes of them */
    size_t random_bytes;
    char *mnemonics;         /* the output buffer, whose length is mnemonics_bytes */
    size_t mnemonics_bytes;
} shamir_create_options;

/* Calls shamir_create with these arguments. */
SHAMIR_INLINE SHAMIR_STRUCT(1) shamir_answer shamir_create_with(const shamir_create_options *options)
{
    return shamir_create(
        options->plan, options->plan_bytes, options->secret, options->secret_bytes, options->passphrase, options->passphrase_bytes,
        options->exponent, options->extendable, options->random, options->random_bytes, options->mnemonics, options->mnemonics_bytes);
}

/*
 * Recovers the master secret from mnemonics.
 *
 * lines has any number of lines. Each is a mnemonic as for shamir_parse, or a comment, or blank. A comment starts with #,
 * after any spaces, tabs and carriage returns. A blank line has only these. A line feed ends a line; the last line may lack
 * it. A repeated mnemonic changes nothing.
 *
 * The call recovers the secret from the first quorum, in the order of shamir_drill, and doesn't try further mnemonics. The
 * secret goes to the start of secret. written is its length, an even number from SHAMIR_SECRET_BYTES_MIN to
 * SHAMIR_SECRET_BYTES_MAX.
 *
 * expected is the fingerprint that the secret should have: eight hexadecimal digits, in lower or upper case, as
 * shamir_fingerprint gives them. If the secret has another fingerprint, the call refuses with 52. If expected is empty, nothing
 * is compared: a wrong passphrase then isn't detected, and gives another secret.
 *
 * The exponent of the mnemonics determines how long the call takes: 10,000 * 2^exponent iterations of PBKDF2, and twice as
 * many for a secret of more than 64 bytes. With the exponent 15 these take minutes. If the exponent is above max_exponent, the
 * call refuses with 3 before any iteration. SHAMIR_EXPONENT_MAX or a greater number allows every exponent. If secret is too
 * short, the call refuses with 1 only after the iterations.
 *
 * The call refuses with the first of these that applies: 44 (expected is neither empty nor such digits), 41, the code of the
 * first refused line (11 to 15, 21 to 28, 71), 29, 30, 3, 51, 52, 1.
 *
 *     uint8_t secret[SHAMIR_SECRET_BYTES_MAX];
 *     shamir_answer answer = shamir_recover(
 *         lines, lines_bytes, "TREZOR", 6, SHAMIR_EXPONENT_MAX, "df41d8fe", SHAMIR_FINGERPRINT_BYTES_MAX, secret, sizeof secret);
 */
SHAMIR_CALL
shamir_answer shamir_recover(
    const char *lines, size_t lines_bytes, const char *passphrase, size_t passphrase_bytes, uint32_t max_exponent, const char *expected,
    size_t expected_bytes, uint8_t *secret, size_t secret_bytes);

/*
 * Gives the encrypted secret of a backup, which shamir_decrypt decrypts with a passphrase.
 *
 * lines is as for shamir_recover, and the call combines the same quorum. It takes no passphrase and no iterations. So a program that
 * asks for the passphrase each time can keep the encrypted secret, with its parameters, in place of the mnemonics. If the backup is
 * extendable, shamir_create_from_encrypted writes them as the one mnemonic of the plan 1of1, of which this call gives them again, with
 * another identifier.
 *
 * The parameters go to *parameters, and the encrypted secret goes to the start of encrypted. written is its length, which is that of
 * the secret. If you only want the parameters, let encrypted_bytes be 0: the call then refuses with 1, and *parameters has them. If
 * the backup has no passphrase, the encrypted secret with its parameters is as secret as the secret itself.
 *
 * The call refuses with the first of these that applies: the code of the first refused line (11 to 15, 21 to 28, 71), 29, 30, 51, 1.
 *
 *     shamir_parameters parameters;
 *     uint8_t encrypted[SHAMIR_SECRET_BYTES_MAX];
 *     shamir_answer answer = shamir_encrypted(lines, lines_bytes, &parameters, encrypted, sizeof encrypted);
 */
SHAMIR_CALL SHAMIR_STRUCT(3)
shamir_answer shamir_encrypted(
    const char *lines, size_t lines_bytes, shamir_parameters *parameters, uint8_t *encrypted, size_t encrypted_bytes);

/*
 * Decrypts an encrypted secret with a passphrase.
 *
 * *parameters and encrypted are what shamir_encrypted gave. The secret goes to the start of secret. written is its length, which is
 * encrypted_bytes. expected and the iterations are as for shamir_recover, which gives the same secret from the mnemonics. No argument
 * limits the exponent: if you want a limit, look at that field before. The call refuses with 52 or 1 only after the iterations.
 *
 * The call refuses with the first of these that applies: 2 (a field of *parameters is out of its range), 44, 41, 42
 * (encrypted_bytes), 52, 1.
 *
 *     uint8_t secret[SHAMIR_SECRET_BYTES_MAX];
 *     shamir_answer answer = shamir_decrypt(
 *         &parameters, encrypted, encrypted_bytes, "TREZOR", 6, "df41d8fe", SHAMIR_FINGERPRINT_BYTES_MAX, secret, sizeof secret);
 */
SHAMIR_CALL SHAMIR_STRUCT(1)
shamir_answer shamir_decrypt(
    const shamir_parameters *parameters, const uint8_t *encrypted, size_t encrypted_bytes, const char *passphrase,
    size_t passphrase_bytes, const char *expected, size_t expected_bytes, uint8_t *secret, size_t secret_bytes);

/*
 * Undoes one of the four rounds of the cipher, so that a program can show how far a decryption is, and stop it.
 *
 * *parameters and passphrase are as for shamir_decrypt. Call it with the rounds 3, 2, 1 and 0, in this order: first with the encrypted
 * secret, and then with what the call before gave, which must be in another buffer than undone. The first call refuses what
 * shamir_decrypt without an expected fingerprint refuses, by the same code, and no later one is refused if there is room. The last text
 * is the secret that shamir_decrypt gives. Each call takes a quarter of its iterations.
 *
 * The text with this round undone goes to the start of undone. written is its length, which is encrypted_bytes. Clear each text:
 * passphrases can be tried on it with fewer iterations than on the encrypted secret, and after round 1 it ends with the second half of
 * the secret. The call compares no fingerprint: compare what shamir_fingerprint gives of the secret. It refuses with 1 only after the
 * iterations.
 *
 * The call refuses with the first of these that applies: 2 (a field of *parameters is out of its range, or round is above 3), 41, 42
 * (encrypted_bytes), 1.
 *
 *     uint8_t undone[SHAMIR_SECRET_BYTES_MAX];
 *     shamir_answer answer = shamir_decrypt_round(
 *         &parameters, 3, encrypted, encrypted_bytes, "TREZOR", 6, undone, sizeof undone);
 */
SHAMIR_CALL SHAMIR_STRUCT(1)
shamir_answer shamir_decrypt_round(
    const shamir_parameters *parameters, uint8_t round, const uint8_t *encrypted, size_t encrypted_bytes, const char *passphrase,
    size_t passphrase_bytes, uint8_t *undone, size_t undone_bytes);

/*
 * Runs a drill: the call tries the quorums of mnemonics, and lists what each of them recovers.
 *
 * lines, passphrase and max_exponent are as for shamir_recover. The cursor is the parameter named "after". If it is empty, the
 * call starts with the first quorum. If it names a quorum, such as 0.0+0.2+1.0, the call starts with the next one. The call
 * lists at most limit quorums, and limit is 1 or more.
 *
 * The parameter "form" says how a line tells the secret that its quorum recovers. For SHAMIR_FORM_DIGITS, the line has the secret
 * itself. For SHAMIR_FORM_FINGERPRINTS, it has the fingerprint of the secret, as shamir_fingerprint gives it, and the call writes
 * no secret. For SHAMIR_FORM_EXPECTED, the line says whether the secret has the fingerprint "expected", which is then eight
 * hexadecimal digits as for shamir_recover. The other forms don't use expected.
 *
 * The listing goes to the start of text, in the format of the command drill. It has a line for each quorum, and a last line:
 *
 *     NAMES SECRET                        the quorum recovers this secret, in lower-case hexadecimal digits; or SECRET is its
 *                                         fingerprint
 *     NAMES as expected                   the quorum recovers a secret with the expected fingerprint
 *     NAMES other secret                  the quorum recovers a secret with another fingerprint
 *     NAMES digest mismatch in group G    G is the lowest group whose digest doesn't match
 *     NAMES digest mismatch of groups     the digest of the group shares doesn't match
 *     end                                 this last line says that no quorum is left
 *     more after NAMES                    this last line says that more quorums are left; NAMES are the next cursor
 *
 * A line feed ends every line. NAMES are the names of a quorum in ascending order, joined by plus signs. In the last line they
 * are those of the last quorum listed. Names are ordered by their group, and then by their member, as numbers: 0.2 comes before
 * 0.10. Quorums come in ascending order: they are compared by their first names, then by their second names, and so on.
 *
 * After success, the field first of the answer is the number of listed quorums, and second is the offset of the last line in
 * text. The field "mismatches" is the number of listed quorums with a digest mismatch, or with another secret than the expected
 * one. Neither is a refusal here.
 *
 * The call stops at the limit. It also stops before the first quorum whose line, with the last line after it, doesn't fit
 * into text. A loop that passes the cursor in each last line to the next call lists every quorum exactly once. Copy the cursor
 * before the next call, because it must not overlap the output buffer. A cursor has at most SHAMIR_NAMES_BYTES_MAX bytes.
 *
 * The call refuses with 1 if the line of the first quorum to list and the last line after it don't fit into text. Then
 * the field "first" of the answer is their length. If no quorum comes after the cursor, the length is 4, for "end" and a line
 * feed. SHAMIR_LISTING_BYTES_ENOUGH bytes are always enough.
 *
 * The mnemonics of a quorum combine to an encrypted secret. Decrypting it takes the iterations of shamir_recover. The quorums
 * of one backup all combine to the same encrypted secret. A call keeps the results of its last four decryptions, so it
 * decrypts this encrypted secret only once. The next call decrypts it anew. So use an output buffer of about 65536 bytes: a
 * drill of a large backup takes many times as long if each call lists only one quorum. If text is too short for one quorum, the
 * call refuses with 1 only after the iterations.
 *
 * The call refuses with the first of these that applies: 2 (a limit of 0, or a form above 2), 61, 44 (if the form is
 * SHAMIR_FORM_EXPECTED), 41, the code of the first refused line (11 to 15, 21 to 28, 71), 29, 30, 3, 62, 1.
 *
 *     shamir_answer answer = shamir_drill(
 *         lines, lines_bytes, "TREZOR", 6, SHAMIR_EXPONENT_MAX, after, after_bytes, 1000, SHAMIR_FORM_FINGERPRINTS, NULL, 0, text,
 *         sizeof text);
 *     const char *last_line = text + answer.second;
 */
SHAMIR_CALL
shamir_answer shamir_drill(
    const char *lines, size_t lines_bytes, const char *passphrase, size_t passphrase_bytes, uint32_t max_exponent, const char *after,
    size_t after_bytes, uint32_t limit, uint32_t form, const char *expected, size_t expected_bytes, char *text, size_t text_bytes);

/*
 * Reports how many members of each group are among mnemonics, and whether the mnemonics are enough for a recovery.
 *
 * lines is as for shamir_recover. The call needs no passphrase, and decrypts nothing. A repeated mnemonic counts once. The
 * output goes to the start of text, in the format of the command status. It has at most SHAMIR_STATUS_BYTES_MAX bytes. The first
 * line is followed by a line for each group that has a member among the mnemonics, in ascending order:
 *
 *     groups C of R                   C groups are complete, and the group threshold is R
 *     group G members N of T NAMES    the group G has N members in lines, its member threshold is T, and NAMES are their names
 *
 * A line feed ends every line. NAMES are in ascending order, joined by plus signs. After success, the field first of the answer
 * is C, and second is R. The mnemonics have a quorum if and only if first is at least second. If they have none, the code is
 * still SHAMIR_DONE.
 *
 * The call refuses with the first of these that applies: the code of the first refused line (11 to 15, 21 to 28, 71), 29, 1.
 *
 *     char text[SHAMIR_STATUS_BYTES_MAX];
 *     shamir_answer answer = shamir_status(lines, lines_bytes, text, sizeof text);
 *     int enough = answer.code == SHAMIR_DONE && answer.first >= answer.second;
 */
SHAMIR_CALL
shamir_answer shamir_status(const char *lines, size_t lines_bytes, char *text, size_t text_bytes);

/*
 * What a status tells of one group.
 *
 * shamir_groups_of reads the lines of a status, which shamir_status or shamir_judge wrote, into groups, in the order of the lines.
 * It returns how many groups there are: SHAMIR_GROUPS_MAX or fewer. It stands in the header alone.
 *
 *     shamir_group groups[SHAMIR_GROUPS_MAX];
 *     size_t count = shamir_groups_of(text, (size_t)answer.written, groups);
 */
typedef struct shamir_group {
    uint8_t group;     /* the group index */
    uint8_t threshold; /* the member threshold */
    uint16_t members;  /* bit M is 1 if member M is among the mnemonics */
} shamir_group;

SHAMIR_INLINE size_t shamir_groups_of(const char *text, size_t text_bytes, shamir_group *groups)
{
    /* A line is `group G members N of T NAMES`. Its numbers are G, N, T, and those of each name, group before member. */
    size_t at = 0, count = 0;

    while (at < text_bytes && text[at] != '\n') {
        at++;
    }
    while (++at < text_bytes && count < SHAMIR_GROUPS_MAX) {
        unsigned place = 0, number = 0;
        shamir_group found = {0, 0, 0};

        for (; at < text_bytes && text[at] != '\n'; at++) {
            if (text[at] < '0' || '9' < text[at]) {
                continue;
            }
            number = 10 * number + (unsigned)(text[at] - '0');
            if (at + 1 < text_bytes && '0' <= text[at + 1] && text[at + 1] <= '9') {
                continue;
            }
            if (place == 0) {
                found.group = (uint8_t)number;
            } else if (place == 2) {
                found.threshold = (uint8_t)number;
            } else if (place > 3 && place % 2 == 0) {
                found.members = (uint16_t)(found.members | 1u << (number & 15u));
            }
            place++, number = 0;
        }
        groups[count++] = found;
    }
    return count;
}

/*
 * Judges a mnemonic beside those that came before it: whether it can be taken, whether it is there already, and what its backup
 * has with it.
 *
 * lines         the mnemonics that came before, as for shamir_recover; they may be of one backup or of several
 * line          the mnemonic to judge, as for shamir_parse
 * judgement     the output struct: the fields of the mnemonic, and whether its share is in lines already
 * text          the output: what shamir_status gives for line and those of lines that are of its backup; it has at most
 *               SHAMIR_STATUS_BYTES_MAX bytes
 *
 * Two mnemonics are taken to be of one backup if they have the same identifier. So a program can keep each paper that comes, even
 * if the first one is of another backup than the rest. The call needs no passphrase, and decrypts nothing.
 *
 * After success, the field first of the answer is the number of complete groups of this backup, and second is its group
 * threshold. There is a quorum if and only if first is at least second. If the field again of the judgement is 0, add the
 * mnemonic to lines, with a line feed between them. A line has at most SHAMIR_LINE_BYTES_MAX bytes.
 *
 * If the mnemonic itself is refused, the field line of the answer is 0. Otherwise it is the number of the first refused line of
 * lines. A line with another identifier is refused only if it isn't a mnemonic.
 *
 * The call refuses with the first of these that applies: 71 (line is too long), 11 to 15 (it isn't a mnemonic), the code of the
 * first refused line of lines (11 to 15, 22 to 28, 71), 22 to 28 (the share of line can't join those of lines with its
 * identifier), 1.
 *
 *     shamir_judgement judgement;
 *     char text[SHAMIR_STATUS_BYTES_MAX];
 *     shamir_answer answer = shamir_judge(lines, lines_bytes, line, strlen(line), &judgement, text, sizeof text);
 *     int enough = answer.code == SHAMIR_DONE && answer.first >= answer.second;
 */
SHAMIR_CALL SHAMIR_STRUCT(5)
shamir_answer shamir_judge(
    const char *lines, size_t lines_bytes, const char *line, size_t line_bytes, shamir_judgement *judgement, char *text,
    size_t text_bytes);

/*
 * Counts the quorums among mnemonics.
 *
 * lines is as for shamir_recover. The call needs no passphrase, and decrypts nothing. After success, the field first of the answer
 * is how many quorums shamir_drill lists if its cursor is empty and no limit or room stops it, or UINT64_MAX if there are more. If
 * the mnemonics have no quorum, first is 0, and the code is still SHAMIR_DONE. The call writes nothing.
 *
 * The call refuses with the first of these that applies: the code of the first refused line (11 to 15, 21 to 28, 71), 29.
 *
 *     shamir_answer answer = shamir_quorums(lines, lines_bytes);
 *     uint64_t quorums = answer.first;
 */
SHAMIR_CALL
shamir_answer shamir_quorums(const char *lines, size_t lines_bytes);

/*
 * Computes lost mnemonics of a backup from other mnemonics of it.
 *
 * plan          the text of the plan of the backup, or of that plan with more members in some groups; the added members are new
 *               members of this backup
 * names         the names of the wanted mnemonics, each once and in ascending order (see shamir_drill), joined by plus signs,
 *               such as 0.1+2.0
 * lines         the mnemonics, as for shamir_recover
 * mnemonics     the output: the wanted mnemonics in the order of names, with a line feed after each; an output buffer of
 *               SHAMIR_MNEMONICS_BYTES_MAX bytes is always enough
 *
 * The call needs no passphrase, and decrypts nothing. If a wanted mnemonic is among lines, it is the result. Otherwise the
 * members of its group that are among lines determine it, if they are at least as many as the member threshold. One member
 * fewer is enough if the number of other complete groups is at least the group threshold.
 *
 * In any other case the mnemonic isn't determined, and the call refuses with 66. Then first is 256 * group + member. Bits 24 to
 * 31 of second are the number of members of the group in lines, and bits 16 to 23 are the member threshold. Bits 8 to 15 are
 * the number of other complete groups, and bits 0 to 7 are the group threshold.
 *
 * This call is for mnemonics that were destroyed. If somebody else may have a lost mnemonic, create a new backup. If that
 * person may have a quorum, use a new secret too.
 *
 * If mnemonics is too short, the call refuses with 1, and first is the length of all wanted mnemonics.
 *
 * The call refuses with the first of these that applies: 31 to 34, 63, 64, the code of the first refused line (11 to 15, 21 to 28, 71),
 * 29, 65, then for each name in turn 66 or 51, then 1.
 *
 *     shamir_answer answer = shamir_reissue("2of3", 4, "0.1", 3, lines, lines_bytes, mnemonics, sizeof mnemonics);
 */
SHAMIR_CALL
shamir_answer shamir_reissue(
    const char *plan, size_t plan_bytes, const char *names, size_t names_bytes, const char *lines, size_t lines_bytes, char *mnemonics,
    size_t mnemonics_bytes);

/*
 * Splits the encrypted secret of an extendable backup anew, by another plan, and gives the mnemonics of this new backup.
 *
 * plan          the text of the plan of the new backup, as for shamir_random_needed
 * lines         sufficient mnemonics of the old backup, as for shamir_recover
 * random        exactly as many bytes as shamir_create takes for this plan and a secret as long as the value of a mnemonic; they
 *               must be unpredictable, and no other backup may use them
 * mnemonics     the output: the mnemonics of the new backup in the order of groups and members, with a line feed after each; an
 *               output buffer of SHAMIR_MNEMONICS_BYTES_MAX bytes is always enough
 *
 * After success, the field first of the answer is the number of mnemonics.
 *
 * The call needs no passphrase, and decrypts nothing, so the exponent doesn't matter for its time. The new backup has the flag and
 * the exponent of the old one. With each passphrase, it gives the secret that the old one gives with it. The new mnemonics are
 * those that shamir_create gives for that secret, with this passphrase, exponent and flag, by the plan and the random bytes.
 *
 * The random bytes are used as shamir_create uses them, so the first two give the new identifier. If that is the old one, the call
 * refuses with 68: draw other bytes. Otherwise mnemonics of both backups would be taken for those of one.
 *
 * If the number of random bytes is wrong, the call refuses with 43, and first is the number. It is at least 2. So a call without
 * random bytes tells the number, or refuses with what comes before 43. If mnemonics is too short, the call refuses with 1, and
 * first is the length of all mnemonics.
 *
 * As shamir_recover does, the call uses the first quorum, and doesn't try further mnemonics. The old mnemonics go on giving the
 * secret until they are destroyed. If somebody may have a quorum of them, use a new secret too.
 *
 * The call refuses with the first of these that applies: 31 to 34, the code of the first refused line (11 to 15, 21 to 28, 71), 29, 30, 51,
 * 67, 43, 68, 1.
 *
 *     shamir_answer answer = shamir_resplit("3of5", 4, lines, lines_bytes, random, random_bytes, mnemonics, sizeof mnemonics);
 */
SHAMIR_CALL
shamir_answer shamir_resplit(
    const char *plan, size_t plan_bytes, const char *lines, size_t lines_bytes, const uint8_t *random, size_t random_bytes, char *mnemonics,
    size_t mnemonics_bytes);

/*
 * Creates a backup of the encrypted secret of an extendable backup, by a plan, and gives its mnemonics.
 *
 * plan          the text of the plan, as for shamir_random_needed
 * parameters    those that shamir_encrypted gave
 * encrypted     the encrypted secret that it gave with them
 * random        exactly as many bytes as shamir_random_needed says for this plan and encrypted_bytes; they must be unpredictable, and no
 *               other backup may use them
 * mnemonics     the output: the mnemonics in the order of groups and members, with a line feed after each; an output buffer of
 *               SHAMIR_MNEMONICS_BYTES_MAX bytes is always enough
 *
 * After success, the field first of the answer is the number of mnemonics.
 *
 * The call needs no passphrase, and decrypts nothing. With each passphrase, the new backup gives the secret that shamir_decrypt gives
 * of the encrypted one. shamir_encrypted and this call after it give what shamir_resplit gives: the flag and the exponent stay, and the
 * identifier changes. So a backup without the flag is refused with 67, and random bytes that give the old identifier with 68.
 *
 * If the number of random bytes is wrong, the call refuses with 43, and first is the number, which is at least 2. If mnemonics is too
 * short, the call refuses with 1, and first is the length of all mnemonics.
 *
 * The call refuses with the first of these that applies: 2 (a field of *parameters is out of its range), 31 to 34, 42 (encrypted_bytes),
 * 67, 43, 68, 1.
 *
 *     shamir_answer answer = shamir_create_from_encrypted(
 *         "3of5", 4, &parameters, encrypted, encrypted_bytes, random, random_bytes, mnemonics, sizeof mnemonics);
 */
SHAMIR_CALL SHAMIR_STRUCT(3)
shamir_answer shamir_create_from_encrypted(
    const char *plan, size_t plan_bytes, const shamir_parameters *parameters, const uint8_t *encrypted, size_t encrypted_bytes,
    const uint8_t *random, size_t random_bytes, char *mnemonics, size_t mnemonics_bytes);

/*
 * Finds the mnemonics that fit a line of which some words can't be read, or finds the place of a wrong word.
 *
 * The line is a list of marks, separated as the words of a mnemonic are. Upper-case letters count as lower-case ones. A word of
 * the word list stands for itself. Letters followed by one "?" stand for every word that begins with these letters, so "?" alone
 * stands for any word. A place is open if its mark stands for more than one word. A mnemonic fits if shamir_parse accepts it, it
 * has as many words as the line has marks, and each mark stands for the word at its place. Two mnemonics fit at most, and two
 * only if the second word is open, because that word holds the extendable flag.
 *
 * The mnemonics that fit go to the start of mnemonics, in ascending order of their words' indices in the word list. Each has
 * lower-case words with single spaces, and a line feed after it. first is how many they are: 1 or 2. SHAMIR_REPAIRED_BYTES_MAX
 * bytes are always enough.
 *
 * Each open place uses up one of the three words of the checksum. With three open places, a wrong word elsewhere isn't always
 * found, and the call may give another mnemonic. So compare the answer with all that can be read.
 *
 * For 11, first is which mark stands for no word, counted from 1. The code is 19 if more than three places are open, and 17 if
 * one to three are open and no mnemonic fits. The codes 13 to 15 and 18 are for lines with no open place. If the checksum is
 * wrong and another word in one place would make a mnemonic of the line, the code is 18: if one word is wrong, it is word number
 * first, counted from 1. There is at most one such place. If there is none, the code is 13.
 *
 * The call refuses with the first of these that applies: 11, 12, 19, 17, 18, 13, 14, 15, 1.
 *
 *     char mnemonics[SHAMIR_REPAIRED_BYTES_MAX];
 *     shamir_answer answer = shamir_repair(line, strlen(line), mnemonics, sizeof mnemonics);
 */
SHAMIR_CALL
shamir_answer shamir_repair(const char *line, size_t line_bytes, char *mnemonics, size_t mnemonics_bytes);

/*
 * Computes the fingerprint of a master secret, by which its owner can recognise the secret without seeing it.
 *
 * The fingerprint is the first four bytes of the HMAC-SHA256 of the secret with the key "shamir fingerprint" (18 bytes). The
 * call writes it as eight lower-case hexadecimal digits to the start of text. The command shamir gives the same digits.
 *
 * About one in 4,294,967,296 other secrets has the same fingerprint. Whoever has the fingerprint can test guesses of the secret
 * with it.
 *
 * The call refuses with the first of these that applies: 42, 1.
 *
 *     char text[SHAMIR_FINGERPRINT_BYTES_MAX];
 *     shamir_answer answer = shamir_fingerprint(secret, 16, text, sizeof text);
 */
SHAMIR_CALL
shamir_answer shamir_fingerprint(const uint8_t *secret, size_t secret_bytes, char *text, size_t text_bytes);

/*
 * Lists the words of the word list that begin with some letters, such as those that somebody has typed so far.
 *
 * The words come in the order of the list, with a line feed after each. Upper-case letters count as lower-case ones. No word
 * begins with any other byte. If there are no letters, the call gives all 1,024 words. If no word begins with the letters, it
 * writes nothing, and the code is still SHAMIR_DONE.
 *
 * The words go to the start of text. SHAMIR_WORDS_BYTES_MAX bytes are always enough.
 *
 * The only refusal is 1.
 *
 *     char text[SHAMIR_WORDS_BYTES_MAX];
 *     shamir_answer answer = shamir_words("em", 2, text, sizeof text);
 */
SHAMIR_CALL
shamir_answer shamir_words(const char *letters, size_t letters_bytes, char *text, size_t text_bytes);

/*
 * Gives the text of an answer, without its code and its line. For the same refusal, the command shamir prints the same text.
 *
 * The call writes the text of the answer to the start of the output buffer. SHAMIR_TEXT_BYTES_MAX bytes are always enough. The
 * text is "done" for the code 0, "buffer too short: N bytes needed" for 1, "number out of range" for 2, and "exponent E above
 * the maximum" for 3. The library as plain C gives "no memory left for the call" for 4. If no call returns the code of this
 * answer, the text is "unknown answer". If some call returns the code, but not together with the details of this answer, the
 * text may be "unknown answer" too.
 *
 * The only refusal is 1.
 *
 *     char text[SHAMIR_TEXT_BYTES_MAX];
 *     shamir_answer told = shamir_text(&answer, text, sizeof text);
 *     printf("%.*s\n", (int)told.written, text);
 */
SHAMIR_CALL_IGNORABLE SHAMIR_STRUCT(1)
shamir_answer shamir_text(const shamir_answer *answer, char *text, size_t text_bytes);

/*
 * Gives the version of the library, as SHAMIR_VERSION gives that of the header.
 *
 * The version goes to the start of text. SHAMIR_TEXT_BYTES_MAX bytes are enough for it.
 *
 * The only refusal is 1.
 *
 *     char text[SHAMIR_TEXT_BYTES_MAX];
 *     shamir_answer told = shamir_version(text, sizeof text);
 *     printf("%.*s\n", (int)told.written, text);
 */
SHAMIR_CALL
shamir_answer shamir_version(char *text, size_t text_bytes);

/*
 * Clears a buffer of the caller, such as one that held a secret: every byte of it becomes 0.
 *
 * A compiler may leave out a memset of memory that nobody reads again, and can't leave out this call. It refuses nothing, so it
 * returns no answer.
 *
 *     shamir_wipe(secret, sizeof secret);
 */
SHAMIR_CALL_IGNORABLE
void shamir_wipe(void *buffer, size_t buffer_bytes);

/*
 * A drill that goes from quorum to quorum, and compares each secret with a noted fingerprint.
 *
 * shamir_drill_start takes mnemonics, a maximum exponent and a passphrase as shamir_drill does, the noted fingerprint, and a room of
 * about 65536 bytes for parts of the listing, in which there is no secret. A NUL ends passphrase and fingerprint. All of these must stay
 * until the drill ends. If the passphrase is NULL, there is none. A fingerprint that is NULL or empty is refused with 44.
 *
 * shamir_drill_next goes on to the next quorum, and returns 1. If as_expected is 0, has_mismatch says whether a digest doesn't match or
 * the quorum gives another secret. If no quorum is left, or if the library refuses, it returns 0, and the field answer says which. The
 * refusals are those of shamir_drill. A program can stop after each quorum. A later drill goes on after it if the field names gets its
 * names before the first shamir_drill_next. It counts from 1, unless the field number gets another number.
 *
 * These functions stand in the header alone.
 *
 *     shamir_drilling drilling = shamir_drill_start(lines, lines_bytes, "TREZOR", SHAMIR_EXPONENT_MAX, "df41d8fe", text, sizeof text);
 *     while (shamir_drill_next(&drilling)) {
 *         printf("%s %s\n", drilling.names, drilling.as_expected ? "right" : drilling.has_mismatch ? "mismatch" : "other secret");
 *     }
 */
typedef struct shamir_drilling {
    const char *lines;      /* what shamir_drill_start got */
    size_t lines_bytes;
    const char *passphrase;
    const char *expected;
    char *text;
    size_t text_bytes;
    size_t at;              /* where the next line of this part is */
    size_t end;             /* where the lines of this part end */
    uint64_t number;        /* the number of this quorum, from 1 */
    uint64_t quorums;       /* how many quorums there are, or UINT64_MAX if there are more */
    shamir_answer answer;   /* SHAMIR_DONE, with nothing written, or why the library refuses */
    uint32_t max_exponent;
    uint32_t form;          /* the form of the listing */
    char names[SHAMIR_NAMES_BYTES_MAX + 1]; /* the names of this quorum, with a NUL after them */
    uint8_t as_expected;    /* 1 if its secret has the noted fingerprint, else 0 */
    uint8_t has_mismatch;   /* 1 if a digest of it doesn't match, else 0 */
    uint8_t mismatch;       /* then the lowest group whose digest doesn't match, or SHAMIR_OF_GROUPS; else 0 */
    uint8_t is_last;        /* 1 if no part is left, else 0 */
} shamir_drilling;

/* A fingerprint as the library takes it. There, an empty one is none, so one that is refused takes its place. */
SHAMIR_INLINE const char *shamir_expected(const char *expected) { return expected == NULL ? "" : *expected ? expected : "-"; }

/* Prepares a drill. */
SHAMIR_INLINE shamir_drilling shamir_drill_start(
    const char *lines, size_t lines_bytes, const char *passphrase, uint32_t max_exponent, const char *expected, char *text,
    size_t text_bytes)
{
    shamir_drilling drilling;

    memset(&drilling, 0, sizeof drilling);
    drilling.lines = lines;
    drilling.lines_bytes = lines_bytes;
    drilling.passphrase = passphrase == NULL ? "" : passphrase;
    drilling.expected = expected;
    drilling.text = text;
    drilling.text_bytes = text_bytes;
    drilling.max_exponent = max_exponent;
    drilling.form = SHAMIR_FORM_EXPECTED;
    return drilling;
}

/* For shamir_drill_next: lists the next part, and returns whether it has a quorum. Once the first part is there, it counts all quorums. */
SHAMIR_INLINE SHAMIR_STRUCT(1) int shamir_drill_list(shamir_drilling *drilling)
{
    const char *noted = shamir_expected(drilling->expected);
    const shamir_answer listed = shamir_drill(
        drilling->lines, drilling->lines_bytes, drilling->passphrase, strlen(drilling->passphrase), drilling->max_exponent, drilling->names,
        strlen(drilling->names), 0xffffffffu, drilling->form, noted, strlen(noted), drilling->text, drilling->text_bytes);

    drilling->is_last = 1;
    if (listed.code != SHAMIR_DONE) {
        drilling->answer = listed;
        return 0;
    }
    if (drilling->quorums == 0) {
        drilling->answer = shamir_quorums(drilling->lines, drilling->lines_bytes);
        drilling->quorums = drilling->answer.first;
        if (drilling->answer.code != SHAMIR_DONE) {
            return 0;
        }
    }
    drilling->at = 0;
    drilling->end = (size_t)listed.second;
    /* The last line is "end", or it begins with "more after". */
    drilling->is_last = drilling->text[drilling->end] == 'e';
    return drilling->end > 0;
}

/* For shamir_drill_next: reads what a line tells after the names. A mismatch of the group shares has no number. */
SHAMIR_INLINE SHAMIR_STRUCT(1) size_t shamir_drill_read(shamir_drilling *drilling)
{
    const char *told = drilling->text + drilling->at;
    unsigned group = SHAMIR_OF_GROUPS;
    size_t bytes = 0;

    drilling->as_expected = strncmp(told, " as expected\n", 13) == 0;
    drilling->has_mismatch = strncmp(told, " digest mismatch ", 17) == 0;
    for (; told[bytes] != '\n'; bytes++) {
        if ('0' <= told[bytes] && told[bytes] <= '9') {
            group = (group == SHAMIR_OF_GROUPS ? 0 : 10 * group) + (unsigned)(told[bytes] - '0');
        }
    }
    drilling->mismatch = (uint8_t)(drilling->has_mismatch ? group : 0);
    return bytes + 1;
}

/* Goes on to the next quorum of a drill. */
SHAMIR_INLINE SHAMIR_STRUCT(1) int shamir_drill_next(shamir_drilling *drilling)
{
    size_t count = 0;

    if (drilling->at == drilling->end && (drilling->is_last || !shamir_drill_list(drilling))) {
        return 0;
    }
    while (drilling->text[drilling->at] != ' ') {
        drilling->names[count++] = drilling->text[drilling->at++];
    }
    drilling->names[count] = '\0';
    drilling->at += shamir_drill_read(drilling);
    drilling->number++;
    return 1;
}

/*
 * Mnemonics as they come, one after the other, of one backup or of several. The library decides about each.
 *
 * Set lines to a buffer of lines_bytes bytes, and all other fields to 0. Then shamir_papers_add takes one mnemonic after the other,
 * and gives the answer and the text of shamir_judge. A line feed may end it. It keeps a mnemonic that isn't there yet, in lower-case words
 * with single spaces. If the buffer has no room for it, the code is 1, and the field first is the number of bytes that it takes. The code
 * is 1, too, if the status takes more bytes than text has; SHAMIR_STATUS_BYTES_MAX are always enough. If a mnemonic is refused, no
 * field of the struct changes. If the code is 1 or 4, text may be changed.
 *
 * shamir_papers_remove takes out the mnemonic of this group and member of the backup with this identifier, and clears it. The field first
 * of its answer is 1, or 0 if there is none. So a forged paper can make room for the right one, which is refused with 28 beside it. The only
 * refusal is 4.
 *
 * The field backup has the lines of the backup of the mnemonic that came last. Calls that take lines take them.
 * shamir_papers_recover calls shamir_recover with them. A NUL ends its passphrase and its fingerprint. If the passphrase is NULL,
 * there is none. If the fingerprint is NULL, nothing is compared, and an empty one is refused with 44.
 *
 * If a digest of the first quorum doesn't match, shamir_papers_recover tries the others too, and recovers the secret from the first
 * without a mismatch. So one wrong paper doesn't hide what the others give. After success, first is how many quorums have a mismatch. Their
 * names are at the start of text, as many as half of it has room for, with a line feed after each, and second is the length of these. The
 * field doubtful has the papers that are in such a quorum, and in none without a mismatch: the wrong ones are among them. If the first
 * quorum has no mismatch, no other one is tried, both numbers are 0, and no paper is doubtful. If each has one, the code is 51, with the
 * detail of the first quorum. At most 65536 quorums are tried. If there are more, some doubtful papers may be right.
 *
 * For that, text is a room of about 65536 bytes, in which there is no secret. If it has no room for the next quorum, the code is 1, and the
 * field first is a length that has.
 *
 * These functions stand in the header alone. The caller clears the buffer.
 *
 *     shamir_papers papers = {.lines = lines, .lines_bytes = sizeof lines};
 *     shamir_answer answer = shamir_papers_add(&papers, line, strlen(line), text, sizeof text);
 *     if (papers.enough) {
 *         answer = shamir_papers_recover(
 *             &papers, "TREZOR", SHAMIR_EXPONENT_MAX, "df41d8fe", secret, sizeof secret, text, sizeof text);
 *     }
 */
typedef struct shamir_papers {
    char *lines;         /* the buffer for all mnemonics; those of one backup stand together */
    size_t lines_bytes;  /* its length */
    size_t used;         /* how many bytes of it have mnemonics */
    const char *backup;  /* the lines of the backup of the mnemonic that came last */
    size_t backup_bytes; /* their length */
    uint8_t again;       /* 1 if the mnemonic that came last was there already, else 0 */
    uint8_t enough;      /* 1 if the mnemonics of its backup are enough for a recovery, else 0 */
    uint16_t doubtful[SHAMIR_GROUPS_MAX]; /* after a recovery, bit M of the number G is 1 if member M of group G is doubtful */
} shamir_papers;

/* For the functions below: gives the fields of the mnemonic at a place, and returns where its line ends. If the library refuses to read
   it, because as plain C it has no memory, it returns (size_t)-1. */
SHAMIR_INLINE SHAMIR_STRUCT(1) size_t shamir_papers_read(const shamir_papers *papers, size_t at, shamir_share *share)
{
    size_t end = at;
    shamir_answer answer;

    while (papers->lines[end] != '\n') {
        end++;
    }
    /* The call has no room for the value, so it refuses with 1, and gives the fields. */
    answer = shamir_parse(papers->lines + at, end - at, share, NULL, 0);
    return answer.code == SHAMIR_E_TOO_SHORT ? end + 1 : (size_t)-1;
}

/* For shamir_papers_add: finds the lines of a backup, and returns where they end. If there are none, their place is after all others.
   If there is no memory, it returns (size_t)-1, and changes nothing. */
SHAMIR_INLINE SHAMIR_STRUCT(1) size_t shamir_papers_find(shamir_papers *papers, uint16_t id)
{
    shamir_share share;
    size_t at, end, found_at = papers->used, found_end = papers->used;

    for (at = 0; at < papers->used; at = end) {
        end = shamir_papers_read(papers, at, &share);
        if (end == (size_t)-1) {
            return end;
        }
        if (share.id == id) {
            found_at = found_end == papers->used ? at : found_at;
            found_end = end;
        }
    }
    papers->backup = papers->lines + found_at;
    papers->backup_bytes = found_end - found_at;
    return found_end;
}

/* For the functions below: moves bytes behind those that are used to a place among these, and returns where they all end. No copy is
   left, as it exchanges bytes. */
SHAMIR_INLINE SHAMIR_STRUCT(1) size_t shamir_papers_move(const shamir_papers *papers, size_t used, size_t place, size_t bytes)
{
    size_t middle = used, next = used, end = used + bytes;
    char moved;

    while (bytes > 0 && place != next) {
        moved = papers->lines[place];
        papers->lines[place++] = papers->lines[next];
        papers->lines[next++] = moved;
        if (next == end) {
            next = middle;
        } else if (place == middle) {
            middle = next;
        }
    }
    return end;
}

/* For the functions below: an answer with this code, and nothing else. */
SHAMIR_INLINE shamir_answer shamir_answer_of(uint32_t code)
{
    shamir_answer answer;

    memset(&answer, 0, sizeof answer);
    answer.code = code;
    return answer;
}

/* Judges a mnemonic beside those that are there, and keeps it unless it is one of them. */
SHAMIR_INLINE SHAMIR_STRUCT(1) shamir_answer shamir_papers_add(
    shamir_papers *papers, const char *line, size_t line_bytes, char *text, size_t text_bytes)
{
    const size_t read = line_bytes > 0 && line[line_bytes - 1] == '\n' ? line_bytes - 1 : line_bytes;
    shamir_judgement found;
    shamir_answer kept, answer = shamir_judge(papers->lines, papers->used, line, read, &found, text, text_bytes);
    size_t place, bytes = 0;

    if (answer.code != SHAMIR_DONE) {
        return answer;
    }
    if (!found.again) {
        /* A mnemonic without open places fits itself alone. In C, not even 0 may be added to a pointer that is NULL. */
        kept = shamir_repair(
            line, read, papers->lines == NULL ? NULL : papers->lines + papers->used, papers->lines_bytes - papers->used);
        if (kept.code != SHAMIR_DONE) {
            return kept;
        }
        bytes = (size_t)kept.written;
    }
    place = shamir_papers_find(papers, found.share.id);
    if (place == (size_t)-1) {
        return shamir_answer_of(SHAMIR_E_NO_MEMORY);
    }
    papers->used = shamir_papers_move(papers, papers->used, place, bytes);
    papers->backup_bytes += bytes;
    papers->again = found.again;
    papers->enough = answer.first >= answer.second;
    return answer;
}

/* For shamir_papers_remove: takes out the line between two places, and counts again what is left of the backup that came last. If the
   library refuses that, the line comes back to its place. */
SHAMIR_INLINE SHAMIR_STRUCT(1) shamir_answer shamir_papers_take_out(shamir_papers *papers, size_t at, size_t end)
{
    const size_t bytes = end - at, used = papers->used, start = (size_t)(papers->backup - papers->lines);
    const int is_in_backup = start <= at && at < start + papers->backup_bytes;
    const size_t left = papers->backup_bytes - (is_in_backup ? bytes : 0);
    shamir_answer answer = shamir_answer_of(SHAMIR_DONE);

    papers->used = shamir_papers_move(papers, end, at, used - end) - bytes;
    if (is_in_backup && left > 0) {
        answer = shamir_quorums(papers->backup, left);
        if (answer.code != SHAMIR_DONE) {
            papers->used = shamir_papers_move(papers, papers->used, at, bytes);
            return answer;
        }
    }
    papers->backup -= at < start ? bytes : 0;
    papers->backup_bytes = left;
    papers->enough = is_in_backup ? answer.first > 0 : papers->enough;
    shamir_wipe(papers->lines + papers->used, bytes);
    answer.first = 1;
    return answer;
}

/* Takes out the mnemonic of a group and a member of a backup. */
SHAMIR_INLINE SHAMIR_STRUCT(1) shamir_answer shamir_papers_remove(shamir_papers *papers, uint16_t id, uint8_t group, uint8_t member)
{
    shamir_share share;
    size_t at, end;

    for (at = 0; at < papers->used; at = end) {
        end = shamir_papers_read(papers, at, &share);
        if (end == (size_t)-1) {
            return shamir_answer_of(SHAMIR_E_NO_MEMORY);
        }
        if (share.id == id && share.group_index == group && share.member_index == member) {
            return shamir_papers_take_out(papers, at, end);
        }
    }
    return shamir_answer_of(SHAMIR_DONE);
}

/* For shamir_papers_recover: marks each member that names name, and returns the length of the names. */
SHAMIR_INLINE size_t shamir_papers_mark(const char *names, uint16_t *members)
{
    unsigned group = 0, number = 0;
    size_t at;

    for (at = 0;; at++) {
        if ('0' <= names[at] && names[at] <= '9') {
            number = 10 * number + (unsigned)(names[at] - '0');
            continue;
        }
        if (names[at] == '.') {
            group = number & 15u;
        } else {
            members[group] = (uint16_t)(members[group] | 1u << (number & 15u));
        }
        if (names[at] == '\0') {
            return at;
        }
        number = 0;
    }
}

/* For shamir_papers_recover: moves the lines of these members to the beginning of their backup, and returns the length of these lines. If
   there is no memory, it returns (size_t)-1. */
SHAMIR_INLINE SHAMIR_STRUCT(1) size_t shamir_papers_choose(const shamir_papers *papers, const uint16_t *members)
{
    const size_t start = (size_t)(papers->backup - papers->lines);
    size_t at, end, chosen = start;
    shamir_share share;

    for (at = start; at < start + papers->backup_bytes; at = end) {
        end = shamir_papers_read(papers, at, &share);
        if (end == (size_t)-1) {
            return end;
        }
        if (members[share.group_index] >> share.member_index & 1) {
            chosen += shamir_papers_move(papers, at, chosen, end - at) - at;
        }
    }
    return chosen - start;
}

/* Recovers the secret of the backup of the mnemonic that came last. */
SHAMIR_INLINE SHAMIR_STRUCT(1) shamir_answer shamir_papers_recover(
    shamir_papers *papers, const char *passphrase, uint32_t max_exponent, const char *expected, uint8_t *secret, size_t secret_bytes,
    char *text, size_t text_bytes)
{
    const char *key = passphrase == NULL ? "" : passphrase, *noted = shamir_expected(expected);
    uint16_t chosen[SHAMIR_GROUPS_MAX], right[SHAMIR_GROUPS_MAX], wrong[SHAMIR_GROUPS_MAX];
    uint64_t mismatches = 0;
    size_t bytes, told = 0;
    int group, is_found = 0;
    shamir_drilling drilling;
    shamir_answer answer = shamir_recover(
        papers->backup, papers->backup_bytes, key, strlen(key), max_exponent, noted, strlen(noted), secret, secret_bytes);

    memset(papers->doubtful, 0, sizeof papers->doubtful);
    if (answer.code != SHAMIR_E_DIGEST_MISMATCH) {
        return answer;
    }
    memset(chosen, 0, sizeof chosen);
    memset(right, 0, sizeof right);
    memset(wrong, 0, sizeof wrong);
    drilling = shamir_drill_start(papers->backup, papers->backup_bytes, key, max_exponent, NULL, text, text_bytes);
    drilling.form = SHAMIR_FORM_FINGERPRINTS;
    while (drilling.number < 65536 && shamir_drill_next(&drilling)) {
        bytes = shamir_papers_mark(drilling.names, drilling.has_mismatch ? wrong : right);
        mismatches += drilling.has_mismatch;
        if (!drilling.has_mismatch && !is_found) {
            is_found = shamir_papers_mark(drilling.names, chosen) > 0;
        }
        if (drilling.has_mismatch && told + bytes < text_bytes / 2) {
            /* The names alone are shorter than the line that had them, so they have room before what comes after it. */
            memcpy(text + told, drilling.names, bytes);
            text[told + bytes] = '\n';
            told += bytes + 1;
        }
        if (drilling.at == drilling.end) {
            drilling.text = text + told;
            drilling.text_bytes = text_bytes - told;
            drilling.at = drilling.end = 0;
        }
    }
    if (drilling.answer.code != SHAMIR_DONE) {
        /* Half of text is for names, and the other half has to have room for the next quorum. */
        drilling.answer.first *= 2;
        return drilling.answer;
    }
    if (!is_found) {
        return answer;
    }
    bytes = shamir_papers_choose(papers, chosen);
    if (bytes == (size_t)-1) {
        return shamir_answer_of(SHAMIR_E_NO_MEMORY);
    }
    answer = shamir_recover(papers->backup, bytes, key, strlen(key), max_exponent, noted, strlen(noted), secret, secret_bytes);
    if (answer.code == SHAMIR_DONE) {
        answer.first = mismatches;
        answer.second = told;
        for (group = 0; group < SHAMIR_GROUPS_MAX; group++) {
            papers->doubtful[group] = (uint16_t)(wrong[group] & ~(unsigned)right[group]);
        }
    }
    return answer;
}

#ifdef __cplusplus
}
#endif

#endif
