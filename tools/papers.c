/*
 * Takes mnemonics from standard input as shamir_papers keeps them, and prints what is known after each. A line "- ID GROUP MEMBER" takes
 * one out. Then it recovers the secret of the backup that came last, and drills it. A later drill begins after the first quorum.
 * tools/library compares what it prints.
 *
 *     papers BYTES ROOM FINGERPRINT NAMES
 *
 * BYTES is the length of the buffer for mnemonics, and ROOM that for a part of the drill. NAMES are those of the first quorum. The
 * passphrase is TREZOR.
 */
#include <stdio.h>
#include <stdlib.h>
#include <string.h>

#include "shamir.h"

static void take(shamir_papers *papers, const char *line)
{
    static char text[SHAMIR_STATUS_BYTES_MAX];
    unsigned id, group, member;
    const size_t used = papers->used;
    shamir_answer answer;

    if (sscanf(line, "- %u %u %u", &id, &group, &member) == 3) {
        answer = shamir_papers_remove(papers, (uint16_t)id, (uint8_t)group, (uint8_t)member);
        printf("removed %lu ", (unsigned long)answer.first);
        if (papers->used < used && (papers->lines[papers->used] || papers->lines[used - 1])) {
            puts("what was taken out isn't cleared");
        }
    } else {
        answer = shamir_papers_add(papers, line, strlen(line), text, sizeof text);
    }
    printf("code %u again %u enough %u used %lu\n", (unsigned)answer.code, papers->again, papers->enough, (unsigned long)papers->used);
    printf("%.*s", (int)papers->backup_bytes, papers->backup_bytes ? papers->backup : "");
}

/* Recovers, and prints what that shows of the papers. */
static void recover(shamir_papers *papers, const char *noted, size_t room_bytes)
{
    char *room = malloc(room_bytes);
    uint8_t secret[SHAMIR_SECRET_BYTES_MAX];
    const shamir_answer answer = shamir_papers_recover(papers, "TREZOR", SHAMIR_EXPONENT_MAX, noted, secret, sizeof secret, room, room_bytes);
    int group, member;

    printf("code %u bytes %lu", (unsigned)answer.code, (unsigned long)answer.written);
    if (answer.code == SHAMIR_E_TOO_SHORT) {
        printf(" needed %lu", (unsigned long)answer.first);
    }
    for (group = 0; group < SHAMIR_GROUPS_MAX; group++) {
        for (member = 0; member < 16; member++) {
            printf(papers->doubtful[group] >> member & 1 ? " doubtful %d.%d" : "", group, member);
        }
    }
    puts("");
    if (answer.code == SHAMIR_DONE && answer.first > 0) {
        printf("%lu mismatches\n%.*s", (unsigned long)answer.first, (int)answer.second, room);
    }
    free(room);
}

static void list(shamir_drilling *drilling)
{
    while (shamir_drill_next(drilling)) {
        printf("%lu of %lu: ", (unsigned long)drilling->number, (unsigned long)drilling->quorums);
        printf("%s %u", drilling->names, drilling->as_expected);
        printf(drilling->has_mismatch ? " mismatch %u\n" : "\n", drilling->mismatch);
    }
    printf("code %u written %lu\n", (unsigned)drilling->answer.code, (unsigned long)drilling->answer.written);
    /* A drill that has ended stays so. */
    if (shamir_drill_next(drilling)) {
        puts("another quorum");
    }
}

static void drill(const shamir_papers *papers, const char *noted, const char *first, size_t room_bytes)
{
    char *room = malloc(room_bytes);
    shamir_drilling drilling = shamir_drill_start(papers->backup, papers->backup_bytes, "TREZOR", SHAMIR_EXPONENT_MAX, noted, room, room_bytes);
    shamir_drilling later = drilling;

    list(&drilling);
    strcpy(later.names, first);
    later.number = 1;
    list(&later);
    free(room);
}

/* Whether NULL is as good as an empty passphrase. */
static int is_none(shamir_papers *papers, char *room, size_t room_bytes)
{
    uint8_t secret[SHAMIR_SECRET_BYTES_MAX] = {0}, same[SHAMIR_SECRET_BYTES_MAX] = {0};
    const shamir_answer answer = shamir_papers_recover(papers, NULL, SHAMIR_EXPONENT_MAX, NULL, secret, sizeof secret, room, room_bytes);
    const shamir_answer other = shamir_papers_recover(papers, "", SHAMIR_EXPONENT_MAX, NULL, same, sizeof same, room, room_bytes);
    shamir_drilling drilling =
        shamir_drill_start(papers->backup, papers->backup_bytes, NULL, SHAMIR_EXPONENT_MAX, "df41d8fe", room, room_bytes);
    const int is_listed = shamir_drill_next(&drilling);
    const int is_refused = answer.code != SHAMIR_DONE && answer.code != SHAMIR_E_DIGEST_MISMATCH;

    return answer.code == other.code && memcmp(secret, same, sizeof secret) == 0 && is_listed == !is_refused;
}

/* The code with which a maximum exponent of 0 is refused. */
static unsigned of_high_exponent(shamir_papers *papers, char *room, size_t room_bytes)
{
    uint8_t secret[SHAMIR_SECRET_BYTES_MAX];
    const unsigned code = shamir_papers_recover(papers, NULL, 0, NULL, secret, sizeof secret, room, room_bytes).code;
    shamir_drilling drilling = shamir_drill_start(papers->backup, papers->backup_bytes, NULL, 0, "df41d8fe", room, room_bytes);

    return shamir_drill_next(&drilling) || drilling.answer.code != code ? SHAMIR_DONE : code;
}

int main(int count, char **words)
{
    static char line[4 * SHAMIR_LINE_BYTES_MAX];
    shamir_papers papers;

    if (count != 5) {
        return 2;
    }
    memset(&papers, 0, sizeof papers);
    papers.lines_bytes = (size_t)atoi(words[1]);
    papers.lines = malloc(papers.lines_bytes);
    while (fgets(line, sizeof line, stdin)) {
        take(&papers, line);
    }
    recover(&papers, NULL, (size_t)atoi(words[2]));
    recover(&papers, words[3], (size_t)atoi(words[2]));
    drill(&papers, words[3], words[4], (size_t)atoi(words[2]));
    if (!is_none(&papers, line, sizeof line)) {
        puts("another answer without a passphrase");
    }
    if (of_high_exponent(&papers, line, sizeof line) == SHAMIR_E_HIGH_EXPONENT) {
        puts("an exponent above 0");
    }
    free(papers.lines);
    return 0;
}
