/* Four clients of the library. The first line of standard input is the passphrase, except for repair. Papers are the
 * lines after it, or those of a file. Ctrl-C stops a drill. To stay short, it shows what is typed, and its streams keep
 * copies. A wallet hides it, and reads as recover.c does. `cc -Iinclude examples/c/wallet.c libshamir.a` builds it. */
#include <signal.h>
#include <stdio.h>
#include <string.h>
#include <sys/random.h>

#include "shamir.h"

static struct {
    uint8_t secret[SHAMIR_SECRET_BYTES_MAX], random[SHAMIR_RANDOM_BYTES_MAX];
    char lines[2 * SHAMIR_MNEMONICS_BYTES_MAX], text[SHAMIR_MNEMONICS_BYTES_MAX];
    char key[SHAMIR_LINE_BYTES_MAX + 2], paper[SHAMIR_LINE_BYTES_MAX + 2];
} own; /* all that may be secret */
static volatile sig_atomic_t stopped;

static void stop(int signal_number) { stopped = signal_number; }

static int fail(const char *why) { return fprintf(stderr, "%s\n", why) != 0; }

/* Prints what a call wrote to own.text, or why it was refused. Returns the status of the program. */
static int tell(const char *before, shamir_answer answer, FILE *refusals) {
    if (answer.code == SHAMIR_DONE)
        return printf("%s%.*s", before, (int)answer.written, own.text) < 0;
    if (answer.line)
        fprintf(refusals, "line %lu: ", (unsigned long)answer.line);
    fprintf(refusals, "%u ", (unsigned)answer.code);
    fprintf(refusals, "%.*s\n", (int)shamir_text(&answer, own.text, sizeof own.text).written, own.text);
    return 1;
}

/* Reads a line, without its line feed, and keeps only the beginning of one that is too long. Some calls take a NUL as
 * the end of a text, so it becomes a byte that every call refuses. Returns 0 at the end of the input. */
static int read_line(char *line, size_t room) {
    size_t bytes = 0;
    int next;

    while ((next = getchar()) != EOF && next != '\n')
        if (bytes + 1 < room)
            line[bytes++] = (char)(next ? next : 1);
    line[bytes] = 0;
    return bytes > 0 || next != EOF;
}

static int make(const char *plan) {
    const size_t bytes = strlen(plan), size = 16, needed = (size_t)shamir_random_needed(plan, bytes, size).first;
    const uint32_t exponent = 1, extendable = 1;
    shamir_answer answer;

    if (getrandom(own.secret, size, 0) != (ssize_t)size || getrandom(own.random, needed, 0) != (ssize_t)needed)
        return fail("no random bytes");
    answer = shamir_create(plan, bytes, own.secret, size, own.key, strlen(own.key), exponent, extendable, own.random,
                           needed, own.text, sizeof own.text);
    return tell("", answer, stderr) ||
           tell("# fingerprint ", shamir_fingerprint(own.secret, size, own.text, sizeof own.text), stderr) ||
           puts("") < 0;
}

static int recover(const char *noted) {
    shamir_papers papers = {.lines = own.lines, .lines_bytes = sizeof own.lines};
    shamir_answer answer = {.code = SHAMIR_E_DIGEST_MISMATCH};
    unsigned place;

    while (answer.code == SHAMIR_E_DIGEST_MISMATCH) {
        do {
            if (!read_line(own.paper, sizeof own.paper))
                return fail("more papers are needed");
            answer = shamir_papers_add(&papers, own.paper, strlen(own.paper), own.text, sizeof own.text);
            tell(papers.again ? "again\n" : "", answer, stdout);
        } while (!papers.enough);
        answer = shamir_papers_recover(&papers, own.key, SHAMIR_EXPONENT_MAX, noted, own.secret, sizeof own.secret,
                                       own.text, sizeof own.text);
        if (answer.code == SHAMIR_E_DIGEST_MISMATCH)
            tell("", answer, stdout);
    }
    for (place = 0; place < 256; place++)
        if (papers.doubtful[place / 16] >> place % 16 & 1)
            printf("doubtful %u.%u\n", place / 16, place % 16);
    if (answer.code == SHAMIR_DONE)
        answer = shamir_fingerprint(own.secret, (size_t)answer.written, own.text, sizeof own.text);
    return tell("fingerprint ", answer, stderr) || puts("") < 0;
}

static int drill(const char *noted, const char *name) {
    FILE *file = fopen(name, "r");
    size_t bytes = file ? fread(own.lines, 1, sizeof own.lines, file) : 0;
    shamir_drilling run =
        shamir_drill_start(own.lines, bytes, own.key, SHAMIR_EXPONENT_MAX, noted, own.text, sizeof own.text);

    if (!file || !feof(file))
        return fail("the file can't be read, or is too long");
    signal(SIGINT, stop);
    while (!stopped && shamir_drill_next(&run)) {
        printf("%lu of %lu: %s %sas expected\n", (unsigned long)run.number, (unsigned long)run.quorums, run.names,
               run.as_expected ? "" : "NOT ");
        fflush(stdout);
    }
    return stopped && *run.names ? printf("stopped after %s\n", run.names) < 0 : tell("", run.answer, stderr);
}

int main(int count, char **words) {
    const char *task =
        count > 1 && read_line(own.key, sizeof own.key) && strlen(own.key) + 1 < sizeof own.key ? words[1] : "";
    int status;

    status = strcmp(task, "make") == 0 && count == 3      ? make(words[2])
             : strcmp(task, "recover") == 0 && count == 3 ? recover(words[2])
             : strcmp(task, "drill") == 0 && count == 4   ? drill(words[2], words[3])
             : strcmp(task, "repair") == 0 && count == 2
                 ? tell("", shamir_repair(own.key, strlen(own.key), own.text, sizeof own.text), stderr)
                 : fail("give make PLAN, recover FINGERPRINT, drill FINGERPRINT FILE or repair, and a line of input");
    if (fflush(stdout) || ferror(stdout))
        status = fail("the output can't be written");
    shamir_wipe(&own, sizeof own);
    return status;
}
