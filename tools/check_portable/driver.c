/*
 * The tools run this program. It makes the calls of the library that standard input has, and writes what they give.
 *
 *     driver [HOW [COUNT]] < CALLS
 *
 * Each line of the input is a call: its name, its arguments in their order, and the room for its output, with single spaces between.
 * Bytes are hexadecimal digits after an x, and numbers are decimal. A dash stands for NULL. The program writes a line for each call:
 * the fields of its answer, those of the struct that it fills, and the output as hexadecimal digits. That struct is the judgement of
 * shamir_judge, whose first eight fields shamir_parse gives, and the first three shamir_encrypted. The program marks the bytes in and
 * round each output. If a call changes one that it mustn't, or one of its arguments, the line has the word `changed` too.
 *
 *     threads COUNT   makes all calls once in each of so many threads, and then once more. It writes the answers of the last time, and
 *                     before them `differs` if a thread got others (with -DTHREADED)
 *     stack           makes all calls on a stack of SHAMIR_STACK_BYTES bytes. The pages below it can't be touched, so a call that uses
 *                     more ends the program. The last line has the number of bytes that were touched (with -DTHREADED)
 *     times COUNT     makes each call so often, and writes the microseconds of processor time that one takes
 *
 * With -DOBSERVED, a line with what then lies on the stack below the caller follows each line: hexadecimal digits, from the lowest byte
 * that was touched. With -DMARKED, bytes after an X in place of the x are undefined for memcheck, so that it reports each branch and
 * each address that depends on them.
 */
#ifdef THREADED
#define _DEFAULT_SOURCE
#include <pthread.h>
#include <sys/mman.h>
#endif
#ifdef MARKED
#include <valgrind/memcheck.h>
#endif
#include <inttypes.h>
#include <stdio.h>
#include <stdlib.h>
#include <string.h>
#include <time.h>

#include "shamir.h"

#define MARK 0xA5
#define GUARD_BYTES 64
#define ARGUMENTS_MAX 10

/* An argument: bytes in a block of just their length, or a number. */
typedef struct {
    uint8_t *bytes;
    uint8_t *kept;
    size_t count;
    uint64_t number;
    int is_secret;
} argument;

typedef struct {
    char name[24];
    argument arguments[ARGUMENTS_MAX];
    int count;
    size_t room;
    int has_no_output;
} made_call;

/* What a call gives: its answer, the struct that it fills, its output between marked bytes, and whether it changed what it mustn't. */
typedef struct {
    shamir_answer answer;
    shamir_judgement judgement;
    uint8_t *output;
    size_t room;
    int is_changed;
} result;

#define TEXT(place) (const char *)c->arguments[place].bytes, c->arguments[place].count
#define BYTES(place) c->arguments[place].bytes, c->arguments[place].count
#define WIDE(place) c->arguments[place].number
#define NUMBER(place) (uint32_t)WIDE(place)
#define CHARACTERS (char *)r->output, r->room
/* Parameters, whose fields are three arguments from this place on. */
#define PARAMETERS(place) &(shamir_parameters){(uint16_t)WIDE(place), (uint8_t)WIDE((place) + 1), (uint8_t)WIDE((place) + 2)}

#define CALL(name, ...) \
    static void name(const made_call *c, result *r) \
    { \
        (void)c; \
        r->answer = shamir_##name(__VA_ARGS__); \
    }

CALL(parse, TEXT(0), &r->judgement.share, r->output, r->room)
CALL(random_needed, TEXT(0), NUMBER(1))
CALL(create, TEXT(0), BYTES(1), TEXT(2), NUMBER(3), NUMBER(4), BYTES(5), CHARACTERS)
CALL(recover, TEXT(0), TEXT(1), NUMBER(2), TEXT(3), r->output, r->room)
CALL(drill, TEXT(0), TEXT(1), NUMBER(2), TEXT(3), NUMBER(4), NUMBER(5), TEXT(6), CHARACTERS)
CALL(status, TEXT(0), CHARACTERS)
CALL(judge, TEXT(0), TEXT(1), &r->judgement, CHARACTERS)
CALL(quorums, TEXT(0))
CALL(reissue, TEXT(0), TEXT(1), TEXT(2), CHARACTERS)
CALL(resplit, TEXT(0), TEXT(1), BYTES(2), CHARACTERS)
CALL(repair, TEXT(0), CHARACTERS)
CALL(fingerprint, BYTES(0), CHARACTERS)
CALL(words, TEXT(0), CHARACTERS)
CALL(version, CHARACTERS)
CALL(text, &(shamir_answer){NUMBER(0), NUMBER(1), WIDE(2), WIDE(3), WIDE(4), WIDE(5)}, CHARACTERS)
CALL(decrypt, PARAMETERS(0), BYTES(3), TEXT(4), TEXT(5), r->output, r->room)
CALL(decrypt_round, PARAMETERS(0), (uint8_t)WIDE(3), BYTES(4), TEXT(5), r->output, r->room)
CALL(create_from_encrypted, TEXT(0), PARAMETERS(1), BYTES(4), BYTES(5), CHARACTERS)

static void encrypted(const made_call *c, result *r)
{
    shamir_parameters found = {(uint16_t)(MARK << 8 | MARK), MARK, MARK};

    r->answer = shamir_encrypted(TEXT(0), &found, r->output, r->room);
    r->judgement.share.id = found.id;
    r->judgement.share.extendable = found.extendable;
    r->judgement.share.exponent = found.exponent;
}

/* Clears the whole output, which it gets as an argument too. */
static void wipe(const made_call *c, result *r)
{
    shamir_answer none = {0, 0, 0, 0, 0, 0};

    if (r->output && c->arguments[0].count)
        memcpy(r->output, c->arguments[0].bytes, c->arguments[0].count);
    shamir_wipe(r->output, c->arguments[0].count);
    r->answer = none;
    r->answer.written = c->arguments[0].count;
}

#ifdef MARKED
/* Its branch and its address depend on secret bytes, so memcheck must report both. */
__attribute__((noinline)) static void control(const made_call *c, result *r)
{
    static volatile uint32_t table[256];

    if (c->arguments[0].bytes[0] > 7)
        table[0]++;
    r->answer.code = 0 * table[c->arguments[0].bytes[1]];
}
#endif

typedef void maker(const made_call *, result *);

static const struct {
    const char *name;
    maker *make;
    int arguments;
} calls[] = {
    {"parse", parse, 1},   {"random_needed", random_needed, 2}, {"create", create, 6},   {"recover", recover, 4},
    {"drill", drill, 7},   {"status", status, 1},               {"reissue", reissue, 3}, {"repair", repair, 1},
    {"fingerprint", fingerprint, 1}, {"words", words, 1},       {"text", text, 6},       {"version", version, 0},
    {"wipe", wipe, 1},     {"quorums", quorums, 1},             {"resplit", resplit, 3}, {"encrypted", encrypted, 1},
    {"decrypt", decrypt, 6}, {"judge", judge, 2},               {"create_from_encrypted", create_from_encrypted, 6},
    {"decrypt_round", decrypt_round, 6},
#ifdef MARKED
    {"control", control, 1},
#endif
};

static void *allocated(size_t bytes)
{
    void *block = malloc(bytes ? bytes : 1);

    if (!block)
        exit(3);
    return block;
}

static int digit(int letter)
{
    return letter <= '9' ? letter - '0' : letter - 'a' + 10;
}

/* Reads an argument. Bytes get two blocks: one for the call, and one that is compared with it afterwards. */
static argument argument_of(const char *word)
{
    argument it = {NULL, NULL, 0, 0, 0};
    size_t i;

    if (word[0] != 'x' && word[0] != 'X') {
        it.number = strtoull(word, NULL, 10);
        return it;
    }
    it.is_secret = word[0] == 'X';
    it.count = strlen(word + 1) / 2;
    it.bytes = (uint8_t *)allocated(it.count);
    it.kept = (uint8_t *)allocated(it.count);
    for (i = 0; i < it.count; i++)
        it.bytes[i] = (uint8_t)(digit(word[1 + 2 * i]) << 4 | digit(word[2 + 2 * i]));
    memcpy(it.kept, it.bytes, it.count);
    return it;
}

/* Reads a call from a line. The last word is the room. */
static made_call call_of(char *line)
{
    made_call c;
    char *word = strtok(line, " \r\n"), *following;

    memset(&c, 0, sizeof c);
    strncpy(c.name, word ? word : "", sizeof c.name - 1);
    for (word = strtok(NULL, " \r\n"); word; word = following) {
        following = strtok(NULL, " \r\n");
        if (!following) {
            c.room = (size_t)strtoul(word, NULL, 10);
            c.has_no_output = word[0] == '-';
        } else if (c.count < ARGUMENTS_MAX)
            c.arguments[c.count++] = argument_of(word);
    }
    return c;
}

static int is_marked(const uint8_t *bytes, size_t count)
{
    for (; count; bytes++, count--)
        if (*bytes != MARK)
            return 0;
    return 1;
}

static maker *maker_of(const made_call *c)
{
    size_t i;

    for (i = 0; i < sizeof calls / sizeof calls[0]; i++)
        if (strcmp(c->name, calls[i].name) == 0 && c->count == calls[i].arguments)
            return calls[i].make;
    exit(4);
}

/* Returns what a call has to begin with: its output has the marks, and so do the bytes round it. */
static result begun(const made_call *c)
{
    result r;
    uint8_t *block = (uint8_t *)allocated(c->room + 2 * GUARD_BYTES);

    memset(&r, 0, sizeof r);
    memset(&r.judgement, MARK, sizeof r.judgement);
    memset(block, MARK, c->room + 2 * GUARD_BYTES);
    r.output = block + GUARD_BYTES;
    r.room = c->room;
    return r;
}

static void end(result *r)
{
    free(r->output - GUARD_BYTES);
}

#ifdef OBSERVED
/* No call reaches so far down. */
#define STACK_BYTES (SHAMIR_STACK_BYTES + 65536)

static uint8_t seen[STACK_BYTES];

/* Makes a call. Then it copies what lies below its own frame, before it calls anything else. */
__attribute__((noinline)) static void make(maker *of, const made_call *c, result *r)
{
    volatile uint8_t *frame;
    size_t i;

#if defined(__aarch64__)
    __asm__ volatile("mov %0, sp" : "=r"(frame));
#else
    __asm__ volatile("mov %%rsp, %0" : "=r"(frame));
#endif
    for (i = 1; i <= STACK_BYTES; i++)
        frame[-(ptrdiff_t)i] = MARK;
    of(c, r);
    for (i = 1; i <= STACK_BYTES; i++)
        seen[STACK_BYTES - i] = frame[-(ptrdiff_t)i];
}
#elif defined(MARKED)
/* Makes a call. What it gives is defined again, as it may depend on what is secret. */
static void make(maker *of, const made_call *c, result *r)
{
    int i;

    for (i = 0; i < c->count; i++)
        if (c->arguments[i].is_secret)
            (void)VALGRIND_MAKE_MEM_UNDEFINED(c->arguments[i].bytes, c->arguments[i].count);
    of(c, r);
    for (i = 0; i < c->count; i++)
        (void)VALGRIND_MAKE_MEM_DEFINED(c->arguments[i].bytes, c->arguments[i].count);
    (void)VALGRIND_MAKE_MEM_DEFINED(&r->answer, sizeof r->answer);
    (void)VALGRIND_MAKE_MEM_DEFINED(r->output, r->room);
}
#else
static void make(maker *of, const made_call *c, result *r)
{
    of(c, r);
}
#endif

/* Makes a call, and looks at what it changed. */
static result made(const made_call *c)
{
    result r = begun(c);
    uint8_t *output = r.output;
    size_t i, written;

    if (c->has_no_output)
        r.output = NULL;
    make(maker_of(c), c, &r);
    r.output = output;
    written = (size_t)r.answer.written;
    r.is_changed = written > r.room || !is_marked(output - GUARD_BYTES, GUARD_BYTES) ||
        !is_marked(output + written, r.room - written + GUARD_BYTES);
    for (i = 0; i < (size_t)c->count; i++)
        if (c->arguments[i].count && memcmp(c->arguments[i].bytes, c->arguments[i].kept, c->arguments[i].count) != 0)
            r.is_changed = 1;
    return r;
}

static void write_digits(const uint8_t *bytes, size_t count)
{
    static const char digits[] = "0123456789abcdef";

    for (; count; bytes++, count--) {
        putchar(digits[*bytes >> 4]);
        putchar(digits[*bytes & 15]);
    }
}

static void write_result(const result *r)
{
    const shamir_share *share = &r->judgement.share;

    printf("%" PRIu32 " %" PRIu32 " %" PRIu64 " %" PRIu64 " %" PRIu64 " %" PRIu64, r->answer.code, r->answer.mismatches, r->answer.line,
           r->answer.first, r->answer.second, r->answer.written);
    printf(" %u %u %u %u %u %u %u %u %u %u ", share->id, share->extendable, share->exponent, share->group_index, share->group_threshold,
           share->group_count, share->member_index, share->member_threshold, r->judgement.again, r->is_changed);
    write_digits(r->output, r->answer.written <= r->room ? (size_t)r->answer.written : 0);
    printf("%s\n", r->is_changed ? " changed" : "");
}

#ifdef OBSERVED
static void write_seen(void)
{
    size_t lowest = 0;

    while (lowest < STACK_BYTES && seen[lowest] == MARK)
        lowest++;
    write_digits(seen + lowest, STACK_BYTES - lowest);
    putchar('\n');
}
#endif

static double microseconds_of(const made_call *c, int count)
{
    result r = begun(c);
    maker *of = maker_of(c);
    clock_t since = clock();
    int i;

    for (i = 0; i < count; i++)
        of(c, &r);
    if (r.answer.code != SHAMIR_DONE)
        exit(5);
    end(&r);
    return 1e6 * (double)(clock() - since) / CLOCKS_PER_SEC / count;
}

static made_call *all_calls;
static size_t call_count;

static void read_calls(void)
{
    size_t room = 1 << 22, most = 64;
    char *line = (char *)allocated(room);

    all_calls = (made_call *)allocated(most * sizeof *all_calls);
    while (fgets(line, (int)room, stdin)) {
        if (call_count == most) {
            most *= 2;
            all_calls = (made_call *)realloc(all_calls, most * sizeof *all_calls);
            if (!all_calls)
                exit(3);
        }
        all_calls[call_count++] = call_of(line);
    }
    free(line);
}

#ifdef THREADED
static void *made_in_thread(void *results)
{
    size_t i;

    for (i = 0; i < call_count; i++)
        ((result *)results)[i] = made(&all_calls[i]);
    return NULL;
}

static int are_equal(const result *one, const result *other)
{
    return memcmp(&one->answer, &other->answer, sizeof one->answer) == 0 && memcmp(&one->judgement, &other->judgement, sizeof one->judgement) == 0 &&
        memcmp(one->output, other->output, (size_t)one->answer.written) == 0 && !one->is_changed;
}

static int threads_differ(int count)
{
    pthread_t threads[64];
    result *results[64];
    size_t i;
    int k, differs = 0;

    for (k = 0; k < count; k++) {
        results[k] = (result *)allocated(call_count * sizeof *results[k]);
        if (pthread_create(&threads[k], NULL, made_in_thread, results[k]) != 0)
            exit(3);
    }
    for (k = 0; k < count; k++)
        (void)pthread_join(threads[k], NULL);
    for (k = 1; k < count; k++)
        for (i = 0; i < call_count; i++)
            differs |= !are_equal(&results[0][i], &results[k][i]);
    return differs;
}

/* The length of the memory below the stack that can't be touched. It is so long that no call reaches past it. */
#define BELOW_BYTES (16 << 20)

/* Makes all calls on a stack of SHAMIR_STACK_BYTES bytes. Returns how many of them were touched. */
static size_t touched(result *results)
{
    pthread_attr_t attributes;
    pthread_t thread;
    uint8_t *memory = (uint8_t *)mmap(NULL, BELOW_BYTES + SHAMIR_STACK_BYTES, PROT_NONE, MAP_PRIVATE | MAP_ANONYMOUS, -1, 0);
    uint8_t *stack = memory + BELOW_BYTES;
    size_t left = 0;

    if (memory == MAP_FAILED || mprotect(stack, SHAMIR_STACK_BYTES, PROT_READ | PROT_WRITE) != 0)
        exit(3);
    memset(stack, MARK, SHAMIR_STACK_BYTES);
    if (pthread_attr_init(&attributes) != 0 || pthread_attr_setstack(&attributes, stack, SHAMIR_STACK_BYTES) != 0 ||
        pthread_create(&thread, &attributes, made_in_thread, results) != 0 || pthread_join(thread, NULL) != 0)
        exit(3);
    while (left < SHAMIR_STACK_BYTES && stack[left] == MARK)
        left++;
    return SHAMIR_STACK_BYTES - left;
}

static void write_all_on_small_stack(void)
{
    result *results = (result *)allocated(call_count * sizeof *results);
    size_t i, bytes = touched(results);

    for (i = 0; i < call_count; i++)
        write_result(&results[i]);
    printf("%lu\n", (unsigned long)bytes);
}
#endif

static void write_all(void)
{
    size_t i;

    for (i = 0; i < call_count; i++) {
        result r = made(&all_calls[i]);

        write_result(&r);
#ifdef OBSERVED
        write_seen();
#endif
        end(&r);
    }
}

int main(int count, char **arguments)
{
    const char *how = count > 1 ? arguments[1] : "";
    int number = count > 2 ? atoi(arguments[2]) : 0;
    size_t i;

    read_calls();
    if (strcmp(how, "times") == 0) {
        for (i = 0; i < call_count; i++)
            printf("%.3f\n", microseconds_of(&all_calls[i], number));
        return 0;
    }
#ifdef THREADED
    if (strcmp(how, "stack") == 0) {
        write_all_on_small_stack();
        return 0;
    }
    if (threads_differ(number > 64 ? 64 : number))
        printf("differs\n");
#endif
    write_all();
    return 0;
}
