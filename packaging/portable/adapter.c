/* ---------- The adapter, written by hand: it makes the calls of shamir.h in the memory of a module ---------- */

/* An answer in the memory of the module: its fields one after the other. */
#define ANSWER_BYTES 40u
#define ANSWER ((HEAP_BASE + 7u) & ~7u)
/* The module has addresses of 32 bits. No call uses the last of them. */
#define MEMORY_BYTES_MAX 0xFFFF0000u
#define NO_MEMORY_TEXT "no memory left for the call"
#define SHARE_BYTES 10u
#define JUDGEMENT_BYTES 12u
#define PARAMETERS_BYTES 4u
/*
 * A frame of the generated part has at most this many bytes, with those of functions that it calls and that don't move the pointer.
 * Without optimisation, a frame alone can have 21 kB.
 */
#ifdef __OPTIMIZE__
#define FRAMES_BYTES 16384u
#else
#define FRAMES_BYTES 32768u
#endif
#define PARTS_MAX 4

/* What a call is given, which `begin` copies to the address `at`. */
typedef struct {
    const void *from;
    size_t bytes;
    u32 at;
} part;

/* A call: the memory of a module, and what goes there. */
typedef struct {
    module m;
    u64 end;          /* the address after all that has a place */
    u32 room;         /* the address of the output */
    int is_too_long;  /* whether the addresses of the module are too few */
    int count;
    part parts[PARTS_MAX];
} call;

static call new_call(void)
{
    call c;

    memset(&c, 0, sizeof c);
    c.end = ANSWER + ANSWER_BYTES;
    return c;
}

/* Gives this many bytes a place in the memory, and returns the address. */
static u32 place(call *c, size_t bytes)
{
    u64 at = (c->end + 7) & ~(u64)7;

    if (c->is_too_long || bytes > MEMORY_BYTES_MAX - at) {
        c->is_too_long = 1;
        return 0;
    }
    c->end = at + bytes;
    return (u32)at;
}

/* Gives an argument a place in the memory, and returns the address. */
static u32 given(call *c, const void *from, size_t bytes)
{
    part *it = &c->parts[c->count++];

    it->from = from;
    it->bytes = bytes;
    it->at = place(c, bytes);
    return it->at;
}

/* Returns a length of an output: no call writes more than `most` bytes there. */
static size_t at_most(size_t bytes, size_t most)
{
    return bytes < most ? bytes : most;
}

/*
 * Allocates the memory of the module with so many bytes of its stack, and copies constants and arguments into it. Returns 0 if there is
 * no memory.
 */
static int begin(call *c, u32 stack)
{
    void *block;
    int i;

    if (c->is_too_long)
        return 0;
    c->m.first = (STACK_BYTES - RED_ZONE_BYTES - stack) & ~15u;
    c->m.end = c->end + 8;
    block = SHAMIR_ALLOCATE((size_t)(c->m.end - c->m.first));
    if (!block)
        return 0;
    c->m.origin = (uintptr_t)block - (uintptr_t)c->m.first;
    c->m.pointer = c->m.lowest = STACK_BYTES;
    c->m.deepest = FRAME();
    memset(PLACE(&c->m, STACK_BYTES), 0, ANSWER + ANSWER_BYTES - STACK_BYTES);
    copy_constants(&c->m);
    for (i = 0; i < c->count; i++)
        if (c->parts[i].bytes)
            memcpy(PLACE(&c->m, c->parts[i].at), c->parts[i].from, c->parts[i].bytes);
    return 1;
}

/* Clears what the call used of its block, and frees it. */
static void end(call *c)
{
    u64 from = c->m.lowest - RED_ZONE_BYTES;

    clear(PLACE(&c->m, from), (size_t)(c->m.end - from));
    SHAMIR_RELEASE(PLACE(&c->m, c->m.first));
}

/* Returns how many bytes of the C stack to clear below this frame. */
static size_t stack_bytes(const call *c, uintptr_t frame)
{
    size_t reached = frame > c->m.deepest ? (size_t)(frame - c->m.deepest) : 0;

    return at_most(reached, SHAMIR_STACK_BYTES - 2 * FRAMES_BYTES) + FRAMES_BYTES;
}

static shamir_answer no_memory(void)
{
    shamir_answer answer;

    memset(&answer, 0, sizeof answer);
    answer.code = SHAMIR_E_NO_MEMORY;
    return answer;
}

static shamir_answer answer_of(const module *m)
{
    shamir_answer answer;

    answer.code = i32_load(m, ANSWER);
    answer.mismatches = i32_load(m, ANSWER + 4);
    answer.line = i64_load(m, ANSWER + 8);
    answer.first = i64_load(m, ANSWER + 16);
    answer.second = i64_load(m, ANSWER + 24);
    answer.written = i64_load(m, ANSWER + 32);
    return answer;
}

/* Gives the caller what the call answered and wrote, and ends the call. */
static shamir_answer finish(call *c, void *output)
{
    shamir_answer answer = answer_of(&c->m);

    if (answer.written)
        memcpy(output, PLACE(&c->m, c->room), (size_t)answer.written);
    end(c);
    return answer;
}

/*
 * Ends the call, clears the C stack below the frame of the function that makes it, and returns the answer. What is cleared begins at
 * that frame, which has nothing secret. A function of its own would clear less: its frame would lie where those of the call lay.
 */
#define RETURN_ANSWER(c, output) \
    do { \
        shamir_answer answered = finish(c, output); \
        size_t reached = stack_bytes(c, FRAME()); \
        clear(STACK_ROOM(reached), reached); \
        return answered; \
    } while (0)

/* Whether a call filled its output struct: it did, unless it refused what it reads. */
static int has_struct(const module *m)
{
    return i32_load(m, ANSWER) <= SHAMIR_E_TOO_SHORT;
}

static void copy_share(const module *m, u32 at, shamir_share *share)
{
    share->id = (uint16_t)i32_load16_u(m, at);
    share->extendable = *PLACE(m, at + 2);
    share->exponent = *PLACE(m, at + 3);
    share->group_index = *PLACE(m, at + 4);
    share->group_threshold = *PLACE(m, at + 5);
    share->group_count = *PLACE(m, at + 6);
    share->member_index = *PLACE(m, at + 7);
    share->member_threshold = *PLACE(m, at + 8);
}

shamir_answer shamir_parse(const char *line, size_t line_bytes, shamir_share *share, uint8_t *value, size_t value_bytes)
{
    call c = new_call();
    u32 from = given(&c, line, line_bytes), fields = place(&c, SHARE_BYTES);
    size_t room_bytes = at_most(value_bytes, SHAMIR_SECRET_BYTES_MAX);

    c.room = place(&c, room_bytes);
    if (!begin(&c, PARSE_STACK_BYTES))
        return no_memory();
    module_parse(&c.m, ANSWER, from, line_bytes, fields, c.room, room_bytes);
    if (has_struct(&c.m))
        copy_share(&c.m, fields, share);
    RETURN_ANSWER(&c, value);
}

shamir_answer shamir_random_needed(const char *plan, size_t plan_bytes, size_t secret_bytes)
{
    call c = new_call();
    u32 from = given(&c, plan, plan_bytes);

    if (!begin(&c, RANDOM_NEEDED_STACK_BYTES))
        return no_memory();
    module_random_needed(&c.m, ANSWER, from, plan_bytes, secret_bytes);
    RETURN_ANSWER(&c, NULL);
}

shamir_answer shamir_create(
    const char *plan, size_t plan_bytes, const uint8_t *secret, size_t secret_bytes, const char *passphrase, size_t passphrase_bytes,
    uint32_t exponent, uint32_t extendable, const uint8_t *random, size_t random_bytes, char *mnemonics, size_t mnemonics_bytes)
{
    call c = new_call();
    u32 from = given(&c, plan, plan_bytes), key = given(&c, secret, secret_bytes), words = given(&c, passphrase, passphrase_bytes),
        chance = given(&c, random, random_bytes);
    size_t room_bytes = at_most(mnemonics_bytes, SHAMIR_MNEMONICS_BYTES_MAX);

    c.room = place(&c, room_bytes);
    if (!begin(&c, CREATE_STACK_BYTES))
        return no_memory();
    module_create(
        &c.m, ANSWER, from, plan_bytes, key, secret_bytes, words, passphrase_bytes, exponent, extendable, chance, random_bytes, c.room,
        room_bytes);
    RETURN_ANSWER(&c, mnemonics);
}

shamir_answer shamir_recover(
    const char *lines, size_t lines_bytes, const char *passphrase, size_t passphrase_bytes, uint32_t max_exponent, const char *expected,
    size_t expected_bytes, uint8_t *secret, size_t secret_bytes)
{
    call c = new_call();
    u32 from = given(&c, lines, lines_bytes), words = given(&c, passphrase, passphrase_bytes), print = given(&c, expected, expected_bytes);
    size_t room_bytes = at_most(secret_bytes, SHAMIR_SECRET_BYTES_MAX);

    c.room = place(&c, room_bytes);
    if (!begin(&c, RECOVER_STACK_BYTES))
        return no_memory();
    module_recover(
        &c.m, ANSWER, from, lines_bytes, words, passphrase_bytes, max_exponent, print, expected_bytes, c.room, room_bytes);
    RETURN_ANSWER(&c, secret);
}

shamir_answer shamir_encrypted(
    const char *lines, size_t lines_bytes, shamir_parameters *parameters, uint8_t *encrypted, size_t encrypted_bytes)
{
    call c = new_call();
    u32 from = given(&c, lines, lines_bytes), fields = place(&c, PARAMETERS_BYTES);
    size_t room_bytes = at_most(encrypted_bytes, SHAMIR_SECRET_BYTES_MAX);

    c.room = place(&c, room_bytes);
    if (!begin(&c, ENCRYPTED_STACK_BYTES))
        return no_memory();
    module_encrypted(&c.m, ANSWER, from, lines_bytes, fields, c.room, room_bytes);
    if (has_struct(&c.m)) {
        parameters->id = (uint16_t)i32_load16_u(&c.m, fields);
        parameters->extendable = *PLACE(&c.m, fields + 2);
        parameters->exponent = *PLACE(&c.m, fields + 3);
    }
    RETURN_ANSWER(&c, encrypted);
}

static void store_parameters(module *m, u32 fields, const shamir_parameters *parameters)
{
    i32_store(m, fields, parameters->id | (u32)parameters->extendable << 16 | (u32)parameters->exponent << 24);
}

shamir_answer shamir_decrypt(
    const shamir_parameters *parameters, const uint8_t *encrypted, size_t encrypted_bytes, const char *passphrase, size_t passphrase_bytes,
    const char *expected, size_t expected_bytes, uint8_t *secret, size_t secret_bytes)
{
    call c = new_call();
    u32 fields = place(&c, PARAMETERS_BYTES), from = given(&c, encrypted, encrypted_bytes), words = given(&c, passphrase, passphrase_bytes),
        print = given(&c, expected, expected_bytes);
    size_t room_bytes = at_most(secret_bytes, SHAMIR_SECRET_BYTES_MAX);

    c.room = place(&c, room_bytes);
    if (!begin(&c, DECRYPT_STACK_BYTES))
        return no_memory();
    store_parameters(&c.m, fields, parameters);
    module_decrypt(
        &c.m, ANSWER, fields, from, encrypted_bytes, words, passphrase_bytes, print, expected_bytes, c.room, room_bytes);
    RETURN_ANSWER(&c, secret);
}

shamir_answer shamir_decrypt_round(
    const shamir_parameters *parameters, uint8_t round, const uint8_t *encrypted, size_t encrypted_bytes, const char *passphrase,
    size_t passphrase_bytes, uint8_t *undone, size_t undone_bytes)
{
    call c = new_call();
    u32 fields = place(&c, PARAMETERS_BYTES), from = given(&c, encrypted, encrypted_bytes), words = given(&c, passphrase, passphrase_bytes);
    size_t room_bytes = at_most(undone_bytes, SHAMIR_SECRET_BYTES_MAX);

    c.room = place(&c, room_bytes);
    if (!begin(&c, DECRYPT_ROUND_STACK_BYTES))
        return no_memory();
    store_parameters(&c.m, fields, parameters);
    module_decrypt_round(&c.m, ANSWER, fields, round, from, encrypted_bytes, words, passphrase_bytes, c.room, room_bytes);
    RETURN_ANSWER(&c, undone);
}

shamir_answer shamir_drill(
    const char *lines, size_t lines_bytes, const char *passphrase, size_t passphrase_bytes, uint32_t max_exponent, const char *after,
    size_t after_bytes, uint32_t limit, uint32_t form, const char *expected, size_t expected_bytes, char *text, size_t text_bytes)
{
    call c = new_call();
    u32 from = given(&c, lines, lines_bytes), words = given(&c, passphrase, passphrase_bytes), cursor = given(&c, after, after_bytes),
        print = given(&c, expected, expected_bytes);

    c.room = place(&c, text_bytes);
    if (!begin(&c, DRILL_STACK_BYTES))
        return no_memory();
    module_drill(
        &c.m, ANSWER, from, lines_bytes, words, passphrase_bytes, max_exponent, cursor, after_bytes, limit, form, print, expected_bytes,
        c.room, text_bytes);
    RETURN_ANSWER(&c, text);
}

shamir_answer shamir_status(const char *lines, size_t lines_bytes, char *text, size_t text_bytes)
{
    call c = new_call();
    u32 from = given(&c, lines, lines_bytes);
    size_t room_bytes = at_most(text_bytes, SHAMIR_STATUS_BYTES_MAX);

    c.room = place(&c, room_bytes);
    if (!begin(&c, STATUS_STACK_BYTES))
        return no_memory();
    module_status(&c.m, ANSWER, from, lines_bytes, c.room, room_bytes);
    RETURN_ANSWER(&c, text);
}

shamir_answer shamir_judge(
    const char *lines, size_t lines_bytes, const char *line, size_t line_bytes, shamir_judgement *judgement, char *text,
    size_t text_bytes)
{
    call c = new_call();
    u32 from = given(&c, lines, lines_bytes), last = given(&c, line, line_bytes), fields = place(&c, JUDGEMENT_BYTES);
    size_t room_bytes = at_most(text_bytes, SHAMIR_STATUS_BYTES_MAX);

    c.room = place(&c, room_bytes);
    if (!begin(&c, JUDGE_STACK_BYTES))
        return no_memory();
    module_judge(&c.m, ANSWER, from, lines_bytes, last, line_bytes, fields, c.room, room_bytes);
    if (has_struct(&c.m)) {
        copy_share(&c.m, fields, &judgement->share);
        judgement->again = *PLACE(&c.m, fields + SHARE_BYTES);
    }
    RETURN_ANSWER(&c, text);
}

shamir_answer shamir_quorums(const char *lines, size_t lines_bytes)
{
    call c = new_call();
    u32 from = given(&c, lines, lines_bytes);

    if (!begin(&c, QUORUMS_STACK_BYTES))
        return no_memory();
    module_quorums(&c.m, ANSWER, from, lines_bytes);
    RETURN_ANSWER(&c, NULL);
}

shamir_answer shamir_reissue(
    const char *plan, size_t plan_bytes, const char *names, size_t names_bytes, const char *lines, size_t lines_bytes, char *mnemonics,
    size_t mnemonics_bytes)
{
    call c = new_call();
    u32 of = given(&c, plan, plan_bytes), wanted = given(&c, names, names_bytes), from = given(&c, lines, lines_bytes);
    size_t room_bytes = at_most(mnemonics_bytes, SHAMIR_MNEMONICS_BYTES_MAX);

    c.room = place(&c, room_bytes);
    if (!begin(&c, REISSUE_STACK_BYTES))
        return no_memory();
    module_reissue(&c.m, ANSWER, of, plan_bytes, wanted, names_bytes, from, lines_bytes, c.room, room_bytes);
    RETURN_ANSWER(&c, mnemonics);
}

shamir_answer shamir_resplit(
    const char *plan, size_t plan_bytes, const char *lines, size_t lines_bytes, const uint8_t *random, size_t random_bytes, char *mnemonics,
    size_t mnemonics_bytes)
{
    call c = new_call();
    u32 by = given(&c, plan, plan_bytes), from = given(&c, lines, lines_bytes), chance = given(&c, random, random_bytes);
    size_t room_bytes = at_most(mnemonics_bytes, SHAMIR_MNEMONICS_BYTES_MAX);

    c.room = place(&c, room_bytes);
    if (!begin(&c, RESPLIT_STACK_BYTES))
        return no_memory();
    module_resplit(&c.m, ANSWER, by, plan_bytes, from, lines_bytes, chance, random_bytes, c.room, room_bytes);
    RETURN_ANSWER(&c, mnemonics);
}

shamir_answer shamir_create_from_encrypted(
    const char *plan, size_t plan_bytes, const shamir_parameters *parameters, const uint8_t *encrypted, size_t encrypted_bytes,
    const uint8_t *random, size_t random_bytes, char *mnemonics, size_t mnemonics_bytes)
{
    call c = new_call();
    u32 by = given(&c, plan, plan_bytes), fields = place(&c, PARAMETERS_BYTES), from = given(&c, encrypted, encrypted_bytes),
        chance = given(&c, random, random_bytes);
    size_t room_bytes = at_most(mnemonics_bytes, SHAMIR_MNEMONICS_BYTES_MAX);

    c.room = place(&c, room_bytes);
    if (!begin(&c, CREATE_FROM_ENCRYPTED_STACK_BYTES))
        return no_memory();
    store_parameters(&c.m, fields, parameters);
    module_create_from_encrypted(
        &c.m, ANSWER, by, plan_bytes, fields, from, encrypted_bytes, chance, random_bytes, c.room, room_bytes);
    RETURN_ANSWER(&c, mnemonics);
}

shamir_answer shamir_repair(const char *line, size_t line_bytes, char *mnemonics, size_t mnemonics_bytes)
{
    call c = new_call();
    u32 from = given(&c, line, line_bytes);
    size_t room_bytes = at_most(mnemonics_bytes, SHAMIR_REPAIRED_BYTES_MAX);

    c.room = place(&c, room_bytes);
    if (!begin(&c, REPAIR_STACK_BYTES))
        return no_memory();
    module_repair(&c.m, ANSWER, from, line_bytes, c.room, room_bytes);
    RETURN_ANSWER(&c, mnemonics);
}

shamir_answer shamir_fingerprint(const uint8_t *secret, size_t secret_bytes, char *text, size_t text_bytes)
{
    call c = new_call();
    u32 from = given(&c, secret, secret_bytes);
    size_t room_bytes = at_most(text_bytes, SHAMIR_FINGERPRINT_BYTES_MAX);

    c.room = place(&c, room_bytes);
    if (!begin(&c, FINGERPRINT_STACK_BYTES))
        return no_memory();
    module_fingerprint(&c.m, ANSWER, from, secret_bytes, c.room, room_bytes);
    RETURN_ANSWER(&c, text);
}

shamir_answer shamir_words(const char *letters, size_t letters_bytes, char *text, size_t text_bytes)
{
    call c = new_call();
    u32 from = given(&c, letters, letters_bytes);
    size_t room_bytes = at_most(text_bytes, SHAMIR_WORDS_BYTES_MAX);

    c.room = place(&c, room_bytes);
    if (!begin(&c, WORDS_STACK_BYTES))
        return no_memory();
    module_words(&c.m, ANSWER, from, letters_bytes, c.room, room_bytes);
    RETURN_ANSWER(&c, text);
}

/* Gives the text of the code 4, which the module doesn't know. It needs no memory. */
static shamir_answer text_of_no_memory(char *text, size_t text_bytes)
{
    shamir_answer told;

    memset(&told, 0, sizeof told);
    if (text_bytes < sizeof NO_MEMORY_TEXT - 1) {
        told.code = SHAMIR_E_TOO_SHORT;
        told.first = sizeof NO_MEMORY_TEXT - 1;
        return told;
    }
    memcpy(text, NO_MEMORY_TEXT, sizeof NO_MEMORY_TEXT - 1);
    told.written = sizeof NO_MEMORY_TEXT - 1;
    return told;
}

shamir_answer shamir_text(const shamir_answer *answer, char *text, size_t text_bytes)
{
    call c = new_call();
    u32 from = place(&c, ANSWER_BYTES);
    size_t room_bytes = at_most(text_bytes, SHAMIR_TEXT_BYTES_MAX);

    if (answer->code == SHAMIR_E_NO_MEMORY)
        return text_of_no_memory(text, text_bytes);
    c.room = place(&c, room_bytes);
    if (!begin(&c, TEXT_STACK_BYTES))
        return no_memory();
    i32_store(&c.m, from, answer->code);
    i32_store(&c.m, from + 4, answer->mismatches);
    i64_store(&c.m, from + 8, answer->line);
    i64_store(&c.m, from + 16, answer->first);
    i64_store(&c.m, from + 24, answer->second);
    i64_store(&c.m, from + 32, answer->written);
    module_text(&c.m, ANSWER, from, c.room, room_bytes);
    RETURN_ANSWER(&c, text);
}

shamir_answer shamir_version(char *text, size_t text_bytes)
{
    call c = new_call();
    size_t room_bytes = at_most(text_bytes, SHAMIR_TEXT_BYTES_MAX);

    c.room = place(&c, room_bytes);
    if (!begin(&c, VERSION_STACK_BYTES))
        return no_memory();
    module_version(&c.m, ANSWER, c.room, room_bytes);
    RETURN_ANSWER(&c, text);
}

void shamir_wipe(void *buffer, size_t buffer_bytes)
{
    clear(buffer, buffer_bytes);
}
