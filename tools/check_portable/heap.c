/*
 * tools/check_portable runs this program. It takes, changes and gives back blocks of the heap of program.c by chance, fills each, and
 * sees that no other block changes, that what moved is cleared where it was, and that a heap that is full answers so. The heap grows
 * and moves meanwhile, up to SHAMIR_MEMORY_BYTES_MAX.
 */
#include <stdio.h>

#define main program_main
#include "program.c"
#undef main

#define BLOCKS 128
#define ROUNDS 20000
#define ANSWER 1024u

static module it, *m = &it;
static u64 seed = 39, at[BLOCKS], bytes[BLOCKS];
static unsigned refused, moved;

static u64 drawn(u64 below)
{
    seed = seed * 6364136223846793005u + 1442695040888963407u;
    return (seed >> 33) % below;
}

static void fail(const char *what)
{
    printf("the heap of the program: %s\n", what);
    exit(1);
}

/* What byte i of block b is. */
static u8 mark(int b, u64 i)
{
    return (u8)(b * 7 + (int)(i % 251) + 1);
}

static void fill(int b, u64 from)
{
    u64 i;

    for (i = from; i < bytes[b]; i++)
        *PLACE(m, at[b] + i) = mark(b, i);
}

static void look(int b, u64 count)
{
    u64 i;

    for (i = 0; i < count; i++)
        if (*PLACE(m, at[b] + i) != mark(b, i))
            fail("a block isn't as it was filled");
}

/* Takes the address of an answer, or 0 if the heap is full. */
static u64 answered(void)
{
    if (i64_load(m, ANSWER + 8) == 0)
        fail("an answer has the address 0");
    return i64_load(m, ANSWER) ? i64_load(m, ANSWER + 8) : 0;
}

/* Most blocks are small, and some are large. */
static u64 size(void)
{
    return drawn(16) ? drawn(5000) : drawn(400000);
}

static void take(int b)
{
    u64 wanted = size();

    import_rattle_alloc(m, ANSWER, wanted, 16);
    at[b] = answered();
    if (!at[b])
        refused++;
    else if (at[b] % 16 || at[b] < HEAP_BASE || at[b] + wanted > m->end)
        fail("a block isn't in the heap");
    bytes[b] = wanted;
    if (at[b])
        fill(b, 0);
}

static void change(int b)
{
    u64 old = at[b], kept = bytes[b], wanted = size(), now, i;

    import_rattle_realloc(m, ANSWER, old, kept, wanted, 16);
    now = answered();
    if (!now) {
        refused++;
        return;
    }
    /* Nothing was taken since, so what the block left is still as it was cleared. */
    if (now != old)
        for (moved++, i = 0; i < kept; i++)
            if (*PLACE(m, old + i) && (old + i < now || old + i >= now + wanted))
                fail("what moved is still where it was");
    at[b] = now;
    look(b, kept < wanted ? kept : wanted);
    bytes[b] = wanted;
    fill(b, kept < wanted ? kept : wanted);
}

int main(void)
{
    u64 first = HEAP_BASE + HEAP_BYTES;
    int round, b;

    m->origin = (uintptr_t)calloc(1, (size_t)first);
    m->end = first;
    heap_from = heap_to = heap_first_free = HEAP_BASE;
    for (round = 0; round < ROUNDS; round++) {
        b = (int)drawn(BLOCKS);
        if (!at[b])
            take(b);
        else if (drawn(3) == 0)
            change(b);
        else {
            look(b, bytes[b]);
            import_rattle_dealloc(m, at[b]);
            at[b] = 0;
        }
    }
    for (b = 0; b < BLOCKS; b++)
        if (at[b]) {
            look(b, bytes[b]);
            import_rattle_dealloc(m, at[b]);
        }
    import_rattle_alloc(m, ANSWER, 100, 8);
    if (answered() != HEAP_BASE + HEAD_BYTES)
        fail("the blocks that were given back aren't one block again");
    if (m->end == first || !refused || !moved || m->end > SHAMIR_MEMORY_BYTES_MAX)
        fail("it never grew, was never full, or moved nothing");
    printf("the heap of the program: %d blocks taken, changed and given back, %u of them moved and %u refused\n", ROUNDS, moved, refused);
    free(PLACE(m, 0));
    return 0;
}
