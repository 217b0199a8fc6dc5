/*
 * tools/check_portable links driver.c with this shamir.c, whose memory comes from an allocator of its own. If MOST is in the environment,
 * it gives a block only if so many bytes are enough for the part of it that doesn't hold what the call is given. At its end, the program
 * has the status 6 if a block wasn't freed once, or wasn't clear then, or if a call takes a length that is too great.
 */
#include <stdio.h>
#include <stdlib.h>
#include <string.h>

static int open_blocks, are_clear = 1;
static size_t block_bytes;

static void *allocate(size_t bytes, size_t own_bytes)
{
    const char *most = getenv("MOST");

    if (most && own_bytes > strtoul(most, NULL, 10))
        return NULL;
    open_blocks++;
    block_bytes = bytes;
    return calloc(1, bytes);
}

static void release(void *memory);

/* In the function that takes a block, `c` is the call. */
#define SHAMIR_ALLOCATE(bytes) allocate(bytes, (size_t)(ANSWER + ANSWER_BYTES - c->m.first))
#define SHAMIR_RELEASE(memory) release(memory)
#include "shamir.c"

static void release(void *memory)
{
    const unsigned char *bytes = (const unsigned char *)memory;
    size_t i;

    for (i = 0; i < block_bytes; i++)
        if (bytes[i])
            are_clear = 0;
    open_blocks--;
    free(memory);
}

static int takes_long(void)
{
#if SIZE_MAX > 0xFFFFFFFF
    /* The module's addresses are too few for these lengths, which no call looks at. */
    static char room[SHAMIR_STATUS_BYTES_MAX];

    return shamir_status("", (size_t)1 << 32, room, sizeof room).code != SHAMIR_E_NO_MEMORY ||
        shamir_status("", SIZE_MAX, room, sizeof room).code != SHAMIR_E_NO_MEMORY ||
        shamir_recover("", SIZE_MAX - 7, "", SIZE_MAX, 0, "", 9, (uint8_t *)room, 128).code != SHAMIR_E_NO_MEMORY;
#else
    return 0;
#endif
}

__attribute__((destructor)) static void at_end(void)
{
    if (open_blocks || !are_clear || takes_long())
        _Exit(6);
}
