/*
 * This program does what recover.c does, and keeps its buffers to itself. The library clears its own stack, and recover.c clears its
 * buffers. Before that, the system could write these buffers to a swap area or to a core file, and other programs of the same
 * user could read them. This program asks the system not to. The stack can still be written to a swap area during a call, and the
 * passphrase is a word of the command, which others can see.
 *
 *   cc -std=c99 -Iinclude examples/c/cleared.c libshamir.a -o cleared
 *   ./cleared FILE [PASSPHRASE]
 *
 * Its output and its exit status are those of recover.c. It goes on if the system refuses what it asks for. Other programs can
 * reuse keep.
 */
#define _GNU_SOURCE
#include <sys/mman.h>
#include <sys/prctl.h>
#include <unistd.h>

#define main recover_main
#include "recover.c"
#undef main

/* Keeps a buffer out of swap and out of core files, as far as the system allows. */
static void keep(void *buffer, size_t bytes)
{
    size_t page = (size_t)sysconf(_SC_PAGESIZE);
    size_t before = (uintptr_t)buffer % page;

    mlock(buffer, bytes);
    madvise((char *)buffer - before, before + bytes, MADV_DONTDUMP);
}

int main(int argc, char **argv)
{
    /* The system then writes no core file of this program, and lets no other program of its user attach to it. */
    prctl(PR_SET_DUMPABLE, 0);
    keep(lines, sizeof lines);
    keep(secret, sizeof secret);
    keep(digits, sizeof digits);
    return recover_main(argc, argv);
}
