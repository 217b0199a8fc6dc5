/* tools/timing preloads this library into programs of crates/. It marks what such a program reads as undefined, so that memcheck reports each
   branch and each address that depends on it. */
#define _GNU_SOURCE
#include <sys/syscall.h>
#include <unistd.h>
#include <valgrind/memcheck.h>

ssize_t read(int descriptor, void *memory, size_t bytes)
{
    ssize_t count = syscall(SYS_read, descriptor, memory, bytes);

    if (descriptor == STDIN_FILENO && count > 0)
        (void)VALGRIND_MAKE_MEM_UNDEFINED(memory, (size_t)count);
    return count;
}
