/* tools/faults preloads this library into the program. It counts the allocations, the opens and reads of files, the reads of
   standard input, and the writes. It makes the calls fail that the environment names, and logs each call. Allocations count
   only if the program makes them itself. Calls are numbered from 1.

   FAULT_LOG               the descriptor of the log. Each call adds a line 'KIND SIZE RESULT'. The kinds are allocation,
                           open, file (a read of a file), read (of standard input), write (to standard output) and error
                           (a write to standard error)
   FAULT_ALLOCATION        the number of the allocation that is refused
   FAULT_ALLOCATIONS_FROM  the number of the first allocation that is refused, with all later ones
   FAULT_OPEN              the number of the open that fails
   FAULT_FILE              the number of the read of a file that fails
   FAULT_READ              the number of the read of standard input that fails
   FAULT_READ_BYTES        how many bytes of standard input are read before a read fails
   FAULT_WRITE             the number of the write to standard output that fails
   FAULT_WRITE_BYTES       how many bytes standard output takes before a write fails
   FAULT_WRITE_NONE        the number of the write to standard output that takes no byte
   FAULT_ERRORS            if it isn't 0, each write to standard error fails
   FAULT_SINGLE            if it isn't 0, a read gives, and a write takes, at most one byte
   FAULT_ERRNO             the error of a failing open, read or write; the default is EIO */
#define _GNU_SOURCE
#include <dlfcn.h>
#include <errno.h>
#include <fcntl.h>
#include <link.h>
#include <stdarg.h>
#include <stdint.h>
#include <stdio.h>
#include <stdlib.h>
#include <string.h>
#include <sys/syscall.h>
#include <unistd.h>

static uintptr_t first_address, last_address;
static long log_to, allocation, allocations_from, open_at, file_at, read_at, read_bytes;
static long write_at, write_bytes, write_none, errors, single, failure;
static long allocations, opens, files, reads, read_sum, writes, write_sum;

static long setting(const char *name, long otherwise)
{
    const char *text = getenv(name);
    return text ? atol(text) : otherwise;
}

static int find_program(struct dl_phdr_info *info, size_t size, void *data)
{
    (void)size, (void)data;
    for (int i = 0; i < info->dlpi_phnum; i++) {
        const ElfW(Phdr) *part = &info->dlpi_phdr[i];
        if (part->p_type == PT_LOAD && part->p_flags & PF_X) {
            first_address = info->dlpi_addr + part->p_vaddr;
            last_address = first_address + part->p_memsz;
        }
    }
    return 1; /* the first object is the program */
}

__attribute__((constructor)) static void begin(void)
{
    log_to = setting("FAULT_LOG", 2);
    allocation = setting("FAULT_ALLOCATION", -1);
    allocations_from = setting("FAULT_ALLOCATIONS_FROM", -1);
    open_at = setting("FAULT_OPEN", -1);
    file_at = setting("FAULT_FILE", -1);
    read_at = setting("FAULT_READ", -1);
    read_bytes = setting("FAULT_READ_BYTES", -1);
    write_at = setting("FAULT_WRITE", -1);
    write_bytes = setting("FAULT_WRITE_BYTES", -1);
    write_none = setting("FAULT_WRITE_NONE", -1);
    errors = setting("FAULT_ERRORS", 0);
    single = setting("FAULT_SINGLE", 0);
    failure = setting("FAULT_ERRNO", EIO);
    dl_iterate_phdr(find_program, NULL);
}

static int is_program(void *caller)
{
    return (uintptr_t)caller >= first_address && (uintptr_t)caller < last_address;
}

/* Logs a call, and returns its result, with the error that it left. */
static long tell(const char *kind, size_t size, long result)
{
    int kept = errno;
    char line[80];
    int length = snprintf(line, sizeof line, "%s %zu %ld\n", kind, size, result);
    syscall(SYS_write, (int)log_to, line, (size_t)length);
    errno = kept;
    return result;
}

static int is_refused(void *caller, size_t size)
{
    if (!is_program(caller))
        return 0;
    allocations++;
    int refused = allocations == allocation || (allocations_from > 0 && allocations >= allocations_from);
    tell("allocation", size, refused ? -1 : 0);
    return refused;
}

void *malloc(size_t size)
{
    static void *(*next)(size_t);
    if (!next)
        next = (void *(*)(size_t))dlsym(RTLD_NEXT, "malloc");
    if (is_refused(__builtin_return_address(0), size)) {
        errno = ENOMEM;
        return NULL;
    }
    return next(size);
}

void *realloc(void *old, size_t size)
{
    static void *(*next)(void *, size_t);
    if (!next)
        next = (void *(*)(void *, size_t))dlsym(RTLD_NEXT, "realloc");
    if (is_refused(__builtin_return_address(0), size)) {
        errno = ENOMEM;
        return NULL;
    }
    return next(old, size);
}

static long fail(void)
{
    errno = (int)failure;
    return -1;
}

static size_t least(size_t a, size_t b)
{
    return a < b ? a : b;
}

int open(const char *name, int flags, ...)
{
    va_list more;
    va_start(more, flags);
    int mode = flags & O_CREAT ? va_arg(more, int) : 0;
    va_end(more);
    opens++;
    return (int)tell("open", 0, opens == open_at ? fail() : syscall(SYS_openat, AT_FDCWD, name, flags, mode));
}

static ssize_t read_file(int from, void *to, size_t size)
{
    files++;
    return tell("file", size, files == file_at ? fail() : syscall(SYS_read, from, to, size));
}

ssize_t read(int from, void *to, size_t size)
{
    size_t wanted = single ? least(size, 1) : size;
    if (from != 0)
        return read_file(from, to, wanted);
    reads++;
    if (read_bytes >= 0)
        wanted = least(wanted, (size_t)(read_bytes - read_sum));
    int fails = reads == read_at || (read_bytes >= 0 && read_sum >= read_bytes);
    long result = fails ? fail() : syscall(SYS_read, from, to, wanted);
    if (result > 0)
        read_sum += result;
    return tell("read", size, result);
}

ssize_t write(int to, const void *from, size_t size)
{
    size_t wanted = single ? least(size, 1) : size;
    if (to != 1)
        return tell("error", size, errors ? fail() : syscall(SYS_write, to, from, wanted));
    writes++;
    if (write_bytes >= 0)
        wanted = least(wanted, (size_t)(write_bytes - write_sum));
    int fails = writes == write_at || (write_bytes >= 0 && write_sum >= write_bytes);
    long result = fails ? fail() : writes == write_none ? 0 : syscall(SYS_write, to, from, wanted);
    if (result > 0)
        write_sum += result;
    return tell("write", size, result);
}

ssize_t __write(int to, const void *from, size_t size)
{
    return write(to, from, size);
}
