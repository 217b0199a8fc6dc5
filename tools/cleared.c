/*
 * This is examples/c/cleared.c with a look at its end. If its buffers are then cleared, are kept out of core files, and the program
 * can't be attached to, it writes "cleared" to a file. The environment variable CLEARED names that file.
 */
#include "../examples/c/cleared.c"

#include <stdlib.h>

static int is_clear(const char *bytes, size_t count)
{
    while (count > 0 && bytes[count - 1] == 0) {
        count--;
    }
    return count == 0;
}

/* Returns whether the flags of the memory that holds a buffer include "dd", which keeps it out of core files. */
static int is_kept(const void *buffer)
{
    char line[512];
    unsigned long begin = 0, end = 0;
    FILE *maps = fopen("/proc/self/smaps", "r");
    int found = 0;

    while (maps != NULL && fgets(line, sizeof line, maps) != NULL) {
        if (strncmp(line, "VmFlags:", 8) == 0) {
            found |= begin <= (uintptr_t)buffer && (uintptr_t)buffer < end && strstr(line, " dd") != NULL;
        } else if (strchr(line, '-') != NULL) {
            sscanf(line, "%lx-%lx ", &begin, &end);
        }
    }
    if (maps != NULL) {
        fclose(maps);
    }
    return found;
}

__attribute__((destructor)) static void look(void)
{
    const char *name = getenv("CLEARED");
    int is_private = prctl(PR_GET_DUMPABLE) == 0;
    FILE *file;

    /* Without this, only root could read /proc/self. */
    prctl(PR_SET_DUMPABLE, 1);
    if (name != NULL && is_private && is_clear(lines, sizeof lines) && is_clear((char *)secret, sizeof secret)
        && is_clear(digits, sizeof digits) && is_kept(lines) && is_kept(secret) && is_kept(digits)
        && (file = fopen(name, "w")) != NULL) {
        fputs("cleared\n", file);
        fclose(file);
    }
}
