/*
 * tools/check_portable runs this program. In a call of shamir_parse, it moves the stack pointer of the module to the address that its
 * argument names, as the generated part does at the beginning of each function that uses this stack. It ends with status 0 if the stack
 * has room there.
 */
#include <stdlib.h>

#include "shamir.c"

int main(int count, char **arguments)
{
    call c = new_call();
    module *m = &c.m;

    (void)count;
    if (!begin(&c, PARSE_STACK_BYTES))
        return 1;
    SET_POINTER(strtoull(arguments[1], NULL, 10));
    return m->lowest != m->pointer;
}
