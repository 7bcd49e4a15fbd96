/* Before the C library of a program: refuses what the program itself asks calloc for, which the handler alone does. REFUSED says what of
   it: `file`, as much as it has for a file, or `session`, what is less. */
#define _GNU_SOURCE
#include <dlfcn.h>
#include <errno.h>
#include <stdbool.h>
#include <stddef.h>
#include <stdlib.h>
#include <string.h>
#include <sys/auxv.h>

enum { MUCH = 1 << 17 };

extern void *__libc_calloc(size_t count, size_t size);

static bool is_of_program(const void *caller)
{
    Dl_info program, found;
    return dladdr((void *)getauxval(AT_ENTRY), &program) && dladdr(caller, &found) && found.dli_fbase == program.dli_fbase;
}

void *calloc(size_t count, size_t size)
{
    const char *refused = getenv("REFUSED");
    if (!refused || (size >= MUCH) != (strcmp(refused, "file") == 0) || !is_of_program(__builtin_return_address(0)))
        return __libc_calloc(count, size);
    errno = ENOMEM;
    return NULL;
}
