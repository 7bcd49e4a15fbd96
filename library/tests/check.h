/* Checks of the tests: each is counted, and one that fails has a line. */
#ifndef CHECK_H
#define CHECK_H
#include <stdio.h>

static int passed, failed;

#define CHECK(what, got, want) check(what, (long)(got), (long)(want), __LINE__)

static inline void check(const char *what, long got, long want, int line)
{
    if (got == want) {
        passed++;
        return;
    }
    failed++;
    printf("FAILED, line %d: %s: %ld and not %ld\n", line, what, got, want);
}

static inline int told(const char *name)
{
    printf("%s: %d passed, %d failed\n", name, passed, failed);
    return failed != 0;
}
#endif
