/* Before the C library of a program: refuses one of its requests for memory, the one that the variable REFUSED numbers, counted from 1, and none where it is 0.
   At the end of the program it writes how many there were to the file that COUNTED names. */
#include <errno.h>
#include <fcntl.h>
#include <stdlib.h>
#include <unistd.h>

extern void *__libc_malloc(size_t size);
extern void *__libc_calloc(size_t count, size_t size);
extern void *__libc_realloc(void *block, size_t size);
extern void *__libc_memalign(size_t alignment, size_t size);

static long requests = 0;
static long refused = -1;

static int is_refused(void) {
    if (refused < 0) {
        const char *number = getenv("REFUSED");
        refused = number ? atol(number) : 0;
    }
    requests += 1;
    if (requests != refused)
        return 0;
    errno = ENOMEM;
    return 1;
}

void *malloc(size_t size) {
    return is_refused() ? NULL : __libc_malloc(size);
}

void *calloc(size_t count, size_t size) {
    return is_refused() ? NULL : __libc_calloc(count, size);
}

void *realloc(void *block, size_t size) {
    return is_refused() ? NULL : __libc_realloc(block, size);
}

void *memalign(size_t alignment, size_t size) {
    return is_refused() ? NULL : __libc_memalign(alignment, size);
}

void *aligned_alloc(size_t alignment, size_t size) {
    return memalign(alignment, size);
}

int posix_memalign(void **block, size_t alignment, size_t size) {
    void *found = memalign(alignment, size);
    if (!found)
        return ENOMEM;
    *block = found;
    return 0;
}

__attribute__((destructor)) static void tell(void) {
    const char *name = getenv("COUNTED");
    int file = name ? open(name, O_WRONLY | O_CREAT | O_TRUNC, 0600) : -1;
    if (file >= 0) {
        if (write(file, &requests, sizeof requests) != sizeof requests)
            _exit(99);
        close(file);
    }
}
