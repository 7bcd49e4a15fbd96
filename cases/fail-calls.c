/* Before the C library of a program: fails calls on files. The calls of the group that FAIL_CALLS names are counted from 1, or those of all groups where it is `any`.
   From the call with the number FAIL_FROM on so many as FAIL_COUNT says are answered by the error FAIL_ERROR, and not made. FAIL_COUNT -1 is all of them.
   Where FAIL_FROM is -1, so many fail before each call that is made.
   At the end of the program it writes to the file that COUNTED names how many calls there were, and how many of them failed. */
#define _GNU_SOURCE
#include <dlfcn.h>
#include <errno.h>
#include <fcntl.h>
#include <stdarg.h>
#include <stdlib.h>
#include <string.h>
#include <sys/file.h>
#include <sys/stat.h>
#include <unistd.h>

static long counts[2]; /* calls, failed calls */
static const char *group = NULL;
static long first = 0, most = 0;
static int error = EIO;

static long number_of(const char *name) {
    const char *text = getenv(name);
    return text ? atol(text) : 0;
}

static int is_failed(const char *call) {
    if (!group) {
        group = getenv("FAIL_CALLS");
        group = group ? group : "none";
        first = number_of("FAIL_FROM");
        most = number_of("FAIL_COUNT");
        error = (int)number_of("FAIL_ERROR");
    }
    if (strcmp(group, "any") != 0 && strcmp(group, call) != 0)
        return 0;
    counts[0] += 1;
    if (first < 0 ? counts[0] % (most + 1) == 0 : first == 0 || counts[0] < first || (most >= 0 && counts[0] >= first + most))
        return 0;
    counts[1] += 1;
    errno = error;
    return 1;
}

#define BELOW(name) __typeof__(&name) below = (__typeof__(&name))dlsym(RTLD_NEXT, #name)

#define OPENS(name)                                  \
    int name(const char *path, int flags, ...) {     \
        va_list rest;                                \
        va_start(rest, flags);                       \
        int mode = va_arg(rest, int);                \
        va_end(rest);                                \
        BELOW(name);                                 \
        return is_failed("open") ? -1 : below(path, flags, mode); \
    }

#define OPENS_AT(name)                               \
    int name(int folder, const char *path, int flags, ...) { \
        va_list rest;                                \
        va_start(rest, flags);                       \
        int mode = va_arg(rest, int);                \
        va_end(rest);                                \
        BELOW(name);                                 \
        return is_failed("open") ? -1 : below(folder, path, flags, mode); \
    }

#define CALL(name, call, answer, takes, given)       \
    answer name takes {                              \
        BELOW(name);                                 \
        return is_failed(call) ? -1 : below given;   \
    }

OPENS(open)
OPENS(open64)
OPENS_AT(openat)
OPENS_AT(openat64)
CALL(read, "read", ssize_t, (int file, void *bytes, size_t size), (file, bytes, size))
CALL(write, "write", ssize_t, (int file, const void *bytes, size_t size), (file, bytes, size))
CALL(pread, "pread", ssize_t, (int file, void *bytes, size_t size, off_t at), (file, bytes, size, at))
CALL(pread64, "pread", ssize_t, (int file, void *bytes, size_t size, off64_t at), (file, bytes, size, at))
CALL(pwrite, "pwrite", ssize_t, (int file, const void *bytes, size_t size, off_t at), (file, bytes, size, at))
CALL(pwrite64, "pwrite", ssize_t, (int file, const void *bytes, size_t size, off64_t at), (file, bytes, size, at))
CALL(fsync, "sync", int, (int file), (file))
CALL(fdatasync, "sync", int, (int file), (file))
CALL(flock, "lock", int, (int file, int operation), (file, operation))
CALL(stat, "stat", int, (const char *path, struct stat *found), (path, found))
CALL(stat64, "stat", int, (const char *path, struct stat64 *found), (path, found))
CALL(lstat, "stat", int, (const char *path, struct stat *found), (path, found))
CALL(lstat64, "stat", int, (const char *path, struct stat64 *found), (path, found))
CALL(fstat, "stat", int, (int file, struct stat *found), (file, found))
CALL(fstat64, "stat", int, (int file, struct stat64 *found), (file, found))
CALL(fstatat, "stat", int, (int folder, const char *path, struct stat *found, int flags), (folder, path, found, flags))
CALL(fstatat64, "stat", int, (int folder, const char *path, struct stat64 *found, int flags), (folder, path, found, flags))
CALL(statx, "stat", int, (int folder, const char *path, int flags, unsigned mask, struct statx *found), (folder, path, flags, mask, found))

__attribute__((destructor)) static void tell(void) {
    const char *name = getenv("COUNTED");
    group = "none";
    int file = name ? open(name, O_WRONLY | O_CREAT | O_TRUNC, 0600) : -1;
    if (file >= 0) {
        if (write(file, counts, sizeof counts) != sizeof counts)
            _exit(99);
        close(file);
    }
}
