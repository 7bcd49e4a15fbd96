/* Before the C library of a program: fails one of its syncs of a folder, the one that the variable FAILED numbers, counted from 1. */
#define _GNU_SOURCE
#include <errno.h>
#include <stdlib.h>
#include <sys/stat.h>
#include <sys/syscall.h>
#include <unistd.h>

static long syncs = 0;

int fsync(int file) {
    struct stat found;
    const char *failed = getenv("FAILED");
    if (failed && fstat(file, &found) == 0 && S_ISDIR(found.st_mode)) {
        syncs += 1;
        if (syncs == atol(failed)) {
            errno = EIO;
            return -1;
        }
    }
    return (int)syscall(SYS_fsync, file);
}
