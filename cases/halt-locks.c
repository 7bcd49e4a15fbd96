/* Before the C library of a program: halts it at a lock. HALT_AT names the lock by three words: `before` or `after`, `exclusive` or `shared`, `file` or `folder`.
   The first call that takes such a lock makes a file HALTED, and goes on once there is a file GO. After a lock that is refused nothing halts. */
#define _GNU_SOURCE
#include <dlfcn.h>
#include <errno.h>
#include <fcntl.h>
#include <stdio.h>
#include <stdlib.h>
#include <string.h>
#include <sys/file.h>
#include <sys/stat.h>
#include <unistd.h>

enum { MOMENTS = 120000, MOMENT = 1000 }; /* so many, of so many millionths of a second */

static int is_over = 0;

static void halt(const char *when, const char *how, const char *what) {
    char met[64];
    const char *wanted = getenv("HALT_AT"), *halted = getenv("HALTED"), *go = getenv("GO");
    snprintf(met, sizeof met, "%s %s %s", when, how, what);
    if (is_over || !wanted || !halted || !go || strcmp(wanted, met) != 0)
        return;
    is_over = 1;
    close(creat(halted, 0600));
    for (int n = 0; n < MOMENTS && access(go, F_OK) != 0; n++)
        usleep(MOMENT);
}

int flock(int file, int operation) {
    __typeof__(&flock) below = (__typeof__(&flock))dlsym(RTLD_NEXT, "flock");
    struct stat found;
    const char *what = fstat(file, &found) == 0 && S_ISDIR(found.st_mode) ? "folder" : "file";
    const char *how = operation & LOCK_EX ? "exclusive" : operation & LOCK_SH ? "shared" : "no";
    halt("before", how, what);
    int answer = below(file, operation), error = errno;
    if (answer == 0)
        halt("after", how, what);
    errno = error;
    return answer;
}
