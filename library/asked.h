/* What the proved library asks of the system, and the answer until it is taken. */
#ifndef ASKED_H
#define ASKED_H
#include <stdbool.h>
#include <stddef.h>
#include <stdint.h>
#include <sys/types.h>
#include <time.h>

/* A session has 64 files; each has itself and its folder open, and one more while a name is looked at. */
enum { ASKED_FILES = 192, ASKED_PAGE = 4096 };

struct asked_file {
    int end;                       /* its descriptor, -1 where the number is free */
    bool seen;                     /* it was under the shared lock: then it was of this size and these times */
    off_t size;
    struct timespec modified, changed;
};

struct asked {
    uint64_t question[4];
    bool follows;                  /* bytes of the question are still to come */
    bool disowned;                 /* the session is that of a parent process: nothing is asked of the system */
    size_t next, end;              /* of the answer */
    uint8_t answer[8 + ASKED_PAGE];
    struct asked_file files[ASKED_FILES];
};

void cobix_asked_init(struct asked *asked);

/* Questions that this thread writes from now on are those of this session. */
void cobix_asked_by(struct asked *asked);

/* Closes the descriptors, and leaves their locks to the parent process, which has them too. Safe in a child of fork(). */
void cobix_asked_disown(struct asked *asked);

/* In the place of `read` and `write` in the proved library. */
ssize_t cobix_asked_read(int number, void *bytes, size_t room);
ssize_t cobix_asked_write(int number, const void *bytes, size_t length);

#endif
