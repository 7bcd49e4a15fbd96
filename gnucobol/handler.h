/* What the parts of the handler ask of each other. */
#ifndef HANDLER_H
#define HANDLER_H
#include <stddef.h>
#include <libcob.h>
#include <stdbool.h>
#include <stdint.h>
#include <sys/types.h>

#if !defined ANY_LIBCOB && (!defined __LIBCOB_RELEASE || __LIBCOB_RELEASE < 30100 || __LIBCOB_RELEASE >= 30200)
#error "this handler is for GnuCOBOL 3.1: other versions have other records of files (see README)"
#endif

#ifndef HAS_INSIDE
#define HAS_INSIDE 1
#endif

enum { HEAD = 5 /* that of an answer which has a record */, FRAME = 2 + 8192, MOST = 64, ANSWERS = MOST * 4096, FILES = 64, PATH = 4096 };

static inline unsigned two(const uint8_t *from) { return (unsigned)from[0] << 8 | from[1]; }
static inline uint8_t *put_two(uint8_t *at, unsigned value) { at[0] = (uint8_t)(value >> 8); at[1] = (uint8_t)value; return at + 2; }

/* The ends of the pipes of requests and of answers. The process has the first and the last; we keep the first, so that no write is a
   signal. */
enum { REQUESTS_OUT, REQUESTS_IN, ANSWERS_OUT, ANSWERS_IN, ENDS };

/* A session over one folder: in this process, or in a process `cobix serve`. */
struct server {
    struct server *next;
    dev_t device;
    ino_t folder;
    struct engine *engine; /* NULL where it is another process, or has ended */
    pid_t process;         /* 0 where it is this one */
    int ends[ENDS];        /* -1 where it is this one, or has ended */
    bool taken[FILES];     /* which numbers are those of described files */
};

/* A session for this folder that stands behind this one in the list, or NULL for the first; started where there is none. NULL where it
   cannot be had. */
struct server *server_of(const char *folder, struct server *behind);

/* Whether this process is the program, a copy of it, or one of its sessions. */
bool is_ours(pid_t process);

/* Ends the sessions in this process, which close the files that are open, and tells those in others that they are to end. */
void end_sessions(void);

/* An answer: its head, and where behind it the record is that was delivered, if one was. Good until the next exchange. */
struct answer {
    const uint8_t *head, *record;
};

/* Answers that came, whole frames: how many were asked for at the last time, how many were not given out, and the next of them. */
struct answers {
    unsigned asked, left;
    uint8_t *next, bytes[ANSWERS];
};

/* The two ways. `start` tells whether a session was had. In this process it can be had where the proved library is linked. */
bool inside_start(struct server *server, const char *folder);
size_t inside_exchange(struct server *server, uint8_t *request, size_t length, struct answer *answer);
void inside_end(struct server *server);
bool process_start(struct server *server, const char *folder);
size_t process_exchange(struct server *server, uint8_t *request, size_t length, unsigned most, struct answers *from,
                        struct answer *answer);
void process_hang_up(struct server *server);
int process_wait(const struct server *server); /* its exit status */

/* Gives out the next answer to a request, and how many bytes it has. Where none is left it sends the request and takes its answer: once at
   first, and then twice as often as the last time, up to `most`. 0 where the process has ended or sent what is no frame, which is then
   asked no more. The first two bytes of the request are filled in, and it is repeated behind itself in FRAME bytes. */
size_t exchange(struct server *server, uint8_t *request, size_t length, unsigned most, struct answers *from, struct answer *answer);

/* The status where a verb was answered 30: that of a conflict of sharing, with a line, where another run has the file so that ours cannot
   read it, or cannot change it. It is 61 where COBIX_STATUS says `gnucobol`, else 30. */
const char *tell_sharing(const char *verb, const char *path, bool reads);

/* The same status, with a line, where another SELECT of this program has the file. */
const char *tell_select(const char *verb, const char *path, const cob_file *file);

/* The path of a file, of less than PATH bytes, by GnuCOBOL's rules: what the environment has as DD_NAME, dd_NAME or NAME stands
   for the first part of the name, and a path that does not begin with a slash is below COB_FILE_PATH. Whether there is one. */
bool path_of(const char *name, size_t length, char *path);

/* What GnuCOBOL calls for each verb on each file. Files that are not indexed go on to its own handler. The status is put into the
   FCD; the answer is 0. */
int cobixfh(unsigned char *opcode, FCD3 *fcd);

void cobixfh_opens(cob_file *file);            /* tells which file the next OPEN is of */
bool cobixfh_knows(const cob_file *file);      /* whether it had an OPEN by this handler */
bool cobixfh_has_open(const cob_file *file);   /* whether this handler has it open */
bool cobixfh_leaves(const cob_file *file);     /* closes and forgets it; whether this handler knew it */

#endif
