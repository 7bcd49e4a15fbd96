/* cobix.h: indexed files with the verbs of COBOL, inside the calling process.
 *
 *     cobix *session;
 *     cobix_file *staff;
 *     const void *record;
 *     size_t length;
 *     const cobix_key keys[] = {{.offset = 0, .length = 5}, {.offset = 13, .length = 5, .duplicates = true}};
 *     const cobix_description described = {
 *         .name = "staff.dat", .access = COBIX_DYNAMIC, .least = 24, .greatest = 24, .key_count = 2, .keys = keys};
 *     if (cobix_open("files", NULL, &session) || cobix_describe(session, &described, &staff)) ..
 *     int status = cobix_open_file(staff, COBIX_IO);
 *     while (cobix_succeeded(status = cobix_read_next(staff, &record, &length))) ..
 *     status = cobix_close_file(staff, false);
 *     cobix_close(session);
 *
 * Link with -lcobix. There is no other process, and no thread of the library's own.
 *
 * ANSWERS. A verb answers the two digits of its status as a number, 0 to 99: 0 to 9 is success (cobix_succeeded), 10 the
 * end of the file, and so on as docs/FORMAT.md says of each. What is below 0 is no status: the verb was not performed, and
 * nothing was changed.
 *
 * THREADS. A session may be used by any thread, one call at a time: a call that comes while another one is on its way in the
 * same session answers COBIX_MISUSE, and nothing else is needed to pass a session from thread to thread. (Who uses one from
 * several threads at once puts a lock around the call and what it delivers.) Two sessions are independent, and may be used at
 * the same time. No call is made from a handler of a signal.
 *
 * FORK. A child of fork() has no part in its parent's sessions: their files are closed in it, their locks stay the
 * parent's, and each call answers COBIX_FORKED. cobix_close gives their memory back. The child may open sessions of its own.
 *
 * MEMORY. What a read delivers stays as it is until the next call in its session, which has it: nobody is to write
 * there. Every other pointer that is given to a call is the caller's, and is not kept. A session takes some 100 KiB, a
 * described file some 10 more, and an open one 4 KiB for each page that it holds. Memory for as many pages as the frames
 * of cobix_limits is had at OPEN, with the usual 4,096 16 MiB a file, and given back at CLOSE; what no page has used is
 * not touched. Only cobix_open, cobix_describe and OPEN ask for memory. Where it is refused they answer COBIX_NO_MEMORY,
 * and OPEN COBIX_MEMORY (90), and nothing was changed.
 *
 * OTHER RUNS. A file is under a shared lock (flock) from the first look at it, and under an exclusive one from its first
 * change, until it is released or the session ends: CLOSE keeps the lock. It is the lock of `cobix run` and `cobix serve`,
 * and two sessions of one process keep each other out by it. So a file that another run or session has changed answers
 * COBIX_FAULT (30) at OPEN, and one that another only reads does so at the first change. Nothing waits for a lock. Do not
 * open, copy onto or rename these files by other means while a session has them.
 *
 * CRASHES. A file that was changed and not closed, because the process was killed or the machine stopped, is refused by
 * the next OPEN (COBIX_UNSOUND, 91), unless that is OPEN OUTPUT; a file that was not changed is as it was. No file is left
 * that is accepted and false. CLOSE brings all to the disk, in order, and its status says whether that was done.
 * cobix_close closes what is open, and so does the end of the process by exit() or a return from main(); _exit(), abort()
 * and a signal do not. Where a program may be killed at any time, and what it wrote has to survive that, CLOSE the file at
 * each point to which it is to return, or use the serving process (docs/LIBRARY.md), which closes it.
 */
#ifndef COBIX_H
#define COBIX_H
#include <stdbool.h>
#include <stddef.h>
#include <stdint.h>

#ifdef __cplusplus
extern "C" {
#endif

typedef struct cobix cobix;           /* a session: the files of one folder */
typedef struct cobix_file cobix_file; /* a file of a session */

enum { /* statuses */
    COBIX_DONE = 0,
    COBIX_DUPLICATE = 2,         /* done; READ: a later record has the same value of the key; WRITE, REWRITE: another has */
    COBIX_NEW_OPTIONAL = 5,      /* done; the optional file was not there */
    COBIX_END = 10,              /* no next record */
    COBIX_SEQUENCE = 21,         /* sequential access: prime keys that do not rise, or a REWRITE that changes the prime key */
    COBIX_CLASH = 22,            /* a key without duplicates has the value already */
    COBIX_NOT_FOUND = 23,        /* no such record */
    COBIX_FULL = 24,             /* no page is left */
    COBIX_FAULT = 30,            /* the device failed, or another run has the file */
    COBIX_NO_FILE = 35,
    COBIX_WAS_LOCKED = 38,       /* this session closed it with lock */
    COBIX_OTHER_ATTRIBUTES = 39, /* the file has other lengths or keys than the description */
    COBIX_OPEN_ALREADY = 41,
    COBIX_NOT_OPEN = 42,
    COBIX_NOT_READ = 43,         /* sequential REWRITE or DELETE, and the verb before was no READ that succeeded */
    COBIX_LENGTH = 44,
    COBIX_NO_POSITION = 46,
    COBIX_NOT_FOR_READING = 47,
    COBIX_NOT_FOR_WRITING = 48,
    COBIX_NOT_FOR_UPDATING = 49,
    COBIX_MEMORY = 90,
    COBIX_UNSOUND = 91,          /* the file was not closed, or is no file of cobix */
    COBIX_FAILED_BEFORE = 92     /* an earlier verb failed; only CLOSE has an effect */
};
static inline bool cobix_succeeded(int status) { return status >= 0 && status < 10; }

enum { /* not performed */
    COBIX_MISUSE = -1,       /* a pointer is NULL, a number is out of its range, or another call is on its way */
    COBIX_FORKED = -2,       /* the session is the parent's */
    COBIX_NO_FOLDER = -3,    /* there is no such folder (errno says more), or its path is not UTF-8 */
    COBIX_NO_MEMORY = -4,
    COBIX_ENDED = -5,        /* the process is at its end, which has closed the session */
    COBIX_MANY = -6,         /* the session has 64 files */
    COBIX_DESCRIPTION = -7,  /* no file can have this name, these lengths or these keys */
    COBIX_NAME_TAKEN = -8,   /* another file of the session has the name */
    COBIX_FILE_IS_OPEN = -9, /* only a file that is not open can be released */
    COBIX_NO_SUCH_KEY = -10
};

/* What a status or another answer means, in a few words. The text lasts as long as the program. */
const char *cobix_message(int answer);

/* ---- sessions and files */

/* For a session. 0, or NULL for both, is: at most 1,048,576 pages a file, and 4,096 frames: pages of an open file that are
   held in memory. Pages are at least 16, and frames at most 4,096. */
typedef struct {
    uint32_t pages, frames;
} cobix_limits;

/* A session over the files of a folder. Nothing of it is read or written yet, and a later chdir() does not matter. 0 or
   COBIX_MISUSE, COBIX_NO_FOLDER, COBIX_NO_MEMORY, which leave *session NULL. */
int cobix_open(const char *folder, const cobix_limits *limits, cobix **session);

/* Closes the files that are open, in the order in which they were opened, and ends the session and its files: no other
   call may have them afterwards. 0; also where session is NULL, or a parent's. COBIX_FAULT where the CLOSE of one of them was
   not answered 00: the session has ended all the same, and cobix_close_file would have told which file it was. At COBIX_MISUSE
   another call is on its way, and nothing was done. */
int cobix_close(cobix *session);

/* Sequential: WRITE is by rising prime keys, after OPEN OUTPUT or EXTEND; REWRITE and DELETE are of the record that was read just
   before. Random, dynamic: they are by the prime key, after OPEN OUTPUT (WRITE) or I-O, and not after EXTEND. READ, READ NEXT and START
   are performed in each of them: a deck or a compiler refuses some (docs/FORMAT.md), and the library does not. */
typedef enum { COBIX_SEQUENTIAL, COBIX_RANDOM, COBIX_DYNAMIC } cobix_access;

typedef struct {
    uint16_t offset, length; /* in bytes */
    bool duplicates;
} cobix_key;

typedef struct {
    const char *name; /* in the folder: 1 to 64 letters, digits, points, hyphens and underscores; a letter or digit first */
    cobix_access access;
    bool optional;            /* OPEN of an absent file succeeds (5): I-O and EXTEND make it, INPUT finds no record in it */
    uint16_t least, greatest; /* the lengths of records in bytes, at most 4,000; all keys are within the least */
    unsigned key_count;       /* 1 to 9 */
    const cobix_key *keys;    /* the prime key, and then the alternates by rising offset; at most 250 bytes each, and no two of
                                 them begin at the same place */
} cobix_description;

/* Describes a file. Nothing is read or written yet. Up to 64 in a session. *file is NULL where it fails. */
int cobix_describe(cobix *session, const cobix_description *description, cobix_file **file);

/* Gives up a file that is not open, and its lock. No other call may have it afterwards. */
int cobix_release(cobix_file *file);

/* ---- verbs */

typedef enum { COBIX_INPUT, COBIX_OUTPUT, COBIX_IO, COBIX_EXTEND } cobix_mode;
typedef enum { COBIX_EQUAL, COBIX_GREATER, COBIX_NOT_LESS } cobix_relation;

int cobix_open_file(cobix_file *file, cobix_mode mode);

/* With lock, each OPEN answers COBIX_WAS_LOCKED from then on, until the file is released. */
int cobix_close_file(cobix_file *file, bool lock);

/* READ NEXT: the record at the position, or the next one. Where it succeeds the record is behind *record; else *length is 0. */
int cobix_read_next(cobix_file *file, const void **record, size_t *length);

/* READ by key number `key`, 0 the prime one, of which `value` has all bytes. It sets the position, too. */
int cobix_read(cobix_file *file, unsigned key, const void *value, const void **record, size_t *length);

/* START: the position is at the first record whose key is in this relation to the `length` bytes of `value`, which are
   compared with as many of the key, 1 to all of them. */
int cobix_start(cobix_file *file, unsigned key, cobix_relation relation, const void *value, size_t length);

int cobix_write(cobix_file *file, const void *record, size_t length);

/* REWRITE of the record with this prime key. In sequential access it is the record that was read. */
int cobix_rewrite(cobix_file *file, const void *record, size_t length);

/* DELETE of the record with this prime key. In sequential access it is the record that was read, and `prime` may be NULL. */
int cobix_delete(cobix_file *file, const void *prime);

#ifdef __cplusplus
}
#endif
#endif
