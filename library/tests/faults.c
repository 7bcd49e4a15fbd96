/* The n-th call of the system is marred, for each n over sessions that use every verb: it fails, it is interrupted, it reads or
   writes less than was asked for; once, or each call from then on. Or the process is killed in its midst, a write half done.
   Then the file is looked at by a new session, as it is, and as each image that a crash of the machine may have left of it (disk.h):
   where the last CLOSE was answered 00 it has exactly the records that the statuses tell; else it is that, or what an earlier or a
   later CLOSE was to leave, or it is refused. The same is tried of processes that are killed at so many moments, wherever they are.
   The last line is "faults: N passed, M failed".    usage: faults FOLDER EVERY KILLS [COBIX]: every so many calls, at so many moments, and the
   program for `cobix check` */
#define _GNU_SOURCE
#include "check.h"
#include "cobix.h"
#include "disk.h"
#include <errno.h>
#include <fcntl.h>
#include <signal.h>
#include <stdatomic.h>
#include <stdbool.h>
#include <stdlib.h>
#include <string.h>
#include <sys/file.h>
#include <sys/mman.h>
#include <sys/stat.h>
#include <sys/wait.h>
#include <time.h>
#include <unistd.h>

/* ---- faults */

enum kind { FAILS, IS_INTERRUPTED, IS_SHORT, IS_KILLED, KINDS };
static const char *const kinds[KINDS] = {"fails", "is interrupted", "is short", "is killed"};

static struct {
    enum kind kind;
    long at;    /* the call that is marred, from 1 */
    bool stays; /* and each later one */
    long count; /* calls so far */
    long tried; /* how often a file was found sound; every eighth is given to the program too */
} fault;

static bool *is_met;      /* whether a call was marred; shared with the child that performs the session, which may be killed */
static struct disk *disk; /* NULL where calls are not traced */

/* Whether this call is to be marred. */
static bool is_marred(void)
{
    fault.count++;
    bool marred = fault.at && (fault.stays ? fault.count >= fault.at : fault.count == fault.at);
    if (marred)
        *is_met = true;
    return marred;
}

/* What a marred call answers that moves no bytes. One that cannot be short is as it is. */
static int mar(void)
{
    if (fault.kind == IS_KILLED)
        raise(SIGKILL);
    errno = fault.kind == IS_INTERRUPTED ? EINTR : EIO;
    return -1;
}

#define MARRED (is_marred() && fault.kind != IS_SHORT)

int faulty_open(const char *path, int flags, int mode);
int faulty_open(const char *path, int flags, int mode)
{
    int end = MARRED ? mar() : open(path, flags, mode);
    if (disk && end >= 0 && flags & O_CREAT)
        disk_made(disk, end);
    return end;
}

int faulty_fstat(int end, struct stat *found);
int faulty_fstat(int end, struct stat *found) { return MARRED ? mar() : fstat(end, found); }

int faulty_lstat(const char *path, struct stat *found);
int faulty_lstat(const char *path, struct stat *found) { return MARRED ? mar() : lstat(path, found); }

int faulty_flock(int end, int how);
int faulty_flock(int end, int how) { return MARRED ? mar() : flock(end, how); }

int faulty_fsync(int end);
int faulty_fsync(int end)
{
    int answer = MARRED ? mar() : fsync(end);
    if (disk && answer == 0)
        disk_synced(disk, end);
    return answer;
}

ssize_t faulty_pread(int end, void *bytes, size_t length, off_t at);
ssize_t faulty_pread(int end, void *bytes, size_t length, off_t at)
{
    if (!is_marred())
        return pread(end, bytes, length, at);
    return fault.kind == IS_SHORT ? pread(end, bytes, (length + 1) / 2, at) : mar();
}

/* A write that fails or is killed has half of its bytes in the file. */
ssize_t faulty_pwrite(int end, const void *bytes, size_t length, off_t at);
ssize_t faulty_pwrite(int end, const void *bytes, size_t length, off_t at)
{
    if (disk)
        disk_touched(disk, at, length);
    if (!is_marred())
        return pwrite(end, bytes, length, at);
    ssize_t half = fault.kind == IS_INTERRUPTED ? 0 : pwrite(end, bytes, (length + 1) / 2, at);
    return fault.kind == IS_SHORT ? half : mar();
}

/* ---- what the file is to have */

enum { KEYS = 30, DYNAMIC_KEYS = 24 /* the rest are added by EXTEND */, LENGTH = 20 };

/* The records by their prime keys, 0 to KEYS - 1. */
struct rows {
    bool there[KEYS];
    char record[KEYS][LENGTH + 1];
};

/* Shared with that child, too. */
static struct told {
    struct rows now, closed, closing; /* by the statuses; at the last CLOSE that answered 00; at the last CLOSE that began */
    bool was_closed, is_closing;      /* at least once; such a CLOSE is the last verb */
    bool is_exact;                    /* the last CLOSE was answered 00, and nothing was changed since */
    int bad, faults;                  /* answers that no status may give; answers 30, 90, 91 and 92 */
    int changes, shared;              /* verbs that changed the file; those of them after which another may have its lock */
    bool is_met;
} *told_of;

static const cobix_key keys[] = {{0, 5, false}, {5, 3, true}};
static const cobix_description described = {
    .name = "F", .access = COBIX_DYNAMIC, .least = 8, .greatest = LENGTH, .key_count = 2, .keys = keys};
static const cobix_description in_sequence = {
    .name = "F", .access = COBIX_SEQUENTIAL, .least = 8, .greatest = LENGTH, .key_count = 2, .keys = keys};
static const char *folder, *program;

static bool is_fault(int status) { return status == COBIX_FAULT || status >= 90; }

/* Counts an answer that is neither what the rules say nor that of a fault. Whether it is what they say. */
static bool is_as(int status, int want)
{
    told_of->faults += is_fault(status);
    told_of->bad += status != want && !is_fault(status) && !(status == COBIX_DUPLICATE && want == 0) && told_of->faults == 0;
    return status == want || (status == COBIX_DUPLICATE && want == 0);
}

/* Notes that a verb has changed the file: then nobody else may have its lock. */
static void changed(void)
{
    char path[4096];
    snprintf(path, sizeof path, "%s/F", folder);
    int end = open(path, O_RDONLY);
    told_of->changes++;
    told_of->shared += end < 0 || flock(end, LOCK_SH | LOCK_NB) == 0;
    close(end);
}

static void write_one(cobix_file *file, int key, int turn)
{
    struct rows *rows = &told_of->now;
    char bytes[LENGTH + 1];
    snprintf(bytes, sizeof bytes, "%05d%03d%12d", key, turn % 7, turn);
    int status = rows->there[key] ? cobix_rewrite(file, bytes, LENGTH) : cobix_write(file, bytes, LENGTH);
    if (is_as(status, 0))
        rows->there[key] = true, memcpy(rows->record[key], bytes, LENGTH), changed();
}

static void delete_one(cobix_file *file, int key)
{
    char bytes[6];
    snprintf(bytes, sizeof bytes, "%05d", key);
    bool was_there = told_of->now.there[key];
    if (is_as(cobix_delete(file, bytes), was_there ? 0 : COBIX_NOT_FOUND) && was_there)
        told_of->now.there[key] = false, changed();
}

/* The key of a record that was delivered, which is to be that of the rows; -1 where it is not. */
static int is_right(const void *record, size_t length)
{
    int key = length == LENGTH ? atoi(strndupa(record, 5)) : KEYS;
    bool right = key < KEYS && told_of->now.there[key] && memcmp(record, told_of->now.record[key], LENGTH) == 0;
    told_of->bad += !right;
    return right ? key : -1;
}

static void read_some(cobix_file *file, int key)
{
    const void *record;
    size_t length;
    char bytes[6];
    snprintf(bytes, sizeof bytes, "%05d", key);
    if (is_as(cobix_read(file, 0, bytes, &record, &length), told_of->now.there[key] ? 0 : COBIX_NOT_FOUND) && told_of->now.there[key])
        is_right(record, length);
    int status = cobix_start(file, 1, COBIX_NOT_LESS, "00", 2);
    told_of->faults += is_fault(status);
    for (int i = 0; i < 5 && cobix_succeeded(status); i++)
        if (cobix_succeeded(status = cobix_read_next(file, &record, &length)))
            is_right(record, length);
    told_of->faults += is_fault(status);
}

/* A CLOSE begins: that of the file, or of the session which has it open. */
static void begin_close(void)
{
    told_of->closing = told_of->now;
    atomic_signal_fence(memory_order_seq_cst);
    told_of->is_closing = true;
}

/* The records are noted before it is said of them that they are the file's: the process may be killed between. */
static void end_close(int status)
{
    if (!is_as(status, 0))
        return;
    told_of->closed = told_of->now;
    atomic_signal_fence(memory_order_seq_cst);
    told_of->was_closed = told_of->is_exact = true;
    atomic_signal_fence(memory_order_seq_cst);
    told_of->is_closing = false;
}

static void close_file(cobix_file *file)
{
    begin_close();
    end_close(cobix_close_file(file, false));
}

static bool opens(cobix_file *file, cobix_mode mode)
{
    int status = cobix_open_file(file, mode);
    told_of->faults += is_fault(status);
    if (!cobix_succeeded(status))
        return false;
    if (mode == COBIX_OUTPUT)
        memset(&told_of->now, 0, sizeof told_of->now);
    told_of->is_exact &= mode == COBIX_INPUT;
    return true;
}

/* One OPEN to CLOSE. Where OPEN fails nothing is done. */
static void period(cobix_file *file, cobix_mode mode)
{
    if (!opens(file, mode))
        return;
    for (int i = 0; i < DYNAMIC_KEYS; i++) {
        if (mode != COBIX_INPUT)
            write_one(file, i * 7 % DYNAMIC_KEYS, i + (int)mode);
        if (mode == COBIX_IO && i % 3 == 0)
            delete_one(file, i * 11 % DYNAMIC_KEYS);
        if (mode != COBIX_OUTPUT && i % 4 == 0)
            read_some(file, i * 3 % DYNAMIC_KEYS);
    }
    close_file(file);
}

/* Sequential access: records behind the last one. */
static void extend(cobix_file *file)
{
    if (!opens(file, COBIX_EXTEND))
        return;
    for (int key = DYNAMIC_KEYS; key < KEYS; key++)
        write_one(file, key, key);
    close_file(file);
}

/* Sequential access: each record is read, and then deleted, written anew, or left. */
static void walk(cobix_file *file)
{
    const void *record;
    size_t length;
    int status;
    if (!opens(file, COBIX_IO))
        return;
    for (int turn = 0; cobix_succeeded(status = cobix_read_next(file, &record, &length)); turn++) {
        int key = is_right(record, length);
        if (key >= 0 && turn % 3 == 0 && is_as(cobix_delete(file, NULL), 0))
            told_of->now.there[key] = false, changed();
        if (key >= 0 && turn % 3 == 1)
            write_one(file, key, turn);
    }
    is_as(status, COBIX_END);
    close_file(file);
}

static cobix_file *file_of(cobix *session, const cobix_description *description)
{
    cobix_file *file;
    told_of->bad += cobix_describe(session, description, &file) != 0 && told_of->faults == 0;
    return file;
}

static void release(cobix_file *file) { told_of->bad += cobix_release(file) != 0 && told_of->faults == 0; }

/* The session: every verb, in every mode of dynamic and of sequential access. It ends while the file is open. */
static void perform(void)
{
    cobix *session;
    if (cobix_open(folder, &(cobix_limits){.frames = 2}, &session)) {
        told_of->bad++;
        return;
    }
    cobix_file *file = file_of(session, &described);
    if (file)
        period(file, COBIX_OUTPUT), period(file, COBIX_IO), period(file, COBIX_INPUT), release(file);
    file = file_of(session, &in_sequence);
    if (file)
        extend(file), walk(file), release(file);
    file = file_of(session, &described);
    if (file && opens(file, COBIX_IO)) {
        write_one(file, 1, 1);
        begin_close();
        end_close(cobix_close(session));
    } else
        told_of->bad += cobix_close(session) != 0;
}

/* ---- what the file has */

static bool are_same(const struct rows *a, const struct rows *b)
{
    for (int i = 0; i < KEYS; i++)
        if (a->there[i] != b->there[i] || (a->there[i] && memcmp(a->record[i], b->record[i], LENGTH) != 0))
            return false;
    return true;
}

/* The status of OPEN by a new session, with what it reads there by each key. -1 where what is read is not sound. */
static int read_back(struct rows *rows)
{
    cobix *session;
    cobix_file *file;
    const void *record;
    size_t length;
    int counts[2] = {0, 0};
    memset(rows, 0, sizeof *rows);
    if (cobix_open(folder, NULL, &session) || cobix_describe(session, &described, &file))
        return -1;
    int opened = cobix_open_file(file, COBIX_INPUT);
    for (unsigned key = 0; key < 2 && opened == 0; key++) {
        int status = cobix_start(file, key, COBIX_NOT_LESS, "\0\0\0\0", key ? 3 : 5);
        while (cobix_succeeded(status) && cobix_succeeded(status = cobix_read_next(file, &record, &length))) {
            int number = atoi(strndupa(record, 5));
            if (length != LENGTH || number >= KEYS)
                status = -1;
            else
                rows->there[number] = true, memcpy(rows->record[number], record, LENGTH), counts[key]++;
        }
        if (status != COBIX_END && status != COBIX_NOT_FOUND)
            opened = -1;
    }
    cobix_close(session);
    return counts[0] == counts[1] ? opened : -1;
}

static bool check_says_sound(void)
{
    char command[2 * 4096 + 40];
    snprintf(command, sizeof command, "'%s' check '%s/F' > /dev/null 2>&1", program, folder);
    return system(command) == 0;
}

/* Whether the file is as it may be after this run. */
static bool is_allowed(void)
{
    struct rows had;
    int opened = read_back(&had);
    bool is_closed = told_of->was_closed && opened == 0 && are_same(&had, &told_of->closed);
    if (program && opened == 0 && fault.tried++ % 8 == 0 && !check_says_sound())
        return false;
    if (told_of->is_exact)
        return is_closed;
    if (opened == COBIX_UNSOUND || (opened == COBIX_NO_FILE && !told_of->was_closed))
        return true;
    return is_closed || (told_of->is_closing && opened == 0 && are_same(&had, &told_of->closing));
}

/* Whether the file is as it may be: as it is, and as each image of it where calls are traced. */
static bool are_allowed(const char *what)
{
    static const char *const images[IMAGES] = {"", ", as synced", ", with zeros", ", with Cs", ", half as synced"};
    /* A call to lock that fails means that the system has no locks. */
    told_of->bad += told_of->shared && !(fault.kind == FAILS && told_of->is_met);
    if (disk)
        disk_end(disk);
    for (enum image image = 0; image < (disk ? IMAGES : AS_READ + 1); image++) {
        if (image != AS_READ)
            disk_leave(disk, image);
        if (told_of->bad || !is_allowed()) {
            failed++;
            printf("FAILED: %s%s: %d bad answers, exact %d\n", what, images[image], told_of->bad, told_of->is_exact);
            return false;
        }
    }
    return true;
}

/* A child that performs the session with this fault. */
static pid_t begin(enum kind kind, long at, bool stays)
{
    char path[4096];
    snprintf(path, sizeof path, "%s/F", folder);
    unlink(path);
    if (disk)
        disk_begin(disk, path);
    memset(told_of, 0, sizeof *told_of);
    fault.kind = kind, fault.at = at, fault.stays = stays, fault.count = 0;
    fflush(stdout);
    pid_t child = fork();
    if (child == 0) {
        perform();
        exit(0); /* where a sanitizer looks for memory that was not given back */
    }
    fault.at = 0;
    return child;
}

/* Waits for its end, which is good, or a kill where that may be. Whether it was killed. */
static bool is_killed(pid_t child, bool may_be)
{
    int status = -1;
    waitpid(child, &status, 0);
    bool killed = WIFSIGNALED(status) && WTERMSIG(status) == SIGKILL;
    told_of->bad += status != 0 && !(killed && may_be);
    return killed;
}

/* Whether the fault was met. */
static bool run(enum kind kind, long at, bool stays)
{
    char what[80];
    bool killed = is_killed(begin(kind, at, stays), kind == IS_KILLED), met = told_of->is_met;
    told_of->bad += kind == IS_KILLED && met != killed;
    snprintf(what, sizeof what, "call %ld %s%s", at, kinds[kind], stays ? ", and all later" : "");
    passed += are_allowed(what) && met;
    return met;
}

/* Kills processes at so many moments of the session. */
static void kill_at_moments(long kills)
{
    struct timespec first, last;
    long met = 0;
    clock_gettime(CLOCK_MONOTONIC, &first);
    CHECK("not killed", is_killed(begin(FAILS, 0, false), false), false);
    clock_gettime(CLOCK_MONOTONIC, &last);
    long whole = (last.tv_sec - first.tv_sec) * 1000000000 + last.tv_nsec - first.tv_nsec;
    for (long i = 0; i < kills; i++) {
        char what[80];
        long after = whole / kills * i;
        pid_t child = begin(FAILS, 0, false);
        nanosleep(&(struct timespec){.tv_sec = after / 1000000000, .tv_nsec = after % 1000000000}, NULL);
        kill(child, SIGKILL);
        met += is_killed(child, true);
        snprintf(what, sizeof what, "killed after %ld microseconds", after / 1000);
        passed += are_allowed(what);
    }
    printf("    %ld of %ld processes were killed before their end\n", met, kills);
    CHECK("some were killed", met > 0, kills > 0);
}

/* ---- pages that are held */

/* How many calls of the system a walk over all records takes, after another one, with so many frames. */
static long calls_of_a_walk(cobix_file *file)
{
    const void *record;
    size_t length;
    long before = fault.count, walked = 0;
    CHECK("start", cobix_start(file, 0, COBIX_NOT_LESS, "0", 1), 0);
    while (cobix_read_next(file, &record, &length) == 0)
        walked++;
    CHECK("all records", walked, 10000);
    return fault.count - before;
}

/* 10,000 records are some 200 pages: more than 64, and fewer than are held where nothing is said. */
static void held_pages(void)
{
    const cobix_limits few = {.frames = 64};
    for (int usual = 0; usual < 2; usual++) {
        cobix *session;
        cobix_file *file;
        char bytes[2 * LENGTH];
        long well = 0, before = fault.count;
        CHECK("a session", cobix_open(folder, usual ? NULL : &few, &session), 0);
        CHECK("described", cobix_describe(session, &described, &file), 0);
        CHECK("nothing is asked of the system yet", fault.count, before);
        CHECK("output", cobix_open_file(file, COBIX_OUTPUT), 0);
        for (int i = 0; i < 10000; i++) {
            snprintf(bytes, sizeof bytes, "%05d%03d%12s", i * 7919 % 10000, i % 500, "");
            well += cobix_succeeded(cobix_write(file, bytes, LENGTH));
        }
        CHECK("all are written", well, 10000);
        CHECK("close", cobix_close_file(file, false), 0);
        CHECK("input", cobix_open_file(file, COBIX_INPUT), 0);
        calls_of_a_walk(file);
        CHECK("no page is read again, with the usual frames", calls_of_a_walk(file) == 0, usual);
        CHECK("close session", cobix_close(session), 0);
    }
}

int main(int count, char **words)
{
    const long every = count > 3 ? atol(words[2]) : 0;
    if (every < 1)
        return 2;
    folder = words[1], program = count > 4 ? words[4] : NULL;
    told_of = mmap(NULL, sizeof *told_of, PROT_READ | PROT_WRITE, MAP_SHARED | MAP_ANONYMOUS, -1, 0);
    is_met = &told_of->is_met;
    if (every == 1)
        held_pages();
    kill_at_moments(atol(words[3]));
    disk = disk_new();
    CHECK("without a fault it is not met", run(FAILS, 0, false), false);
    CHECK("without a fault the file is exact", told_of->is_exact, true);
    CHECK("without a fault there is none", told_of->faults, 0);
    CHECK("the file is changed", told_of->changes > 0, true);
    CHECK("nobody else may have its lock then", told_of->shared, 0);
    for (enum kind kind = 0; kind < KINDS; kind++)
        for (int stays = 0; stays < (kind == IS_KILLED ? 1 : 2); stays++) {
            long n = 1 + (2 * (long)kind + stays) % every, met = 0;
            for (; run(kind, n, stays); n += every)
                met++;
            printf("    %ld calls, each %s%s\n", met, kinds[kind], stays ? ", and all later" : "");
            CHECK("many calls", n > 100, 1);
        }
    return told("faults");
}
