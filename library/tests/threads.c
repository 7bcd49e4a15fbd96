/* Threads: sessions side by side, one session passed from thread to thread, and calls that overlap in one session; and the locks of fork()
   and of the end of a process, of which ThreadSanitizer tells where they are taken in two orders.
   The linker puts a function below in the place of fsync (--wrap), which holds a call in its midst.
   The last line is "threads: N passed, M failed".    usage: threads FOLDER, which is empty */
#define _GNU_SOURCE
#include "check.h"
#include "cobix.h"
#include <pthread.h>
#include <semaphore.h>
#include <stdatomic.h>
#include <stdio.h>
#include <stdlib.h>
#include <string.h>
#include <sys/wait.h>
#include <unistd.h>

enum { THREADS = 4, RECORDS = 2000, TURNS = 200 };

static const char *folder;
static const cobix_key keys[] = {{0, 5, false}, {5, 3, true}};

static cobix *session_of(const char *name, cobix_file **file)
{
    cobix *session;
    cobix_description d = {.name = name, .access = COBIX_DYNAMIC, .least = 8, .greatest = 20, .key_count = 2, .keys = keys};
    if (cobix_open(folder, &(cobix_limits){.frames = 2}, &session) || cobix_describe(session, &d, file))
        return NULL;
    return session;
}

/* Writes records and reads them back. How many verbs succeeded. */
static void *works(void *name)
{
    cobix_file *file;
    cobix *session = session_of(name, &file);
    const void *record;
    char bytes[21];
    size_t length;
    long good = 0;
    cobix_open_file(file, COBIX_OUTPUT);
    for (int i = 0; i < RECORDS; i++) {
        snprintf(bytes, sizeof bytes, "%05d%03d%12s", i * 7919 % RECORDS, i % 50, (char *)name);
        good += cobix_succeeded(cobix_write(file, bytes, 20));
    }
    cobix_close_file(file, false), cobix_open_file(file, COBIX_INPUT);
    while (cobix_read_next(file, &record, &length) == 0)
        good += length == 20 && memcmp((const char *)record + 18, (char *)name, 2) == 0;
    cobix_close(session);
    return (void *)good;
}

static void side_by_side(void)
{
    pthread_t all[THREADS];
    static char *const names[THREADS] = {"T0", "T1", "T2", "T3"};
    for (int i = 0; i < THREADS; i++)
        CHECK("a thread begins", pthread_create(&all[i], NULL, works, names[i]), 0);
    for (int i = 0; i < THREADS; i++) {
        void *good;
        pthread_join(all[i], &good);
        CHECK("what it did", (long)good, 2 * RECORDS);
    }
}

static cobix_file *shared;

static void *adds_one(void *count)
{
    char bytes[9];
    snprintf(bytes, sizeof bytes, "%05ldAAA", (long)count);
    return (void *)(long)cobix_succeeded(cobix_write(shared, bytes, 8));
}

/* Each thread begins where the one before was joined. */
static void passed_on(void)
{
    cobix *session = session_of("ROUND", &shared);
    long good = 0;
    CHECK("output", cobix_open_file(shared, COBIX_OUTPUT), 0);
    for (long i = 0; i < TURNS; i++) {
        pthread_t thread;
        void *well;
        pthread_create(&thread, NULL, adds_one, (void *)i);
        pthread_join(thread, &well);
        good += (long)well;
    }
    CHECK("written", good, TURNS);
    CHECK("close", cobix_close_file(shared, false), 0);
    CHECK("close session", cobix_close(session), 0);
}

/* Writes its own records, each until the call does not overlap with that of another thread. How many calls did. */
static void *presses(void *first)
{
    char bytes[9];
    long overlapped = 0;
    for (long i = 0; i < RECORDS; i++) {
        snprintf(bytes, sizeof bytes, "%05ldAAA", (long)first + i * THREADS);
        int status;
        while ((status = cobix_write(shared, bytes, 8)) == COBIX_MISUSE)
            overlapped++;
        if (!cobix_succeeded(status))
            return (void *)-1L;
    }
    return (void *)overlapped;
}

static void overlapping(void)
{
    cobix *session = session_of("PRESSED", &shared);
    pthread_t all[THREADS];
    const void *record;
    size_t length;
    long count = 0;
    CHECK("output", cobix_open_file(shared, COBIX_OUTPUT), 0);
    for (long i = 0; i < THREADS; i++)
        pthread_create(&all[i], NULL, presses, (void *)i);
    for (int i = 0; i < THREADS; i++) {
        void *overlapped;
        pthread_join(all[i], &overlapped);
        CHECK("all were written", (long)overlapped >= 0, 1);
    }
    CHECK("close", cobix_close_file(shared, false), 0);
    CHECK("input", cobix_open_file(shared, COBIX_INPUT), 0);
    while (cobix_read_next(shared, &record, &length) == 0)
        count++;
    CHECK("records", count, THREADS * RECORDS);
    CHECK("close session", cobix_close(session), 0);
}

static atomic_bool holds; /* the next fsync */
static sem_t is_held, may_go_on;

int __real_fsync(int end);
int __wrap_fsync(int end);
int __wrap_fsync(int end)
{
    if (atomic_exchange(&holds, false))
        sem_post(&is_held), sem_wait(&may_go_on);
    return __real_fsync(end);
}

static void *closes(void *file) { return (void *)(long)cobix_close_file(file, false); }

/* Each call in the midst of another one in its session is refused. */
static void refused(cobix *session)
{
    cobix_file *file;
    const cobix_description d = {.name = "MORE", .access = COBIX_DYNAMIC, .least = 8, .greatest = 20, .key_count = 2, .keys = keys};
    const void *record;
    size_t length;
    CHECK("describe", cobix_describe(session, &d, &file), COBIX_MISUSE);
    CHECK("open", cobix_open_file(shared, COBIX_INPUT), COBIX_MISUSE);
    CHECK("read next", cobix_read_next(shared, &record, &length), COBIX_MISUSE);
    CHECK("read", cobix_read(shared, 0, "00001", &record, &length), COBIX_MISUSE);
    CHECK("start", cobix_start(shared, 0, COBIX_EQUAL, "00001", 5), COBIX_MISUSE);
    CHECK("write", cobix_write(shared, "00002AAA", 8), COBIX_MISUSE);
    CHECK("rewrite", cobix_rewrite(shared, "00001BBB", 8), COBIX_MISUSE);
    CHECK("delete", cobix_delete(shared, "00001"), COBIX_MISUSE);
    CHECK("close", cobix_close_file(shared, true), COBIX_MISUSE);
    CHECK("release", cobix_release(shared), COBIX_MISUSE);
    CHECK("close session", cobix_close(session), COBIX_MISUSE);
}

/* A CLOSE is held in its midst. Its session refuses each call, and has done nothing of them; another session goes on. */
static void in_the_midst(void)
{
    cobix_file *in_other;
    cobix *session = session_of("MIDST", &shared), *other = session_of("MIDST-2", &in_other);
    pthread_t thread;
    void *closed;
    const void *record;
    size_t length;
    sem_init(&is_held, 0, 0), sem_init(&may_go_on, 0, 0);
    CHECK("output", cobix_open_file(shared, COBIX_OUTPUT), 0);
    CHECK("write", cobix_write(shared, "00001AAA", 8), 0);
    atomic_store(&holds, true);
    CHECK("a thread begins", pthread_create(&thread, NULL, closes, shared), 0);
    sem_wait(&is_held);
    refused(session);
    CHECK("output in another session", cobix_open_file(in_other, COBIX_OUTPUT), 0);
    CHECK("write there", cobix_write(in_other, "00001AAA", 8), 0);
    CHECK("close it", cobix_close(other), 0);
    sem_post(&may_go_on);
    pthread_join(thread, &closed);
    CHECK("the close", (long)closed, 0);
    CHECK("input", cobix_open_file(shared, COBIX_INPUT), 0);
    CHECK("read", cobix_read_next(shared, &record, &length), 0);
    CHECK("its record", length == 8 && memcmp(record, "00001AAA", 8) == 0, 1);
    CHECK("the only one", cobix_read_next(shared, &record, &length), COBIX_END);
    CHECK("close session", cobix_close(session), 0);
}

static int end_of(pid_t child)
{
    int status = -1;
    return child > 0 && waitpid(child, &status, 0) == child ? status : -1;
}

/* A process that has forked ends with a session open, which its end closes. */
static void forking(void)
{
    cobix_file *file;
    fflush(stdout);
    pid_t child = fork();
    if (child == 0) {
        cobix *session = session_of("FORKING", &file);
        int bad = !session || cobix_open_file(file, COBIX_OUTPUT) || cobix_write(file, "00001AAA", 8);
        pid_t its_own = fork();
        if (its_own == 0)
            _exit(0);
        exit(bad || end_of(its_own) != 0);
    }
    CHECK("a process that has forked ends", end_of(child), 0);
    cobix *session = session_of("FORKING", &file);
    CHECK("and has closed its file", cobix_open_file(file, COBIX_INPUT), 0);
    CHECK("close session", cobix_close(session), 0);
}

int main(int count, char **words)
{
    if (count != 2)
        return 2;
    folder = words[1];
    side_by_side();
    passed_on();
    overlapping();
    in_the_midst();
    forking();
    return told("threads");
}
