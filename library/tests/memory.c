/* The n-th request for memory is refused, for each n over sessions that use every verb; once, or each request from then on. Only
   cobix_open, cobix_describe and OPEN ask for memory. Where it is refused they say so, and files have what the statuses tell; where memory is
   had again, the same call does what it was to do, as do all calls after it. A session gives all of its memory back.
   The linker puts the functions below between the library and the C library (--wrap).
   The last line is "memory: N passed, M failed".    usage: memory FOLDER, which is empty */
#define _GNU_SOURCE
#include "check.h"
#include "cobix.h"
#include <errno.h>
#include <malloc.h>
#include <stdbool.h>
#include <stdio.h>
#include <stdlib.h>
#include <string.h>
#include <unistd.h>

/* ---- requests for memory */

static struct {
    long at;     /* the request that is refused, from 1; 0 where none is */
    bool stays;  /* and each later one */
    bool met;
    long count;  /* requests so far */
    long blocks; /* that the library has */
    long bytes;  /* in them */
} memory;

static bool is_refused(void)
{
    memory.count++;
    bool refused = memory.at && (memory.stays ? memory.count >= memory.at : memory.count == memory.at);
    memory.met |= refused;
    if (refused)
        errno = ENOMEM;
    return refused;
}

static void *given(void *block)
{
    memory.blocks += block != NULL, memory.bytes += (long)malloc_usable_size(block);
    return block;
}

static void *back(void *block)
{
    memory.blocks -= block != NULL, memory.bytes -= (long)malloc_usable_size(block);
    return block;
}

void *__real_malloc(size_t size);
void *__real_calloc(size_t count, size_t size);
void *__real_realloc(void *block, size_t size);
void __real_free(void *block);
char *__real_realpath(const char *path, char *whole);
void *__wrap_malloc(size_t size);
void *__wrap_calloc(size_t count, size_t size);
void *__wrap_realloc(void *block, size_t size);
void __wrap_free(void *block);
char *__wrap_realpath(const char *path, char *whole);

void *__wrap_malloc(size_t size) { return is_refused() ? NULL : given(__real_malloc(size)); }

void *__wrap_calloc(size_t count, size_t size) { return is_refused() ? NULL : given(__real_calloc(count, size)); }

void *__wrap_realloc(void *block, size_t size) { return is_refused() ? NULL : given(__real_realloc(back(block), size)); }

void __wrap_free(void *block) { __real_free(back(block)); }

/* What it asks for is asked within the C library. */
char *__wrap_realpath(const char *path, char *whole) { return is_refused() ? NULL : given(__real_realpath(path, whole)); }

/* ---- calls that ask for memory: whether the session goes on */

static const char *folder;
static const cobix_limits few = {.frames = 2};
static const cobix_key keys[] = {{0, 5, false}, {5, 3, true}};
static long asked;    /* requests of these calls */
static long refusals; /* answers that memory ran out */

/* Whether a call is to be made again. */
static bool ran_out(int answer, int refusal, long before)
{
    asked += memory.count - before;
    refusals += answer == refusal;
    return answer == refusal && !memory.stays;
}

/* One that was refused has answered so, where no memory is had again. */
static bool goes_on(const char *what, int answer, int refusal)
{
    if (answer != refusal || !memory.stays)
        CHECK(what, cobix_succeeded(answer) ? 0 : answer, 0);
    return cobix_succeeded(answer);
}

static bool begins(cobix **session)
{
    int answer;
    long before = memory.count;
    while (ran_out(answer = cobix_open(folder, &few, session), COBIX_NO_MEMORY, before)) {
        CHECK("no session", *session == NULL, true);
        before = memory.count;
    }
    return goes_on("a session", answer, COBIX_NO_MEMORY);
}

static bool describes(cobix *session, const char *name, cobix_access access, bool optional, cobix_file **file)
{
    cobix_description d = {
        .name = name, .access = access, .optional = optional, .least = 8, .greatest = 2000, .key_count = 2, .keys = keys};
    int answer;
    long before = memory.count;
    while (ran_out(answer = cobix_describe(session, &d, file), COBIX_NO_MEMORY, before)) {
        CHECK("no file", *file == NULL, true);
        before = memory.count;
    }
    return goes_on("a file", answer, COBIX_NO_MEMORY);
}

/* ---- every verb */

enum { KEYS = 40, LENGTH = 1500 };

/* Whether a file is there, and the turns in which its records were written, by their prime keys; 0 where there is none. */
struct rows {
    bool is_there;
    int turn[KEYS];
};
static struct rows first, second, third;

static bool opens(cobix_file *file, cobix_mode mode, struct rows *rows)
{
    int answer;
    long before = memory.count;
    while (ran_out(answer = cobix_open_file(file, mode), COBIX_MEMORY, before)) {
        CHECK("it is not open", cobix_close_file(file, false), COBIX_NOT_OPEN);
        before = memory.count;
    }
    if (answer == COBIX_NEW_OPTIONAL || (answer == 0 && mode == COBIX_OUTPUT))
        *rows = (struct rows){.is_there = true};
    return goes_on("open", answer, COBIX_MEMORY);
}

static const char *bytes_of(int key, int turn)
{
    static char bytes[LENGTH + 32];
    snprintf(bytes, sizeof bytes, "%05d%03d%*d", key, turn % 7, LENGTH - 8, turn);
    return bytes;
}

static void put(cobix_file *file, struct rows *rows, int key, int turn)
{
    const char *bytes = bytes_of(key, turn);
    int status = rows->turn[key] ? cobix_rewrite(file, bytes, LENGTH) : cobix_write(file, bytes, LENGTH);
    CHECK("put", cobix_succeeded(status), true);
    rows->turn[key] = turn;
}

static void take_away(cobix_file *file, struct rows *rows, int key)
{
    CHECK("delete", cobix_delete(file, bytes_of(key, 0)), rows->turn[key] ? 0 : COBIX_NOT_FOUND);
    rows->turn[key] = 0;
}

static bool is_right(const void *record, size_t length, const struct rows *rows)
{
    int key = length == LENGTH ? atoi(strndupa(record, 5)) : KEYS;
    return key < KEYS && rows->turn[key] && memcmp(record, bytes_of(key, rows->turn[key]), LENGTH) == 0;
}

/* All records, from the first by this key on. */
static void walk(cobix_file *file, unsigned key, const struct rows *rows)
{
    const void *record;
    size_t length;
    int left = 0, status = cobix_start(file, key, COBIX_NOT_LESS, "0", 1);
    for (int i = 0; i < KEYS; i++)
        left += rows->turn[i] != 0;
    while (cobix_succeeded(status) && cobix_succeeded(status = cobix_read_next(file, &record, &length)))
        left -= is_right(record, length, rows);
    CHECK("to the end", status == COBIX_END || status == COBIX_NOT_FOUND, true);
    CHECK("all records", left, 0);
}

/* Every second record, in no order. */
static void fill(cobix_file *file, struct rows *rows, int from)
{
    for (int i = from; i < KEYS; i += 2)
        put(file, rows, i * 7 % KEYS, i + 1);
}

static void change(cobix_file *file, struct rows *rows, int turn)
{
    const void *record;
    size_t length;
    for (int i = 0; i < KEYS; i++)
        put(file, rows, i * 7 % KEYS, turn + i);
    for (int key = turn % 3; key < KEYS; key += 3)
        take_away(file, rows, key);
    take_away(file, rows, turn % 3);
    CHECK("read", cobix_read(file, 0, bytes_of((turn + 1) % 3, 0), &record, &length), 0);
    CHECK("its record", is_right(record, length, rows), true);
    walk(file, 0, rows), walk(file, 1, rows);
}

/* Sequential access: records behind the last one. */
static void extend(cobix_file *file, struct rows *rows, int key)
{
    put(file, rows, key, key + 1), put(file, rows, key + 1, key + 2);
    CHECK("close", cobix_close_file(file, false), 0);
}

/* Sequential access: the first record is deleted, and the next one written anew. */
static void pass(cobix_file *file, struct rows *rows)
{
    const void *record;
    size_t length;
    CHECK("read", cobix_read_next(file, &record, &length), 0);
    int key = atoi(strndupa(record, 5));
    CHECK("delete", cobix_delete(file, NULL), 0);
    rows->turn[key] = 0;
    CHECK("read", cobix_read_next(file, &record, &length), 0);
    put(file, rows, atoi(strndupa(record, 5)), 100);
    walk(file, 1, rows);
}

/* A file, and others. Where another one cannot be described or opened, the first is gone on with; and its session closes it. */
static void perform(cobix *session)
{
    cobix_file *file, *other, *optional;
    if (!describes(session, "F", COBIX_DYNAMIC, false, &file) || !opens(file, COBIX_OUTPUT, &first))
        return;
    fill(file, &first, 0);
    bool are_all = describes(session, "OTHER", COBIX_SEQUENTIAL, false, &other) && opens(other, COBIX_OUTPUT, &second) &&
                   describes(session, "OPTIONAL", COBIX_RANDOM, true, &optional) && opens(optional, COBIX_IO, &third);
    fill(file, &first, 1);
    if (!are_all)
        return;
    put(optional, &third, 3, 3);
    extend(other, &second, 0);
    CHECK("close", cobix_close_file(file, false), 0);
    if (!opens(file, COBIX_IO, &first))
        return;
    are_all = opens(other, COBIX_EXTEND, &second);
    change(file, &first, 3);
    if (!are_all)
        return;
    extend(other, &second, 2);
    if (!opens(other, COBIX_IO, &second))
        return;
    pass(other, &second);
    CHECK("close", cobix_close_file(other, false), 0);
    if (!opens(other, COBIX_OUTPUT, &second))
        return;
    put(other, &second, 7, 7);
    CHECK("close", cobix_close_file(file, false), 0);
    CHECK("release", cobix_release(file), 0);
    if (!describes(session, "F", COBIX_SEQUENTIAL, false, &file) || !opens(file, COBIX_IO, &first))
        return;
    pass(file, &first);
    CHECK("close with lock", cobix_close_file(file, true), 0);
    CHECK("locked", cobix_open_file(file, COBIX_INPUT), COBIX_WAS_LOCKED);
}

/* The file has what the statuses tell. */
static void look(const char *name, const struct rows *rows)
{
    cobix *session;
    cobix_file *file;
    if (!begins(&session) || !describes(session, name, COBIX_DYNAMIC, false, &file))
        return;
    CHECK(name, cobix_open_file(file, COBIX_INPUT), rows->is_there ? 0 : COBIX_NO_FILE);
    if (rows->is_there)
        walk(file, 0, rows), walk(file, 1, rows);
    CHECK("close session", cobix_close(session), 0);
}

/* Whether a request was refused. */
static bool run(long at, bool stays)
{
    cobix *session;
    unlink("F"), unlink("OTHER"), unlink("OPTIONAL");
    first = second = third = (struct rows){.is_there = false};
    memory.at = at, memory.stays = stays, memory.met = false, memory.count = asked = refusals = 0;
    if (begins(&session)) {
        perform(session);
        CHECK("close session", cobix_close(session), 0);
    }
    CHECK("what was refused is told, once", refusals, memory.met);
    CHECK("no other call asks for memory", asked, memory.count);
    CHECK("memory is given back", memory.blocks, 0);
    bool met = memory.met;
    memory.at = 0;
    look("F", &first), look("OTHER", &second), look("OPTIONAL", &third);
    return met;
}

/* ---- how much it is */

#ifdef __SANITIZE_ADDRESS__
enum { IS_SANITIZED = true }; /* AddressSanitizer has memory of its own for each block */
#else
enum { IS_SANITIZED = false };
#endif

static long resident(void)
{
    long all = 0, held = 0;
    FILE *told = fopen("/proc/self/statm", "r");
    CHECK("what the process has", told && fscanf(told, "%ld %ld", &all, &held) == 2, true);
    if (told)
        fclose(told);
    return held * sysconf(_SC_PAGESIZE);
}

/* As cobix.h tells them, for a session and a file with the usual frames. */
static void sizes(void)
{
    enum { KIB = 1024, MIB = 1024 * KIB };
    const cobix_description d = {.name = "SIZES", .access = COBIX_DYNAMIC, .least = 8, .greatest = 8, .key_count = 2, .keys = keys};
    cobix *session;
    cobix_file *file;
    CHECK("a session", cobix_open(folder, NULL, &session), 0);
    long held = memory.bytes, before = resident();
    CHECK("what a session takes", held > 90 * KIB && held < 100 * KIB, true);
    CHECK("a file", cobix_describe(session, &d, &file), 0);
    CHECK("what a described file takes", memory.bytes - held < 10 * KIB, true);
    held = memory.bytes;
    CHECK("output", cobix_open_file(file, COBIX_OUTPUT), 0);
    CHECK("what OPEN takes", memory.bytes - held > 16 * MIB && memory.bytes - held < 17 * MIB, true);
    CHECK("write", cobix_write(file, "00001AAA", 8), 0);
    if (!IS_SANITIZED)
        CHECK("what is touched of it", resident() - before < MIB, true);
    CHECK("close", cobix_close_file(file, false), 0);
    CHECK("what CLOSE gives back", memory.bytes, held);
    CHECK("close session", cobix_close(session), 0);
    CHECK("what its end gives back", memory.bytes, 0);
}

int main(int count, char **words)
{
    if (count != 2 || chdir(words[1]))
        return 2;
    folder = words[1];
    sizes();
    for (int stays = 0; stays < 2; stays++) {
        long n = 1;
        while (failed < 100 && run(n, stays))
            n++;
        printf("    each of %ld requests is refused%s\n", n - 1, stays ? ", and all later" : "");
        CHECK("many requests", n > 50, 1);
    }
    return told("memory");
}
