/* The calls of cobix.h: each verb, wrong calls, several sessions, fork, the end of a process, threads and descriptors.
   The last line is "calls: N passed, M failed".    usage: calls FOLDER, which is empty */
#define _GNU_SOURCE
#include "check.h"
#include "cobix.h"
#include <dirent.h>
#include <errno.h>
#include <fcntl.h>
#include <limits.h>
#include <pthread.h>
#include <signal.h>
#include <stdlib.h>
#include <string.h>
#include <sys/file.h>
#include <sys/resource.h>
#include <sys/stat.h>
#include <sys/wait.h>
#include <unistd.h>

static const char *folder;
static const cobix_key keys[] = {{0, 5, false}, {5, 3, true}};
static const void *record;
static size_t length;

static cobix_description described(const char *name, cobix_access access)
{
    return (cobix_description){.name = name, .access = access, .least = 8, .greatest = 20, .key_count = 2, .keys = keys};
}

/* A session of its own, with one described file. */
static cobix *session_of(const char *name, cobix_access access, cobix_file **file)
{
    cobix *session;
    cobix_description d = described(name, access);
    CHECK("a session", cobix_open(folder, NULL, &session), 0);
    CHECK("a file", cobix_describe(session, &d, file), 0);
    return session;
}

static bool delivered(const char *text) { return length == strlen(text) && memcmp(record, text, length) == 0; }

static void write_verbs(cobix_file *file)
{
    CHECK("no file", cobix_open_file(file, COBIX_IO), COBIX_NO_FILE);
    CHECK("read before open", cobix_read_next(file, &record, &length), COBIX_NOT_FOR_READING);
    CHECK("output", cobix_open_file(file, COBIX_OUTPUT), 0);
    CHECK("open twice", cobix_open_file(file, COBIX_OUTPUT), COBIX_OPEN_ALREADY);
    CHECK("write", cobix_write(file, "00001AAAfirst", 13), 0);
    CHECK("write a second", cobix_write(file, "00002AAAsecond", 14), COBIX_DUPLICATE);
    CHECK("clash", cobix_write(file, "00002BBB", 8), COBIX_CLASH);
    CHECK("short", cobix_write(file, "00003B", 6), COBIX_LENGTH);
    CHECK("long", cobix_write(file, "00003BBB0123456789012345", 24), COBIX_LENGTH);
    CHECK("far too long", cobix_write(file, "00003BBB", 65536), COBIX_MISUSE);
    CHECK("rewrite in output", cobix_rewrite(file, "00001AAAfirst", 13), COBIX_NOT_FOR_UPDATING);
    CHECK("delete in output", cobix_delete(file, "00001"), COBIX_NOT_FOR_UPDATING);
    CHECK("release while open", cobix_release(file), COBIX_FILE_IS_OPEN);
    CHECK("close", cobix_close_file(file, false), 0);
    CHECK("close twice", cobix_close_file(file, false), COBIX_NOT_OPEN);
}

static void read_verbs(cobix_file *file)
{
    CHECK("i-o", cobix_open_file(file, COBIX_IO), 0);
    CHECK("read", cobix_read(file, 0, "00002", &record, &length), 0);
    CHECK("its record", delivered("00002AAAsecond"), true);
    CHECK("read by the alternate", cobix_read(file, 1, "AAA", &record, &length), COBIX_DUPLICATE);
    CHECK("the first of them", delivered("00001AAAfirst"), true);
    CHECK("next", cobix_read_next(file, &record, &length), 0);
    CHECK("the second", delivered("00002AAAsecond"), true);
    CHECK("end", cobix_read_next(file, &record, &length), COBIX_END);
    CHECK("nothing delivered", length, 0);
    CHECK("past the end", cobix_read_next(file, &record, &length), COBIX_NO_POSITION);
    CHECK("not found", cobix_read(file, 0, "00009", &record, &length), COBIX_NOT_FOUND);
    CHECK("nothing delivered", length, 0);
    CHECK("no such key", cobix_read(file, 2, "AAA", &record, &length), COBIX_NO_SUCH_KEY);
    CHECK("start", cobix_start(file, 0, COBIX_GREATER, "00001", 5), 0);
    CHECK("next of start", cobix_read_next(file, &record, &length), 0);
    CHECK("the second", delivered("00002AAAsecond"), true);
    CHECK("start by leading bytes", cobix_start(file, 1, COBIX_EQUAL, "AA", 2), 0);
    CHECK("start by none", cobix_start(file, 1, COBIX_EQUAL, "AA", 0), COBIX_MISUSE);
    CHECK("start by too many", cobix_start(file, 1, COBIX_EQUAL, "AAAA", 4), COBIX_NO_SUCH_KEY);
    CHECK("start past all", cobix_start(file, 0, COBIX_GREATER, "99999", 5), COBIX_NOT_FOUND);
}

static void change_verbs(cobix_file *file)
{
    CHECK("rewrite", cobix_rewrite(file, "00001CCCagain", 13), 0);
    CHECK("rewritten", cobix_read(file, 1, "CCC", &record, &length), 0);
    CHECK("its record", delivered("00001CCCagain"), true);
    CHECK("rewrite of none", cobix_rewrite(file, "00009CCCagain", 13), COBIX_NOT_FOUND);
    CHECK("delete", cobix_delete(file, "00002"), 0);
    CHECK("delete again", cobix_delete(file, "00002"), COBIX_NOT_FOUND);
    CHECK("close with lock", cobix_close_file(file, true), 0);
    CHECK("locked", cobix_open_file(file, COBIX_INPUT), COBIX_WAS_LOCKED);
}

static void verbs(void)
{
    cobix_file *file, *other;
    cobix *session = session_of("STAFF", COBIX_DYNAMIC, &file);
    cobix_description d = described("STAFF", COBIX_DYNAMIC);
    CHECK("describe twice", cobix_describe(session, &d, &other), COBIX_NAME_TAKEN);
    CHECK("which gives none", other == NULL, true);
    write_verbs(file);
    read_verbs(file);
    change_verbs(file);
    CHECK("release", cobix_release(file), 0);
    CHECK("release again", cobix_release(file), COBIX_MISUSE);
    CHECK("describe after release", cobix_describe(session, &d, &file), 0);
    CHECK("no longer locked", cobix_open_file(file, COBIX_INPUT), 0);
    CHECK("close session", cobix_close(session), 0);
}

/* Sequential access: EXTEND, the order of keys, REWRITE and DELETE of the record that was read. */
static void sequential(void)
{
    cobix_file *file;
    cobix *session = session_of("SEQ", COBIX_SEQUENTIAL, &file);
    CHECK("output", cobix_open_file(file, COBIX_OUTPUT), 0);
    CHECK("write", cobix_write(file, "00001AAA", 8), 0);
    CHECK("not rising", cobix_write(file, "00001BBB", 8), COBIX_SEQUENCE);
    CHECK("close", cobix_close_file(file, false), 0);
    CHECK("extend", cobix_open_file(file, COBIX_EXTEND), 0);
    CHECK("write", cobix_write(file, "00002BBB", 8), 0);
    CHECK("close", cobix_close_file(file, false), 0);
    CHECK("i-o", cobix_open_file(file, COBIX_IO), 0);
    CHECK("delete before a read", cobix_delete(file, NULL), COBIX_NOT_READ);
    CHECK("read", cobix_read_next(file, &record, &length), 0);
    CHECK("rewrite", cobix_rewrite(file, "00001ZZZ", 8), 0);
    CHECK("read", cobix_read_next(file, &record, &length), 0);
    CHECK("delete", cobix_delete(file, NULL), 0);
    CHECK("close", cobix_close_file(file, false), 0);
    CHECK("input", cobix_open_file(file, COBIX_INPUT), 0);
    CHECK("read", cobix_read_next(file, &record, &length), 0);
    CHECK("what is left", delivered("00001ZZZ"), true);
    CHECK("end", cobix_read_next(file, &record, &length), COBIX_END);
    CHECK("close session", cobix_close(session), 0);
}

/* What each access asks for of a WRITE, REWRITE and DELETE; and that each of them reads. */
static void accesses(void)
{
    static const char *const names[] = {"BY-SEQUENCE", "AT-RANDOM", "DYNAMICALLY"};
    for (unsigned access = COBIX_SEQUENTIAL; access <= COBIX_DYNAMIC; access++) {
        cobix_file *file;
        cobix *session = session_of(names[access], access, &file);
        bool in_sequence = access == COBIX_SEQUENTIAL;
        CHECK("output", cobix_open_file(file, COBIX_OUTPUT), 0);
        CHECK("write", cobix_write(file, "00002AAA", 8), 0);
        CHECK("a lower key", cobix_write(file, "00001BBB", 8), in_sequence ? COBIX_SEQUENCE : 0);
        CHECK("a higher key", cobix_write(file, "00003CCC", 8), 0);
        CHECK("close", cobix_close_file(file, false), 0);
        CHECK("extend", cobix_open_file(file, COBIX_EXTEND), 0);
        CHECK("write", cobix_write(file, "00004DDD", 8), in_sequence ? 0 : COBIX_NOT_FOR_WRITING);
        CHECK("read", cobix_read_next(file, &record, &length), COBIX_NOT_FOR_READING);
        CHECK("close", cobix_close_file(file, false), 0);
        CHECK("i-o", cobix_open_file(file, COBIX_IO), 0);
        CHECK("write", cobix_write(file, "00005EEE", 8), in_sequence ? COBIX_NOT_FOR_WRITING : 0);
        CHECK("rewrite", cobix_rewrite(file, "00002ZZZ", 8), in_sequence ? COBIX_NOT_READ : 0);
        CHECK("read by a key", cobix_read(file, 0, "00003", &record, &length), 0);
        CHECK("another prime key", cobix_rewrite(file, "00009CCC", 8), in_sequence ? COBIX_SEQUENCE : COBIX_NOT_FOUND);
        CHECK("start", cobix_start(file, 1, COBIX_NOT_LESS, "B", 1), 0);
        CHECK("next", cobix_read_next(file, &record, &length), 0);
        CHECK("its record", delivered(in_sequence ? "00003CCC" : "00001BBB"), true);
        CHECK("start past all that begin so", cobix_start(file, 1, COBIX_GREATER, "B", 1), 0);
        CHECK("next", cobix_read_next(file, &record, &length), 0);
        CHECK("its record", delivered("00003CCC"), true);
        CHECK("start at none that begins so", cobix_start(file, 1, COBIX_EQUAL, "X", 1), COBIX_NOT_FOUND);
        CHECK("no position", cobix_read_next(file, &record, &length), COBIX_NO_POSITION);
        CHECK("read by a key", cobix_read(file, 0, "00003", &record, &length), 0);
        CHECK("delete", cobix_delete(file, "00003"), 0);
        CHECK("it is gone", cobix_read(file, 0, "00003", &record, &length), COBIX_NOT_FOUND);
        CHECK("close session", cobix_close(session), 0);
    }
}

/* A DELETE by no key is of the record that was read, in sequential access alone. */
static void delete_by_no_key(void)
{
    static const char *const names[] = {[COBIX_RANDOM] = "AT-RANDOM", [COBIX_DYNAMIC] = "DYNAMICALLY"};
    for (unsigned access = COBIX_RANDOM; access <= COBIX_DYNAMIC; access++) {
        cobix_file *file;
        cobix *session = session_of(names[access], access, &file);
        CHECK("i-o", cobix_open_file(file, COBIX_IO), 0);
        CHECK("read", cobix_read(file, 0, "00001", &record, &length), 0);
        CHECK("delete", cobix_delete(file, NULL), COBIX_MISUSE);
        CHECK("it is there", cobix_read(file, 0, "00001", &record, &length), 0);
        CHECK("close session", cobix_close(session), 0);
    }
}

/* A file that may be absent. */
static void optional(void)
{
    static const struct {
        const char *name;
        cobix_mode mode;
        int opened, next;
    } ways[] = {
        {"OPTIONAL-INPUT", COBIX_INPUT, COBIX_NEW_OPTIONAL, COBIX_NO_FILE},
        {"OPTIONAL-IO", COBIX_IO, COBIX_NEW_OPTIONAL, 0},
        {"OPTIONAL-EXTEND", COBIX_EXTEND, COBIX_NEW_OPTIONAL, 0},
        {"OPTIONAL-OUTPUT", COBIX_OUTPUT, 0, 0}};
    for (unsigned i = 0; i < sizeof ways / sizeof *ways; i++) {
        cobix *session;
        cobix_file *file;
        cobix_description d = described(ways[i].name, COBIX_DYNAMIC);
        d.optional = true;
        CHECK("a session", cobix_open(folder, NULL, &session), 0);
        CHECK("a file", cobix_describe(session, &d, &file), 0);
        CHECK(ways[i].name, cobix_open_file(file, ways[i].mode), ways[i].opened);
        if (ways[i].mode == COBIX_INPUT) {
            CHECK("no record", cobix_read(file, 0, "00001", &record, &length), COBIX_NOT_FOUND);
            CHECK("no first one", cobix_read_next(file, &record, &length), COBIX_NO_POSITION);
        }
        CHECK("close session", cobix_close(session), 0);
        session = session_of(ways[i].name, COBIX_DYNAMIC, &file);
        CHECK("is it there", cobix_open_file(file, COBIX_INPUT), ways[i].next);
        CHECK("close session", cobix_close(session), 0);
    }
}

/* Descriptions with other lengths and keys than the file has. */
static void other_attributes(void)
{
    static const cobix_key other[] = {{0, 5, false}, {5, 2, true}}, unique[] = {{0, 5, false}, {5, 3, false}};
    cobix_file *file;
    cobix *session = session_of("ATTRIBUTES", COBIX_DYNAMIC, &file);
    cobix_description d = described("ATTRIBUTES", COBIX_DYNAMIC), all[5] = {d, d, d, d, d};
    CHECK("output", cobix_open_file(file, COBIX_OUTPUT), 0);
    CHECK("close session", cobix_close(session), 0);
    all[0].least = 9, all[1].greatest = 21, all[2].key_count = 1, all[3].keys = other, all[4].keys = unique;
    for (unsigned i = 0; i < sizeof all / sizeof *all; i++) {
        CHECK("a session", cobix_open(folder, NULL, &session), 0);
        CHECK("a file", cobix_describe(session, &all[i], &file), 0);
        CHECK("other attributes", cobix_open_file(file, COBIX_INPUT), COBIX_OTHER_ATTRIBUTES);
        CHECK("close session", cobix_close(session), 0);
    }
}

enum { LONGEST = 4000 };

/* A record of the greatest length, by its number, from -1 on: all bytes but the first are alike, and not those of the record before. */
static void make_longest(char *bytes, int number)
{
    memset(bytes, '0' + number % 10, LONGEST);
    bytes[0] = (char)('A' + number / 10);
}

/* The longest name, records and keys, and the most keys; so many pages, and the most frames. Writes until no page is left. The fewest
   pages have room for no such record. */
static void at_the_limits(uint32_t pages, bool fits)
{
    const char *name = "a-NAME_of.sixty-four-characters-0123456789-0123456789-0123456789";
    cobix *session;
    cobix_file *file;
    cobix_key most[9];
    static char bytes[LONGEST];
    int status = 0, written = -1, left = 0;
    for (uint16_t i = 0; i < 9; i++)
        most[i] = (cobix_key){.offset = (uint16_t)(250 * i), .length = 250, .duplicates = i > 0};
    cobix_description d = {.name = name, .access = COBIX_DYNAMIC, .least = 2250, .greatest = sizeof bytes, .key_count = 9, .keys = most};
    CHECK("as long as a name may be", strlen(name), 64);
    CHECK("a session", cobix_open(folder, &(cobix_limits){.pages = pages, .frames = 4096}, &session), 0);
    CHECK("a file", cobix_describe(session, &d, &file), 0);
    CHECK("output", cobix_open_file(file, COBIX_OUTPUT), 0);
    for (; cobix_succeeded(status) && written < 99; written++) {
        make_longest(bytes, written);
        status = cobix_write(file, bytes, sizeof bytes);
    }
    CHECK("no page is left", status, COBIX_FULL);
    CHECK("some are written", written > 0, fits);
    CHECK("close", cobix_close_file(file, false), 0);
    CHECK("input", cobix_open_file(file, COBIX_INPUT), 0);
    while (cobix_succeeded(cobix_read_next(file, &record, &length))) {
        make_longest(bytes, left - 1);
        left += length == sizeof bytes && memcmp(record, bytes, sizeof bytes) == 0;
    }
    CHECK("what was written is there", left, written);
    CHECK("close session", cobix_close(session), 0);
}

/* What a call is given is the caller's afterwards. What a read delivers stays, whatever another session does. */
static void given_and_delivered(void)
{
    cobix *session, *other;
    cobix_file *file, *in_other;
    const void *first;
    size_t first_length;
    char path[4096], name[] = "GIVEN", bytes[] = "00001AAAfirst";
    cobix_key own[2] = {keys[0], keys[1]};
    cobix_limits limits = {.frames = 2};
    cobix_description d = {.name = name, .access = COBIX_DYNAMIC, .least = 8, .greatest = 20, .key_count = 2, .keys = own};
    snprintf(path, sizeof path, "%s", folder);
    CHECK("a session", cobix_open(path, &limits, &session), 0);
    memset(path, 'x', sizeof path - 1), limits.frames = 9999;
    CHECK("a file", cobix_describe(session, &d, &file), 0);
    memset(name, 'x', sizeof name - 1), memset(own, 0, sizeof own), memset(&d, 0, sizeof d);
    CHECK("output", cobix_open_file(file, COBIX_OUTPUT), 0);
    CHECK("write", cobix_write(file, bytes, 13), 0);
    memset(bytes, 'x', sizeof bytes - 1);
    CHECK("close", cobix_close_file(file, false), 0);
    CHECK("input", cobix_open_file(file, COBIX_INPUT), 0);
    CHECK("read by the alternate", cobix_read(file, 1, "AAA", &first, &first_length), 0);
    other = session_of("STAFF", COBIX_DYNAMIC, &in_other);
    CHECK("input in another session", cobix_open_file(in_other, COBIX_INPUT), 0);
    CHECK("read there", cobix_read_next(in_other, &record, &length), 0);
    CHECK("another record", delivered("00001CCCagain"), true);
    CHECK("close the other session", cobix_close(other), 0);
    record = first, length = first_length;
    CHECK("what was delivered is there", delivered("00001AAAfirst"), true);
    CHECK("close session", cobix_close(session), 0);
}

/* What a read delivers is the session's own, and may be what the next call is given: a record of this file or another, and a key. */
static void handed_back(void)
{
    cobix_file *file, *copy;
    cobix *session = session_of("HANDED", COBIX_DYNAMIC, &file);
    cobix_description d = described("COPY", COBIX_DYNAMIC);
    CHECK("a second file", cobix_describe(session, &d, &copy), 0);
    CHECK("output", cobix_open_file(file, COBIX_OUTPUT), 0);
    CHECK("write", cobix_write(file, "00001AAAthe first on", 20), 0);
    CHECK("write", cobix_write(file, "00002BBBlast", 12), 0);
    CHECK("close", cobix_close_file(file, false), 0);
    CHECK("i-o", cobix_open_file(file, COBIX_IO), 0);
    CHECK("output of the copy", cobix_open_file(copy, COBIX_OUTPUT), 0);
    CHECK("read next", cobix_read_next(file, &record, &length), 0);
    CHECK("write it into the copy", cobix_write(copy, record, length), 0);
    CHECK("read next", cobix_read_next(file, &record, &length), 0);
    CHECK("write it into the copy", cobix_write(copy, record, length), 0);
    CHECK("read the first", cobix_read(file, 0, "00001", &record, &length), 0);
    CHECK("rewrite its first bytes", cobix_rewrite(file, record, 10), 0);
    CHECK("read the last", cobix_read(file, 1, "BBB", &record, &length), 0);
    CHECK("read by the key that is delivered", cobix_read(file, 0, record, &record, &length), 0);
    CHECK("the same record", delivered("00002BBBlast"), true);
    CHECK("start at it", cobix_start(file, 0, COBIX_NOT_LESS, record, 5), 0);
    CHECK("read next", cobix_read_next(file, &record, &length), 0);
    CHECK("the same record", delivered("00002BBBlast"), true);
    CHECK("delete it", cobix_delete(file, record), 0);
    CHECK("read the first", cobix_read(file, 0, "00001", &record, &length), 0);
    CHECK("its first bytes", delivered("00001AAAth"), true);
    CHECK("close the copy", cobix_close_file(copy, false), 0);
    CHECK("input", cobix_open_file(copy, COBIX_INPUT), 0);
    CHECK("read the copy", cobix_read_next(copy, &record, &length), 0);
    CHECK("the first as it was", delivered("00001AAAthe first on"), true);
    CHECK("read the copy", cobix_read_next(copy, &record, &length), 0);
    CHECK("the last", delivered("00002BBBlast"), true);
    CHECK("close session", cobix_close(session), 0);
}

/* The lock of a session, as another run sees it by `flock`: none, shared, exclusive. */
static int lock_of(const char *name)
{
    char path[4096];
    snprintf(path, sizeof path, "%s/%s", folder, name);
    int end = open(path, O_RDONLY), shared = flock(end, LOCK_SH | LOCK_NB), exclusive = flock(end, LOCK_EX | LOCK_NB);
    close(end);
    return shared ? LOCK_EX : exclusive ? LOCK_SH : LOCK_UN;
}

static void lock(void)
{
    cobix_file *file;
    cobix *session = session_of("STAFF", COBIX_DYNAMIC, &file);
    CHECK("described", lock_of("STAFF"), LOCK_UN);
    CHECK("i-o", cobix_open_file(file, COBIX_IO), 0);
    CHECK("read", cobix_read_next(file, &record, &length), 0);
    CHECK("looked at", lock_of("STAFF"), LOCK_SH);
    CHECK("write", cobix_write(file, "00007AAA", 8), 0);
    CHECK("changed", lock_of("STAFF"), LOCK_EX);
    CHECK("close", cobix_close_file(file, false), 0);
    CHECK("closed", lock_of("STAFF"), LOCK_EX);
    CHECK("release", cobix_release(file), 0);
    CHECK("released", lock_of("STAFF"), LOCK_UN);
    CHECK("close session", cobix_close(session), 0);
}

/* Descriptions that no file can have, wrong numbers, NULL. */
static void wrong_descriptions(cobix *session)
{
    cobix_file *file;
    cobix_description d = described("STAFF", COBIX_DYNAMIC), wrong;
    wrong = d, wrong.name = "no/name";
    CHECK("wrong name", cobix_describe(session, &wrong, &file), COBIX_DESCRIPTION);
    wrong = d, wrong.name = "";
    CHECK("no name", cobix_describe(session, &wrong, &file), COBIX_DESCRIPTION);
    wrong = d, wrong.name = "a-name-of-sixty-five-bytes-0123456789012345678901234567890123456789";
    CHECK("long name", cobix_describe(session, &wrong, &file), COBIX_DESCRIPTION);
    wrong = d, wrong.greatest = 7;
    CHECK("wrong lengths", cobix_describe(session, &wrong, &file), COBIX_DESCRIPTION);
    wrong = d, wrong.least = 7;
    CHECK("a key past the least", cobix_describe(session, &wrong, &file), COBIX_DESCRIPTION);
    wrong = d, wrong.greatest = 4001;
    CHECK("long records", cobix_describe(session, &wrong, &file), COBIX_DESCRIPTION);
    wrong = d, wrong.name = ".hidden";
    CHECK("a point first", cobix_describe(session, &wrong, &file), COBIX_DESCRIPTION);
    wrong = d, wrong.name = "-option";
    CHECK("a hyphen first", cobix_describe(session, &wrong, &file), COBIX_DESCRIPTION);
    wrong = d, wrong.name = "no name";
    CHECK("a space", cobix_describe(session, &wrong, &file), COBIX_DESCRIPTION);
    wrong = d, wrong.key_count = 10;
    CHECK("many keys", cobix_describe(session, &wrong, &file), COBIX_MISUSE);
    wrong = d, wrong.key_count = 0;
    CHECK("no keys", cobix_describe(session, &wrong, &file), COBIX_MISUSE);
    wrong = d, wrong.access = 7;
    CHECK("no access", cobix_describe(session, &wrong, &file), COBIX_MISUSE);
    CHECK("NULL", cobix_describe(session, NULL, &file), COBIX_MISUSE);
    CHECK("which gives none", file == NULL, true);
}

/* Keys that are too long, are none, begin at one place, or do not rise. */
static void wrong_keys(cobix *session)
{
    static const cobix_key wrong[][3] = {
        {{0, 251, false}}, {{0, 5, false}, {5, 0, true}}, {{0, 5, false}, {8, 2, true}, {8, 3, true}}, {{0, 5, false}, {8, 2, true}, {6, 2, true}},
        {{8, 5, false}, {8, 2, true}}, {{0, 5, true}}};
    static const unsigned counts[] = {1, 2, 3, 3, 2, 1};
    cobix_file *file;
    for (unsigned i = 0; i < sizeof counts / sizeof *counts; i++) {
        cobix_description d = {.name = "WRONG", .access = COBIX_DYNAMIC, .least = 251, .greatest = 251, .key_count = counts[i], .keys = wrong[i]};
        CHECK("wrong keys", cobix_describe(session, &d, &file), COBIX_DESCRIPTION);
    }
}

static void misuse(void)
{
    cobix *session = (cobix *)1;
    cobix_file *file;
    cobix_description d = described("STAFF", COBIX_DYNAMIC);
    CHECK("no folder", cobix_open("/nowhere/at/all", NULL, &session), COBIX_NO_FOLDER);
    CHECK("why", errno, ENOENT);
    CHECK("no session", session == NULL, true);
    CHECK("a file", cobix_open("/dev/null", NULL, &session), COBIX_NO_FOLDER);
    CHECK("why", errno, ENOTDIR);
    CHECK("NULL", cobix_open(NULL, NULL, &session), COBIX_MISUSE);
    CHECK("frames", cobix_open(folder, &(cobix_limits){.frames = 4097}, &session), COBIX_MISUSE);
    CHECK("pages", cobix_open(folder, &(cobix_limits){.pages = 15}, &session), COBIX_MISUSE);
    CHECK("NULL to close", cobix_close(NULL), 0);
    CHECK("describe in none", cobix_describe(NULL, &d, &file), COBIX_MISUSE);
    CHECK("open no file", cobix_open_file(NULL, COBIX_IO), COBIX_MISUSE);
    CHECK("a session", cobix_open(folder, NULL, &session), 0);
    wrong_descriptions(session);
    wrong_keys(session);
    CHECK("describe", cobix_describe(session, &d, &file), 0);
    CHECK("no mode", cobix_open_file(file, 4), COBIX_MISUSE);
    CHECK("no record", cobix_write(file, NULL, 8), COBIX_MISUSE);
    CHECK("no relation", cobix_start(file, 0, 3, "00001", 5), COBIX_MISUSE);
    CHECK("nowhere to", cobix_read_next(file, NULL, &length), COBIX_MISUSE);
    CHECK("close", cobix_close(session), 0);
}

static void many_files(void)
{
    cobix *session;
    cobix_file *file;
    cobix_description d = described("", COBIX_DYNAMIC);
    char name[16];
    int made = 0;
    CHECK("a session", cobix_open(folder, &(cobix_limits){.frames = 2}, &session), 0);
    for (int i = 0; i < 64; i++) {
        snprintf(name, sizeof name, "F%d", i), d.name = name;
        made += cobix_describe(session, &d, &file) == 0 && cobix_open_file(file, COBIX_OUTPUT) == 0 &&
                cobix_write(file, "00001AAA", 8) == 0;
    }
    CHECK("64 files", made, 64);
    d.name = "ONE-MORE";
    CHECK("another", cobix_describe(session, &d, &file), COBIX_MANY);
    CHECK("close", cobix_close(session), 0);
}

/* The path of a folder is UTF-8. */
static void texts(void)
{
    enum { GOOD = 5, BAD = 7 };
    static const char *const good[GOOD] = {"m\xC3\xBCller", "\xE2\x82\xAC", "\xF0\x9F\x98\x80", "\xED\x9F\xBF", "\xF4\x8F\xBF\xBF"};
    static const char *const bad[BAD] = {"m\xFCller", "\xE2\x82", "\xC0\x80", "\xE0\x80\x80", "\xED\xA0\x80", "\xF0\x80\x80\x80", "\xF4\x90\x80\x80"};
    char path[4096];
    cobix *session;
    for (int i = 0; i < GOOD + BAD; i++) {
        snprintf(path, sizeof path, "%s/%s", folder, i < GOOD ? good[i] : bad[i - GOOD]);
        CHECK("a folder", mkdir(path, 0700), 0);
        CHECK("a session there", cobix_open(path, NULL, &session), i < GOOD ? 0 : COBIX_NO_FOLDER);
        CHECK("why not", i < GOOD ? 0 : errno, i < GOOD ? 0 : EILSEQ);
        CHECK("close", cobix_close(session), 0);
    }
}

/* Each answer has words, and what is none has others. */
static void messages(void)
{
    static const int answers[] = {0,  2,  5,  10, 21, 22, 23, 24, 30, 35, 38, 39, 41, 42, 43, 44,
                                  46, 47, 48, 49, 90, 91, 92, -1, -2, -3, -4, -5, -6, -7, -8, -9, -10};
    const char *none = cobix_message(1000);
    CHECK("words for a number that is none", strlen(none) > 0, true);
    for (unsigned i = 0; i < sizeof answers / sizeof *answers; i++) {
        CHECK("words of its own", strcmp(cobix_message(answers[i]), none) != 0, true);
        for (unsigned j = 0; j < i; j++)
            if (answers[i] != COBIX_NO_MEMORY)
                CHECK("other words", strcmp(cobix_message(answers[i]), cobix_message(answers[j])) != 0, true);
    }
}

/* The folder is that of cobix_open, wherever the process goes. A link or a folder is no file. */
static void names(void)
{
    cobix *session;
    cobix_file *file;
    cobix_description d = described("LINKED", COBIX_DYNAMIC);
    int here = open(".", O_RDONLY | O_DIRECTORY), there = open(folder, O_RDONLY | O_DIRECTORY);
    CHECK("there", fchdir(there), 0);
    CHECK("a session", cobix_open(".", NULL, &session), 0);
    CHECK("elsewhere", chdir("/"), 0);
    CHECK("a file", cobix_describe(session, &d, &file), 0);
    CHECK("a link", symlinkat("STAFF", there, "LINKED"), 0);
    CHECK("is no file", cobix_open_file(file, COBIX_INPUT), COBIX_FAULT);
    CHECK("nor to be made", cobix_open_file(file, COBIX_OUTPUT), COBIX_FAULT);
    unlinkat(there, "LINKED", 0), mkdirat(there, "LINKED", 0700);
    CHECK("nor is a folder", cobix_open_file(file, COBIX_INPUT), COBIX_FAULT);
    unlinkat(there, "LINKED", AT_REMOVEDIR);
    CHECK("made", cobix_open_file(file, COBIX_OUTPUT), 0);
    CHECK("closed", cobix_close_file(file, false), 0);
    CHECK("in the folder", faccessat(there, "LINKED", F_OK, 0), 0);
    CHECK("back", fchdir(here), 0);
    close(here), close(there);
    CHECK("close", cobix_close(session), 0);
}

/* Two sessions of one process keep each other out. */
static void two_sessions(void)
{
    cobix_file *in_a, *in_b;
    cobix *a = session_of("TWO", COBIX_DYNAMIC, &in_a), *b = session_of("TWO", COBIX_DYNAMIC, &in_b);
    cobix_description d = described("TWO", COBIX_DYNAMIC);
    CHECK("output in a", cobix_open_file(in_a, COBIX_OUTPUT), 0);
    CHECK("write in a", cobix_write(in_a, "00001AAA", 8), 0);
    CHECK("input in b meanwhile", cobix_open_file(in_b, COBIX_INPUT), COBIX_FAULT);
    CHECK("close in a", cobix_close_file(in_a, false), 0);
    CHECK("input in b, still", cobix_open_file(in_b, COBIX_INPUT), COBIX_FAULT);
    CHECK("release in a", cobix_release(in_a), 0);
    CHECK("input in b", cobix_open_file(in_b, COBIX_INPUT), 0);
    CHECK("describe in a", cobix_describe(a, &d, &in_a), 0);
    CHECK("i-o in a", cobix_open_file(in_a, COBIX_IO), 0);
    CHECK("write in a while b reads", cobix_write(in_a, "00002AAA", 8), COBIX_FAULT);
    CHECK("read in b", cobix_read_next(in_b, &record, &length), 0);
    CHECK("what was there", delivered("00001AAA"), true);
    CHECK("close in b", cobix_close(b), 0);
    CHECK("close in a, where a write failed", cobix_close(a), COBIX_FAULT);
}

/* A file that another program has changed since it was read is not changed over that, though the lock is had. */
static void changed_between(void)
{
    cobix_file *file;
    cobix *session = session_of("BETWEEN", COBIX_DYNAMIC, &file);
    char path[4096];
    struct timespec times[2] = {{.tv_nsec = UTIME_OMIT}, {.tv_sec = 1000000000, .tv_nsec = 1}};
    snprintf(path, sizeof path, "%s/BETWEEN", folder);
    CHECK("output", cobix_open_file(file, COBIX_OUTPUT), 0);
    CHECK("write", cobix_write(file, "00001AAA", 8), 0);
    CHECK("close session", cobix_close(session), 0);
    session = session_of("BETWEEN", COBIX_DYNAMIC, &file);
    CHECK("i-o", cobix_open_file(file, COBIX_IO), 0);
    CHECK("read", cobix_read(file, 0, "00001", &record, &length), 0);
    CHECK("another time", utimensat(AT_FDCWD, path, times, 0), 0);
    CHECK("write", cobix_write(file, "00002AAA", 8), COBIX_FAULT);
    CHECK("another write", cobix_write(file, "00003AAA", 8), COBIX_FAILED_BEFORE);
    CHECK("close", cobix_close_file(file, false), COBIX_FAULT);
    CHECK("close session", cobix_close(session), 0);
}

/* A file that cannot be closed at the end of its session, since its name is gone. */
static void unclosed(void)
{
    cobix_file *file;
    cobix *session = session_of("MOVED", COBIX_DYNAMIC, &file);
    int there = open(folder, O_RDONLY | O_DIRECTORY);
    CHECK("output", cobix_open_file(file, COBIX_OUTPUT), 0);
    CHECK("write", cobix_write(file, "00001AAA", 8), 0);
    CHECK("moved", renameat(there, "MOVED", there, "ELSEWHERE"), 0);
    CHECK("close session", cobix_close(session), COBIX_FAULT);
    session = session_of("ELSEWHERE", COBIX_DYNAMIC, &file);
    CHECK("refused under its new name", cobix_open_file(file, COBIX_INPUT), COBIX_UNSOUND);
    CHECK("close session", cobix_close(session), 0);
    close(there);
}

static int ends_of(pid_t child)
{
    int status = -1;
    while (waitpid(child, &status, 0) < 0 && errno == EINTR)
        continue;
    return status;
}

/* How many descriptors are open of files whose whole path begins so. */
static int descriptors(const char *beginning)
{
    int count = 0;
    DIR *all = opendir("/proc/self/fd");
    for (const struct dirent *one = readdir(all); one; one = readdir(all)) {
        char path[4096];
        ssize_t size = readlinkat(dirfd(all), one->d_name, path, sizeof path - 1);
        path[size < 0 ? 0 : size] = 0;
        count += strncmp(path, beginning, strlen(beginning)) == 0;
    }
    closedir(all);
    return count;
}

/* What a child of fork() sees: its parent's files closed, each call refused, and sessions of its own. */
static int in_child(cobix *session, cobix_file *file)
{
    cobix *own;
    cobix_file *in_own;
    cobix_description d = described("FORK", COBIX_DYNAMIC);
    CHECK("descriptors of files", descriptors(folder), 0);
    CHECK("describe", cobix_describe(session, &d, &in_own), COBIX_FORKED);
    CHECK("open", cobix_open_file(file, COBIX_INPUT), COBIX_FORKED);
    CHECK("read next", cobix_read_next(file, &record, &length), COBIX_FORKED);
    CHECK("read", cobix_read(file, 0, "00001", &record, &length), COBIX_FORKED);
    CHECK("start", cobix_start(file, 0, COBIX_EQUAL, "00001", 5), COBIX_FORKED);
    CHECK("write", cobix_write(file, "00001AAA", 8), COBIX_FORKED);
    CHECK("rewrite", cobix_rewrite(file, "00001AAA", 8), COBIX_FORKED);
    CHECK("delete", cobix_delete(file, "00001"), COBIX_FORKED);
    CHECK("close", cobix_close_file(file, false), COBIX_FORKED);
    CHECK("release", cobix_release(file), COBIX_FORKED);
    CHECK("a session of its own", cobix_open(folder, NULL, &own), 0);
    CHECK("a file", cobix_describe(own, &d, &in_own), 0);
    CHECK("the lock is the parent's", cobix_open_file(in_own, COBIX_INPUT), COBIX_FAULT);
    CHECK("close the parent's", cobix_close(session), 0);
    fflush(stdout);
    return failed != 0; /* and exit closes its own session */
}

static void forked(void)
{
    cobix_file *file;
    cobix *session = session_of("FORK", COBIX_DYNAMIC, &file);
    CHECK("output", cobix_open_file(file, COBIX_OUTPUT), 0);
    CHECK("descriptors of files", descriptors(folder) > 0, true);
    fflush(stdout);
    pid_t child = fork();
    if (child == 0)
        exit(in_child(session, file));
    CHECK("the child", ends_of(child), 0);
    CHECK("the parent", cobix_write(file, "00001AAA", 8), 0);
    CHECK("close", cobix_close_file(file, false), 0);
    CHECK("close session", cobix_close(session), 0);
}

/* A child that lives on has no lock of its parent's. */
static void forked_and_left(void)
{
    cobix_file *file;
    cobix *session = session_of("LEFT", COBIX_DYNAMIC, &file);
    int ends[2];
    char path[4096];
    snprintf(path, sizeof path, "%s/LEFT", folder);
    CHECK("output", cobix_open_file(file, COBIX_OUTPUT), 0);
    CHECK("a pipe", pipe(ends), 0);
    fflush(stdout);
    pid_t child = fork();
    if (child == 0) {
        char byte;
        close(ends[1]);
        _exit(read(ends[0], &byte, 1) != 0); /* to the end of the parent's test */
    }
    close(ends[0]);
    int end = open(path, O_RDWR);
    CHECK("the parent has the lock", flock(end, LOCK_EX | LOCK_NB) < 0, true);
    CHECK("close session", cobix_close(session), 0);
    CHECK("nobody has it", flock(end, LOCK_EX | LOCK_NB), 0);
    close(end), close(ends[1]);
    CHECK("the child", ends_of(child), 0);
}

/* How a process ends while a file is open: by exit, by a signal between two verbs, by abort, and by _exit. */
static void ends(void)
{
    static const struct {
        const char *name;
        int signal, open;
    } ways[] = {{"EXITED", 0, 0},
                {"KILLED", SIGKILL, COBIX_UNSOUND},
                {"ENDED", SIGTERM, COBIX_UNSOUND},
                {"ABORTED", SIGABRT, COBIX_UNSOUND},
                {"LEFT-OFF", -1, COBIX_UNSOUND}};
    for (unsigned i = 0; i < sizeof ways / sizeof *ways; i++) {
        cobix_file *file;
        fflush(stdout);
        pid_t child = fork();
        if (child == 0) {
            cobix *session = session_of(ways[i].name, COBIX_DYNAMIC, &file);
            int bad = cobix_open_file(file, COBIX_OUTPUT) || cobix_write(file, "00001AAA", 8) || !session;
            setrlimit(RLIMIT_CORE, &(struct rlimit){0, 0});
            if (ways[i].signal == SIGABRT)
                abort();
            if (ways[i].signal > 0)
                raise(ways[i].signal);
            if (ways[i].signal < 0)
                _exit(bad);
            exit(bad);
        }
        int status = ends_of(child);
        CHECK(ways[i].name, WIFSIGNALED(status) ? WTERMSIG(status) : WEXITSTATUS(status), ways[i].signal > 0 ? ways[i].signal : 0);
        cobix *session = session_of(ways[i].name, COBIX_DYNAMIC, &file);
        CHECK(ways[i].name, cobix_open_file(file, COBIX_INPUT), ways[i].open);
        CHECK("made anew", cobix_open_file(file, COBIX_OUTPUT), ways[i].open ? 0 : COBIX_OPEN_ALREADY);
        CHECK("close session", cobix_close(session), 0);
    }
}

/* A file that was opened I-O, and read, and not changed, is as it was, though the process was killed. */
static void killed_unchanged(void)
{
    cobix_file *file;
    fflush(stdout);
    pid_t child = fork();
    if (child == 0) {
        session_of("STAFF", COBIX_DYNAMIC, &file);
        if (cobix_open_file(file, COBIX_IO) || cobix_read_next(file, &record, &length))
            exit(1);
        raise(SIGKILL);
    }
    CHECK("killed", ends_of(child), SIGKILL);
    cobix *session = session_of("STAFF", COBIX_DYNAMIC, &file);
    CHECK("as it was", cobix_open_file(file, COBIX_INPUT), 0);
    CHECK("read", cobix_read_next(file, &record, &length), 0);
    CHECK("its record", delivered("00001CCCagain"), true);
    CHECK("close session", cobix_close(session), 0);
}

static cobix *kept;
static cobix_file *kept_file;

/* Runs behind the library's own work at the end of the process. */
static void after_the_end(void)
{
    cobix_file *file;
    cobix_description d = described("MORE", COBIX_DYNAMIC);
    CHECK("write", cobix_write(kept_file, "00002AAA", 8), COBIX_ENDED);
    CHECK("close", cobix_close_file(kept_file, false), COBIX_ENDED);
    CHECK("describe", cobix_describe(kept, &d, &file), COBIX_ENDED);
    CHECK("close session", cobix_close(kept), 0);
    fflush(stdout);
    _exit(failed);
}

static void at_the_end(void)
{
    fflush(stdout);
    pid_t child = fork();
    if (child == 0) {
        atexit(after_the_end);
        kept = session_of("AT-END", COBIX_DYNAMIC, &kept_file);
        cobix_open_file(kept_file, COBIX_OUTPUT);
        exit(2);
    }
    CHECK("a call after the end", ends_of(child), 0);
}

/* No other process, and no thread of the library's own. */
static void alone(void)
{
    int threads = 0;
    DIR *all = opendir("/proc/self/task");
    while (readdir(all))
        threads++;
    closedir(all);
    CHECK("threads", threads - 2, 1);
    CHECK("processes", waitpid(-1, NULL, WNOHANG), -1);
    CHECK("there is none", errno, ECHILD);
}

int main(int count, char **words)
{
    static char whole[PATH_MAX];
    if (count != 2 || !(folder = realpath(words[1], whole)))
        return 2;
    at_the_end(); /* first: its handler has to be registered before the library's */
    int before = descriptors("");
    verbs();
    sequential();
    accesses();
    delete_by_no_key();
    optional();
    other_attributes();
    at_the_limits(16, false);
    at_the_limits(64, true);
    given_and_delivered();
    handed_back();
    lock();
    misuse();
    many_files();
    texts();
    messages();
    names();
    two_sessions();
    changed_between();
    unclosed();
    forked();
    forked_and_left();
    ends();
    killed_unchanged();
    alone();
    CHECK("descriptors", descriptors(""), before);
    return told("calls");
}
