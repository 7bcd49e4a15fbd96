/* cobix.h as a store of bench.c. */
#include "store.h"
#include <cobix.h>
#include <stdlib.h>
#include <string.h>

static cobix *session;
static cobix_file *file;

static void begin(const char *folder)
{
    const char *frames = getenv("COBIX_FRAMES");
    const cobix_limits limits = {.frames = frames ? (uint32_t)atoi(frames) : 0};
    static const cobix_key keys[] = {{0, KEY, false}, {KEY, GROUP, true}};
    const cobix_description described = {
        .name = "bench", .access = COBIX_DYNAMIC, .least = LENGTH, .greatest = LENGTH, .key_count = 2, .keys = keys};
    must(cobix_open(folder, &limits, &session) == 0 && cobix_describe(session, &described, &file) == 0, "session");
}

static void open_file(const char *folder, bool is_new)
{
    if (!session)
        begin(folder);
    must(cobix_succeeded(cobix_open_file(file, is_new ? COBIX_OUTPUT : COBIX_IO)), "OPEN");
}

static void close_file(void) { must(cobix_succeeded(cobix_close_file(file, false)), "CLOSE"); }

static bool write_one(const char *record) { return cobix_succeeded(cobix_write(file, record, LENGTH)); }

static bool taken(int status, const void *at, size_t length, char *record)
{
    if (!cobix_succeeded(status))
        return false;
    memcpy(record, at, length);
    return true;
}

static bool read_one(const char *key, char *record)
{
    const void *at;
    size_t length;
    int status = cobix_read(file, 0, key, &at, &length);
    return taken(status, at, length, record);
}

static bool start(bool by_group, const char *value)
{
    return cobix_succeeded(cobix_start(file, by_group, COBIX_NOT_LESS, value, by_group ? GROUP : KEY));
}

static bool next(char *record)
{
    const void *at;
    size_t length;
    int status = cobix_read_next(file, &at, &length);
    return taken(status, at, length, record);
}

static bool rewrite(const char *record) { return cobix_succeeded(cobix_rewrite(file, record, LENGTH)); }

static bool delete_one(const char *key) { return cobix_succeeded(cobix_delete(file, key)); }

const struct store cobix_store = {"cobix", open_file, close_file, write_one, read_one, start, next, rewrite, delete_one};
