/* The verbs of cobix.h beside the C interfaces of SQLite and LMDB, on the same records: microseconds a verb, on the clock.
       bench FOLDER STORE [RECORDS]      prints a line a verb: its name, microseconds, how many were done */
#define _GNU_SOURCE
#include "store.h"
#include <stdio.h>
#include <stdlib.h>
#include <string.h>
#include <time.h>

static long records = 100000;
static const struct store *store;
static const char *folder;

void must(bool holds, const char *what)
{
    if (holds)
        return;
    fprintf(stderr, "bench: %s failed\n", what);
    exit(1);
}

static double now(void)
{
    struct timespec time;
    clock_gettime(CLOCK_MONOTONIC, &time);
    return (double)time.tv_sec + (double)time.tv_nsec * 1e-9;
}

/* The i-th record: its key by a step that meets all keys, and its group. */
static const char *make(long i, long step, long group)
{
    static char record[LENGTH + 1];
    memset(record, 'x', LENGTH);
    snprintf(record, sizeof record, "%010ld%06ld", i * step % records, group % (records / 20));
    record[KEY + GROUP] = 'x';
    return record;
}

static bool writes(long i) { return store->write(make(i, 7919, i)); }

static bool reads(long i)
{
    char record[LENGTH];
    return store->read(make(i, 104729, 0), record);
}

static bool reads_next(long i)
{
    char record[LENGTH];
    (void)i;
    return store->next(record);
}

/* The same, under another name, by which callgrind counts it. */
__attribute__((no_icf)) static bool reads_group(long i)
{
    char record[LENGTH];
    (void)i;
    return store->next(record);
}

static bool rewrites(long i) { return store->rewrite(make(i, 6271, i * 3)); }

static bool deletes(long i) { return store->delete(make(i, 7001, 0)); }

static void measure(const char *verb, bool (*perform)(long))
{
    long done = 0;
    double since = now();
    for (long i = 0; i < records; i++)
        done += perform(i);
    printf("%s %s %.3f %ld\n", store->name, verb, (now() - since) / (double)records * 1e6, done);
    must(done == records, verb);
}

static void close_all(const char *when)
{
    double since = now();
    store->close();
    printf("%s %s %.0f 1\n", store->name, when, (now() - since) * 1e6);
}

int main(int count, char **words)
{
    static const struct store *const stores[] = {
        &cobix_store,
#ifdef HAS_SQLITE
        &sqlite_store,
#endif
#ifdef HAS_LMDB
        &lmdb_store,
#endif
    };
    for (unsigned i = 0; count > 2 && i < sizeof stores / sizeof *stores; i++)
        if (strcmp(stores[i]->name, words[2]) == 0)
            store = stores[i];
    if (!store)
        return 2;
    folder = words[1], records = count > 3 ? atol(words[3]) : records;
    store->open(folder, true);
    measure("WRITE", writes);
    close_all("CLOSE");
    store->open(folder, false);
    measure("READ", reads);
    must(store->start(false, "0000000000"), "START");
    measure("READ-NEXT", reads_next);
    must(store->start(true, "000000"), "START");
    measure("READ-NEXT-BY-GROUP", reads_group);
    measure("REWRITE", rewrites);
    measure("DELETE", deletes);
    close_all("CLOSE-2");
    return 0;
}
