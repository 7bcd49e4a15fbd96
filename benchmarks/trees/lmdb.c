// The calls of `benchmarks trees` on a database of LMDB, in one write transaction that is never synced: lmdb FOLDER ENTRIES ROUNDS.
#include <lmdb.h>
#include <stdint.h>
#include <stdio.h>
#include <stdlib.h>
#include <string.h>
#include <time.h>

enum { WIDTH = 18, ENTRY = 24 };

static MDB_txn *txn;
static MDB_dbi tree;

static void must(int rc)
{
    if (rc) {
        fprintf(stderr, "%s\n", mdb_strerror(rc));
        exit(1);
    }
}

static uint64_t now(void)
{
    struct timespec t;
    clock_gettime(CLOCK_MONOTONIC, &t);
    return t.tv_sec * 1000000000ull + t.tv_nsec;
}

// The entries of COUNT numbers, as `benchmarks trees` makes them.
static unsigned char *mixed(uint64_t count, uint64_t factor)
{
    unsigned char *entries = malloc(count * ENTRY + 1);
    if (!entries)
        exit(1);
    for (uint64_t i = 0; i < count; i++) {
        uint64_t number = i * factor % count * 4999, rest = number;
        unsigned char *entry = entries + i * ENTRY;
        for (int place = WIDTH - 1; place >= 0; place--, rest /= 10)
            entry[place] = '0' + rest % 10;
        for (int place = 0; place < ENTRY - WIDTH; place++)
            entry[ENTRY - 1 - place] = number >> 8 * place;
    }
    return entries;
}

static uint64_t added(uint64_t sum, MDB_val *value)
{
    return sum * 31 + ((unsigned char *)value->mv_data)[value->mv_size - 1];
}

static uint64_t insert_all(unsigned char *entries, uint64_t count)
{
    uint64_t sum = 0;
    for (uint64_t i = 0; i < count; i++) {
        MDB_val key = {WIDTH, entries + i * ENTRY}, value = {ENTRY - WIDTH, entries + i * ENTRY + WIDTH};
        int rc = mdb_put(txn, tree, &key, &value, MDB_NOOVERWRITE);
        if (rc != MDB_KEYEXIST) {
            must(rc);
            sum++;
        }
    }
    return sum;
}

// LMDB does not tell what it takes out, so it is looked for first by the same cursor.
static uint64_t remove_all(unsigned char *entries, uint64_t count)
{
    uint64_t sum = 0;
    MDB_cursor *cursor;
    must(mdb_cursor_open(txn, tree, &cursor));
    for (uint64_t i = 0; i < count; i++) {
        MDB_val key = {WIDTH, entries + i * ENTRY}, value;
        must(mdb_cursor_get(cursor, &key, &value, MDB_SET_KEY));
        sum = added(sum, &value);
        must(mdb_cursor_del(cursor, 0));
    }
    mdb_cursor_close(cursor);
    return sum;
}

static uint64_t find_all(unsigned char *entries, uint64_t count)
{
    uint64_t sum = 0;
    for (uint64_t i = 0; i < count; i++) {
        MDB_val key = {WIDTH, entries + i * ENTRY}, value;
        must(mdb_get(txn, tree, &key, &value));
        sum = added(sum, &value);
    }
    return sum;
}

static uint64_t step_over(void)
{
    uint64_t sum = 0;
    MDB_cursor *cursor;
    MDB_val key, value;
    must(mdb_cursor_open(txn, tree, &cursor));
    while (!mdb_cursor_get(cursor, &key, &value, MDB_NEXT))
        sum = added(sum, &value);
    mdb_cursor_close(cursor);
    return sum;
}

static void fastest(uint64_t *least, uint64_t start)
{
    uint64_t time = now() - start;
    if (time < *least)
        *least = time;
}

int main(int argc, char **argv)
{
    if (argc != 4)
        return 2;
    uint64_t count = strtoull(argv[2], 0, 10), rounds = strtoull(argv[3], 0, 10);
    MDB_env *env;
    must(mdb_env_create(&env));
    must(mdb_env_set_mapsize(env, 1 << 30));
    must(mdb_env_open(env, argv[1], MDB_NOSYNC | MDB_WRITEMAP, 0644));
    must(mdb_txn_begin(env, 0, 0, &txn));
    must(mdb_dbi_open(txn, 0, 0, &tree));
    unsigned char *filling = mixed(count, 7919), *entries = mixed(count, 6271);
    uint64_t start = now(), inserted = insert_all(filling, count), fill = now() - start;
    uint64_t sum = 0, find = -1, step = -1, out = -1, in = -1, tenth = count / 10 ? count / 10 : 1;
    for (uint64_t turn = 0; turn < rounds; turn++) {
        uint64_t from = turn * tenth % count, some = from + tenth > count ? count - from : tenth;
        start = now();
        sum += find_all(entries, count);
        fastest(&find, start);
        start = now();
        sum += step_over();
        fastest(&step, start);
        start = now();
        sum += remove_all(entries + from * ENTRY, some);
        fastest(&out, start);
        start = now();
        sum += insert_all(entries + from * ENTRY, some);
        fastest(&in, start);
    }
    MDB_stat stat;
    must(mdb_stat(txn, tree, &stat));
    printf("entries %zu inserted %lu sum %lu fill %lu find %lu step %lu remove %lu insert %lu\n", stat.ms_entries, inserted,
        sum, fill, find, step, out, in);
    mdb_txn_abort(txn);
    mdb_env_close(env);
    return 0;
}
