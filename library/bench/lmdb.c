/* LMDB as a store of bench.c: a tree of keys to records with their stamps, one of groups and stamps to keys, one transaction. */
#define _GNU_SOURCE
#include "store.h"
#include <lmdb.h>
#include <stdint.h>
#include <stdio.h>
#include <string.h>
#include <unistd.h>

enum { STAMP = 8, WHOLE = LENGTH + STAMP, ENTRY = GROUP + STAMP };
static MDB_env *env;
static MDB_txn *txn;
static MDB_dbi by_key, by_group;
static MDB_cursor *walk;
static bool walks_groups, is_first;
static uint64_t stamp = 1;

static void put_stamp(char *at)
{
    for (int i = 0; i < STAMP; i++)
        at[i] = (char)(stamp >> (8 * (STAMP - 1 - i)));
    stamp++;
}

static void open_file(const char *folder, bool is_new)
{
    char path[4096];
    snprintf(path, sizeof path, "%s/bench.lmdb", folder);
    if (is_new)
        unlink(path);
    must(mdb_env_create(&env) == 0 && mdb_env_set_mapsize(env, (size_t)1 << 30) == 0 && mdb_env_set_maxdbs(env, 2) == 0, "env");
    must(mdb_env_open(env, path, MDB_NOSUBDIR, 0644) == 0 && mdb_txn_begin(env, NULL, 0, &txn) == 0, "open");
    must(mdb_dbi_open(txn, "key", MDB_CREATE, &by_key) == 0 && mdb_dbi_open(txn, "group", MDB_CREATE, &by_group) == 0, "trees");
}

static void stop_walk(void)
{
    if (walk)
        mdb_cursor_close(walk), walk = NULL;
}

static void close_file(void)
{
    stop_walk();
    must(mdb_txn_commit(txn) == 0, "commit");
    mdb_env_close(env);
}

static MDB_val bytes(const char *at, size_t length) { return (MDB_val){length, (void *)(uintptr_t)at}; }

static bool put_both(const char *record, unsigned flags)
{
    char whole[WHOLE], entry[ENTRY];
    memcpy(whole, record, LENGTH), put_stamp(whole + LENGTH);
    memcpy(entry, record + KEY, GROUP), memcpy(entry + GROUP, whole + LENGTH, STAMP);
    MDB_val key = bytes(record, KEY), value = bytes(whole, WHOLE), group = bytes(entry, ENTRY);
    return mdb_put(txn, by_key, &key, &value, flags) == 0 && mdb_put(txn, by_group, &group, &key, 0) == 0;
}

static bool write_one(const char *record) { return put_both(record, MDB_NOOVERWRITE); }

static bool read_one(const char *key, char *record)
{
    MDB_val k = bytes(key, KEY), value;
    if (mdb_get(txn, by_key, &k, &value))
        return false;
    memcpy(record, value.mv_data, LENGTH);
    return true;
}

static bool start(bool groups, const char *value)
{
    stop_walk();
    MDB_val key = bytes(value, groups ? GROUP : KEY), found;
    walks_groups = groups, is_first = true;
    return mdb_cursor_open(txn, groups ? by_group : by_key, &walk) == 0 && mdb_cursor_get(walk, &key, &found, MDB_SET_RANGE) == 0;
}

static bool next(char *record)
{
    MDB_val key, value;
    if (mdb_cursor_get(walk, &key, &value, is_first ? MDB_GET_CURRENT : MDB_NEXT))
        return false;
    is_first = false;
    if (walks_groups)
        return read_one(value.mv_data, record);
    memcpy(record, value.mv_data, LENGTH);
    return true;
}

/* Takes the record out of the tree of groups. */
static bool take_group(const char *key)
{
    char entry[ENTRY];
    MDB_val k = bytes(key, KEY), value, group = bytes(entry, ENTRY);
    if (mdb_get(txn, by_key, &k, &value))
        return false;
    memcpy(entry, (const char *)value.mv_data + KEY, GROUP), memcpy(entry + GROUP, (const char *)value.mv_data + LENGTH, STAMP);
    return mdb_del(txn, by_group, &group, NULL) == 0;
}

static bool rewrite(const char *record)
{
    stop_walk();
    return take_group(record) && put_both(record, 0);
}

static bool delete_one(const char *key)
{
    MDB_val k = bytes(key, KEY);
    stop_walk();
    return take_group(key) && mdb_del(txn, by_key, &k, NULL) == 0;
}

const struct store lmdb_store = {"lmdb", open_file, close_file, write_one, read_one, start, next, rewrite, delete_one};
