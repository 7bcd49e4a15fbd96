/* Appends the lines of a file, of 100 bytes each, to a database of LMDB, by their first eight bytes, and adds the entries of two more, by the next eight and
   the four after them, sorted first: lmdb LINES FOLDER. All is one transaction, which is synced. */
#include <lmdb.h>
#include <stdio.h>
#include <stdlib.h>
#include <string.h>

enum { RECORD = 100, LINE = RECORD + 1, NUMBER = 8 };

static size_t at, width;

static void must(int rc)
{
    if (rc) {
        fprintf(stderr, "%s\n", mdb_strerror(rc));
        exit(1);
    }
}

static int by_value(const void *a, const void *b)
{
    const char *x = *(const char *const *)a, *y = *(const char *const *)b;
    int order = memcmp(x + at, y + at, width);
    return order ? order : memcmp(x, y, NUMBER);
}

/* An index over the bytes of the records from FROM on, so many. */
static void add_index(MDB_txn *txn, const char *name, const char **lines, size_t count, size_t from, size_t size, unsigned flags, unsigned append)
{
    MDB_dbi index;
    MDB_cursor *cursor;
    at = from;
    width = size;
    qsort(lines, count, sizeof *lines, by_value);
    must(mdb_dbi_open(txn, name, MDB_CREATE | flags, &index));
    must(mdb_cursor_open(txn, index, &cursor));
    for (size_t i = 0; i < count; i++) {
        MDB_val key = {size, (void *)(lines[i] + from)}, value = {NUMBER, (void *)lines[i]};
        must(mdb_cursor_put(cursor, &key, &value, append));
    }
    mdb_cursor_close(cursor);
}

int main(int argc, char **argv)
{
    if (argc != 3)
        return 2;
    FILE *file = fopen(argv[1], "rb");
    if (!file || fseek(file, 0, SEEK_END))
        return 1;
    size_t size = ftell(file), count = size / LINE;
    char *text = malloc(size + 1);
    const char **lines = malloc((count + 1) * sizeof *lines);
    rewind(file);
    if (!text || !lines || fread(text, 1, size, file) != size)
        return 1;
    MDB_env *env;
    MDB_txn *txn;
    MDB_dbi records;
    MDB_cursor *cursor;
    must(mdb_env_create(&env));
    must(mdb_env_set_maxdbs(env, 3));
    must(mdb_env_set_mapsize(env, (size_t)8 << 30));
    must(mdb_env_open(env, argv[2], 0, 0644));
    must(mdb_txn_begin(env, NULL, 0, &txn));
    must(mdb_dbi_open(txn, "records", MDB_CREATE, &records));
    must(mdb_cursor_open(txn, records, &cursor));
    for (size_t i = 0; i < count; i++) {
        lines[i] = text + i * LINE;
        MDB_val key = {NUMBER, (void *)lines[i]}, value = {RECORD, (void *)lines[i]};
        must(mdb_cursor_put(cursor, &key, &value, MDB_APPEND));
    }
    mdb_cursor_close(cursor);
    add_index(txn, "other", lines, count, 8, 8, 0, MDB_APPEND);
    add_index(txn, "group", lines, count, 16, 4, MDB_DUPSORT, MDB_APPENDDUP);
    must(mdb_txn_commit(txn));
    mdb_env_close(env);
    return 0;
}
