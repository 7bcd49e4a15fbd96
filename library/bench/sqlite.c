/* SQLite as a store of bench.c: a table by the key, an index by group and stamp, one transaction, statements that were prepared. */
#define _GNU_SOURCE
#include "store.h"
#include <sqlite3.h>
#include <stdio.h>
#include <string.h>
#include <unistd.h>

enum { INSERT, SELECT, BY_KEY, BY_GROUP, OLD, UPDATE, DELETE, STATEMENTS };
static const char *const texts[STATEMENTS] = {
    "INSERT INTO f VALUES(?1,?2,?3,?4)",
    "SELECT r FROM f WHERE k=?1",
    "SELECT r FROM f WHERE k>=?1 ORDER BY k",
    "SELECT r FROM f WHERE (g,s)>=(?1,0) ORDER BY g,s",
    "SELECT g FROM f WHERE k=?1",
    "UPDATE f SET r=?2,g=?3,s=?4 WHERE k=?1",
    "DELETE FROM f WHERE k=?1",
};
static sqlite3 *db;
static sqlite3_stmt *statements[STATEMENTS], *walk;
static sqlite3_int64 stamp;

static void perform(const char *text) { must(sqlite3_exec(db, text, NULL, NULL, NULL) == SQLITE_OK, text); }

static void open_file(const char *folder, bool is_new)
{
    char path[4096];
    snprintf(path, sizeof path, "%s/bench.sqlite", folder);
    if (is_new)
        unlink(path);
    must(sqlite3_open(path, &db) == SQLITE_OK, "open");
    perform("PRAGMA synchronous=FULL; PRAGMA locking_mode=EXCLUSIVE; BEGIN EXCLUSIVE");
    if (is_new)
        perform("CREATE TABLE f(k TEXT PRIMARY KEY, g TEXT, s INTEGER, r BLOB) WITHOUT ROWID; CREATE INDEX fg ON f(g, s)");
    for (int i = 0; i < STATEMENTS; i++)
        must(sqlite3_prepare_v2(db, texts[i], -1, &statements[i], NULL) == SQLITE_OK, texts[i]);
}

static void stop_walk(void)
{
    if (walk)
        sqlite3_reset(walk), walk = NULL;
}

static void close_file(void)
{
    stop_walk();
    for (int i = 0; i < STATEMENTS; i++)
        sqlite3_finalize(statements[i]);
    perform("COMMIT");
    sqlite3_close(db);
}

static void bind(sqlite3_stmt *s, int place, const char *bytes, int length) { sqlite3_bind_text(s, place, bytes, length, SQLITE_STATIC); }

static bool write_one(const char *record)
{
    sqlite3_stmt *s = statements[INSERT];
    bind(s, 1, record, KEY), bind(s, 2, record + KEY, GROUP), sqlite3_bind_int64(s, 3, stamp++);
    sqlite3_bind_blob(s, 4, record, LENGTH, SQLITE_STATIC);
    bool done = sqlite3_step(s) == SQLITE_DONE;
    sqlite3_reset(s);
    return done;
}

static bool read_one(const char *key, char *record)
{
    sqlite3_stmt *s = statements[SELECT];
    bind(s, 1, key, KEY);
    bool found = sqlite3_step(s) == SQLITE_ROW;
    if (found)
        memcpy(record, sqlite3_column_blob(s, 0), LENGTH);
    sqlite3_reset(s);
    return found;
}

static bool start(bool by_group, const char *value)
{
    stop_walk();
    walk = statements[by_group ? BY_GROUP : BY_KEY];
    return sqlite3_bind_text(walk, 1, value, by_group ? GROUP : KEY, SQLITE_TRANSIENT) == SQLITE_OK;
}

static bool next(char *record)
{
    if (sqlite3_step(walk) != SQLITE_ROW)
        return false;
    memcpy(record, sqlite3_column_blob(walk, 0), LENGTH);
    return true;
}

static bool rewrite(const char *record)
{
    sqlite3_stmt *old = statements[OLD], *s = statements[UPDATE];
    stop_walk();
    bind(old, 1, record, KEY);
    bool found = sqlite3_step(old) == SQLITE_ROW;
    sqlite3_reset(old);
    bind(s, 1, record, KEY), sqlite3_bind_blob(s, 2, record, LENGTH, SQLITE_STATIC), bind(s, 3, record + KEY, GROUP);
    sqlite3_bind_int64(s, 4, stamp++);
    bool done = found && sqlite3_step(s) == SQLITE_DONE;
    sqlite3_reset(s);
    return done;
}

static bool delete_one(const char *key)
{
    sqlite3_stmt *s = statements[DELETE];
    stop_walk();
    bind(s, 1, key, KEY);
    bool done = sqlite3_step(s) == SQLITE_DONE && sqlite3_changes(db) == 1;
    sqlite3_reset(s);
    return done;
}

const struct store sqlite_store = {"sqlite", open_file, close_file, write_one, read_one, start, next, rewrite, delete_one};
