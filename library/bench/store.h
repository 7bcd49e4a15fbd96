/* What a store does for bench.c: records of 100 bytes, a key at 0 (10 bytes), and an alternate one with duplicates at 10 (6 bytes), whose
   records come in the order of their writing. OPEN to CLOSE is one transaction, and CLOSE brings all to the disk. */
#ifndef STORE_H
#define STORE_H
#include <stdbool.h>

enum { LENGTH = 100, KEY = 10, GROUP = 6 };

struct store {
    const char *name;
    void (*open)(const char *folder, bool is_new);
    void (*close)(void);
    bool (*write)(const char *record);
    bool (*read)(const char *key, char *record);
    bool (*start)(bool by_group, const char *value); /* at the first that is not less */
    bool (*next)(char *record);
    bool (*rewrite)(const char *record);
    bool (*delete)(const char *key);
};

extern const struct store cobix_store, sqlite_store, lmdb_store;

/* Ends the program where this does not hold. */
void must(bool holds, const char *what);
#endif
