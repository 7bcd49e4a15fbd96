/* What is told where another run, or another SELECT of this one, has a file. */
#define _GNU_SOURCE
#include "handler.h"
#include <inttypes.h>
#include <stdio.h>
#include <stdlib.h>
#include <string.h>
#include <sys/stat.h>
#include <sys/sysmacros.h>

/* 61 where COBIX_STATUS says `gnucobol`, else 30. */
static const char *sharing_status(void)
{
    const char *kind = getenv("COBIX_STATUS");
    return kind && strcmp(kind, "gnucobol") == 0 ? "61" : "30";
}

/* Whether a line of /proc/locks is a lock on the file that none of our processes has. */
static bool is_of_others(const char *line, const struct stat *found, bool exclusive)
{
    char how[16];
    long process;
    unsigned major, minor;
    uintmax_t inode;
    if (sscanf(line, "%*s FLOCK %*s %15s %ld %x:%x:%" SCNuMAX, how, &process, &major, &minor, &inode) != 5)
        return false;
    return inode == found->st_ino && major == major(found->st_dev) && minor == minor(found->st_dev) && !is_ours((pid_t)process) &&
           (!exclusive || strcmp(how, "WRITE") == 0);
}

/* Whether a process that is not ours has a lock on the file, or the exclusive one. As far as /proc/locks tells it. */
static bool others_have(const char *path, bool exclusive)
{
    struct stat found;
    char line[256];
    bool have = false;
    FILE *locks = stat(path, &found) ? NULL : fopen("/proc/locks", "re");
    while (locks && !have && fgets(line, sizeof line, locks))
        have = is_of_others(line, &found, exclusive);
    if (locks)
        fclose(locks);
    return have;
}

const char *tell_sharing(const char *verb, const char *path, bool reads)
{
    if (!others_have(path, reads))
        return "30";
    fprintf(stderr, "cobix: %s %s: another run has the file\n", verb, path);
    return sharing_status();
}

const char *tell_select(const char *verb, const char *path, const cob_file *file)
{
    fprintf(stderr, "cobix: %s %s: this program has it open under SELECT %s\n", verb, path, file ? file->select_name : "of another name");
    return sharing_status();
}
