/* The calls on one file, and what a crash may leave of it. */
#define _GNU_SOURCE
#include "disk.h"
#include <fcntl.h>
#include <stdint.h>
#include <stdio.h>
#include <stdlib.h>
#include <string.h>
#include <sys/mman.h>
#include <sys/stat.h>
#include <unistd.h>

enum { MOST = 64 * 4096 };

struct bytes {
    size_t length; /* MOST + 1 where there is no file */
    uint8_t at[MOST];
};

struct disk {
    char path[4096];
    bool is_named;          /* its folder was synced since it was made */
    struct bytes sync, now; /* what the last sync left, and what reads gave at the end */
    bool touched[MOST];     /* a write of this byte was asked for since the last sync */
};

static void must(bool holds, const char *what)
{
    if (!holds)
        perror(what), exit(2);
}

struct disk *disk_new(void)
{
    void *at = mmap(NULL, sizeof(struct disk), PROT_READ | PROT_WRITE, MAP_SHARED | MAP_ANONYMOUS, -1, 0);
    must(at != MAP_FAILED, "memory");
    return at;
}

void disk_begin(struct disk *disk, const char *path)
{
    memset(disk, 0, sizeof *disk);
    snprintf(disk->path, sizeof disk->path, "%s", path);
    disk->sync.length = disk->now.length = MOST + 1;
}

static void read_all(struct bytes *bytes, int end)
{
    ssize_t got = end < 0 ? MOST + 1 : pread(end, bytes->at, MOST, 0);
    must(got >= 0, "what the file has");
    bytes->length = (size_t)got;
}

void disk_made(struct disk *disk, int end)
{
    struct stat found;
    must(fstat(end, &found) == 0 && S_ISREG(found.st_mode), "the new file");
    disk->is_named = false;
}

void disk_synced(struct disk *disk, int end)
{
    struct stat found;
    must(fstat(end, &found) == 0, "what was synced");
    if (S_ISDIR(found.st_mode)) {
        disk->is_named = true;
        return;
    }
    read_all(&disk->sync, end);
    memset(disk->touched, 0, sizeof disk->touched);
}

void disk_touched(struct disk *disk, off_t at, size_t length)
{
    must(at >= 0 && (size_t)at + length <= MOST, "a write far off");
    memset(disk->touched + at, true, length);
}

void disk_end(struct disk *disk)
{
    int end = open(disk->path, O_RDONLY);
    read_all(&disk->now, end);
    if (end >= 0)
        close(end);
}

static uint8_t byte_of(const struct disk *disk, enum image image, size_t i)
{
    uint8_t now = disk->now.at[i], before = i < disk->sync.length && disk->sync.length <= MOST ? disk->sync.at[i] : 0;
    switch (disk->touched[i] ? image : AS_READ) {
    case FILLED_ZERO: return 0;
    case FILLED_C: return 'C';
    case MIXED: return i / 512 * 2654435761u >> 16 & 1 ? now : before;
    default: return now;
    }
}

void disk_leave(const struct disk *disk, enum image image)
{
    const struct bytes *from = image == SYNCED ? &disk->sync : &disk->now;
    static uint8_t left[MOST];
    unlink(disk->path);
    if (from->length > MOST || (image == SYNCED && !disk->is_named))
        return;
    for (size_t i = 0; i < from->length; i++)
        left[i] = image == SYNCED ? from->at[i] : byte_of(disk, image, i);
    int end = open(disk->path, O_WRONLY | O_CREAT | O_EXCL, 0600);
    must(end >= 0 && write(end, left, from->length) == (ssize_t)from->length && close(end) == 0, "an image");
}
