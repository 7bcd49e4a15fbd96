/* What a disk may have of the one file of faults.c after a crash, by the calls that were made: the images of `memory_shelf`. */
#ifndef DISK_H
#define DISK_H
#include <stdbool.h>
#include <stddef.h>
#include <sys/types.h>

/* A crash leaves of the file what reads gave; what the last sync that succeeded left, and no file where its folder was not synced since
   it was made; or what reads gave, where each byte that a write was asked for since that sync is 0, a `C`, or that of before or of now. */
enum image { AS_READ, SYNCED, FILLED_ZERO, FILLED_C, MIXED, IMAGES };

struct disk;

/* Its memory is shared with children, so that a parent sees the calls of a child that was killed. */
struct disk *disk_new(void);

/* Before a session: there is no file of this path. */
void disk_begin(struct disk *disk, const char *path);

/* The file, or its folder, has this descriptor: so it was made, or it was synced. */
void disk_made(struct disk *disk, int end);
void disk_synced(struct disk *disk, int end);

/* A write there is asked for. */
void disk_touched(struct disk *disk, off_t at, size_t length);

/* Notes what reads give now, after the session. */
void disk_end(struct disk *disk);

/* Puts an image into the place of the file. */
void disk_leave(const struct disk *disk, enum image image);

#endif
