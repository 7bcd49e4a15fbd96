/* The calls of the system that the proved library asks for: the table is in docs/LIBRARY.md. Each question is one call, or two where
   a file is opened or locked. What the call answers is handed on as it is: a short read or write, and an interrupted call (EINTR), which
   the proved library asks for again. All that is called here may be called from a handler of a signal. */
#define _GNU_SOURCE
#include "asked.h"
#include <errno.h>
#include <fcntl.h>
#include <limits.h>
#include <string.h>
#include <sys/file.h>
#include <sys/stat.h>
#include <unistd.h>

enum what { OPEN, CLOSE, LOOK, MEASURE, READ, WRITE, SYNC, SHARE, CLAIM, RELEASE, NAMES };
enum { TO_READ, TO_READ_AND_WRITE, MADE_NEW }; /* how a file is opened */

static _Thread_local struct asked *asked;

void cobix_asked_init(struct asked *by)
{
    memset(by, 0, sizeof *by);
    for (int i = 0; i < ASKED_FILES; i++)
        by->files[i].end = -1;
}

void cobix_asked_by(struct asked *by) { asked = by; }

void cobix_asked_disown(struct asked *by)
{
    by->disowned = true;
    for (int i = 0; i < ASKED_FILES; i++)
        if (by->files[i].end >= 0)
            close(by->files[i].end), by->files[i].end = -1;
}

/* An answer: a number, or the error of the system with its sign changed. */
static int64_t told(int64_t number) { return number < 0 ? -errno : number; }

/* ---- files */

static struct asked_file *file_of(uint64_t number)
{
    return number < ASKED_FILES && asked->files[number].end >= 0 ? &asked->files[number] : NULL;
}

/* Why a session may not have this open: it may have a plain file, and a folder to bring its names to the disk. */
static int why_not(int end, bool may_be_folder)
{
    struct stat found;
    if (fstat(end, &found))
        return errno;
    return S_ISREG(found.st_mode) || (may_be_folder && S_ISDIR(found.st_mode)) ? 0 : EISDIR;
}

/* Its number. No link is followed, nothing is waited for, and what is made anew was not there. */
static int64_t open_file(const char *path, uint64_t how)
{
    int flags = O_CLOEXEC | O_NOFOLLOW | O_NONBLOCK | O_NOCTTY;
    flags |= how == TO_READ ? O_RDONLY : how == TO_READ_AND_WRITE ? O_RDWR : O_RDWR | O_CREAT | O_EXCL;
    int64_t number = 0;
    while (number < ASKED_FILES && asked->files[number].end >= 0)
        number++;
    if (how > MADE_NEW || number == ASKED_FILES)
        return how > MADE_NEW ? -EINVAL : -EMFILE;
    int end = open(path, flags, 0666), why = end < 0 ? errno : why_not(end, how == TO_READ);
    if (why && end >= 0)
        close(end);
    else if (!why)
        asked->files[number].end = end, asked->files[number].seen = false;
    return why ? -why : number;
}

/* The lock goes with the file, though a child of fork() may have the descriptor too. */
static int64_t close_file(struct asked_file *file)
{
    flock(file->end, LOCK_UN);
    close(file->end);
    file->end = -1;
    return 0;
}

static int64_t length_of(const char *path)
{
    struct stat found;
    if (lstat(path, &found))
        return -errno;
    return S_ISREG(found.st_mode) ? found.st_size : -EISDIR;
}

/* Whether the path names this very file. */
static int64_t names(const char *path, const struct asked_file *file)
{
    struct stat named, opened;
    if (fstat(file->end, &opened))
        return -errno;
    if (lstat(path, &named))
        return errno == ENOENT || errno == ENOTDIR ? 0 : -errno;
    return named.st_dev == opened.st_dev && named.st_ino == opened.st_ino;
}

/* ---- locks */

static bool is_same(struct timespec a, struct timespec b) { return a.tv_sec == b.tv_sec && a.tv_nsec == b.tv_nsec; }

static int64_t try_lock(const struct asked_file *file, int how) { return told(flock(file->end, how | LOCK_NB)); }

/* How the file looks is noted with the shared lock, also on a system that has no locks. Where it is not told, the lock is not had. */
static int64_t share(struct asked_file *file)
{
    struct stat found;
    int64_t answer = try_lock(file, LOCK_SH);
    if (answer == -EWOULDBLOCK || answer == -EINTR)
        return answer;
    if (fstat(file->end, &found)) {
        flock(file->end, LOCK_UN);
        return -EWOULDBLOCK;
    }
    file->seen = true, file->size = found.st_size, file->modified = found.st_mtim, file->changed = found.st_ctim;
    return answer;
}

/* The system may give the exclusive lock to others before us, who change the file. So it has to look as it was seen. A file that was
   just made was never seen. */
static int64_t claim(const struct asked_file *file)
{
    struct stat now;
    int64_t answer = try_lock(file, LOCK_EX);
    if (answer == -EWOULDBLOCK || answer == -EINTR || !file->seen)
        return answer;
    bool same = fstat(file->end, &now) == 0 && now.st_size == file->size && is_same(now.st_mtim, file->modified) &&
                is_same(now.st_ctim, file->changed);
    return same ? answer : -EWOULDBLOCK;
}

/* ---- questions */

/* A question of a path: one that ends before PATH_MAX, and has no zero in it. */
static int64_t by_path(const uint64_t *q, const void *bytes, size_t length)
{
    char path[PATH_MAX];
    const struct asked_file *file = file_of(q[1]);
    if (length >= sizeof path)
        return -ENAMETOOLONG;
    if (length != q[3] || memchr(bytes, 0, length))
        return -EINVAL;
    memcpy(path, bytes, length), path[length] = 0;
    if (q[0] == NAMES)
        return file ? names(path, file) : -EBADF;
    return q[0] == OPEN ? open_file(path, q[2]) : length_of(path);
}

static int64_t by_file(const uint64_t *q, const void *bytes, size_t length)
{
    struct stat found;
    struct asked_file *file = file_of(q[1]);
    if (!file)
        return -EBADF;
    switch (q[0]) {
    case CLOSE: return close_file(file);
    case MEASURE: return fstat(file->end, &found) ? -errno : found.st_size;
    case READ: return told(pread(file->end, asked->answer + 8, q[3] < ASKED_PAGE ? q[3] : ASKED_PAGE, (off_t)q[2]));
    case WRITE: return length == q[3] ? told(pwrite(file->end, bytes, length, (off_t)q[2])) : -EINVAL;
    case SYNC: return told(fsync(file->end));
    case SHARE: return share(file);
    case CLAIM: return claim(file);
    case RELEASE: return told(flock(file->end, LOCK_UN));
    default: return -ENOSYS;
    }
}

static bool has_path(uint64_t what) { return what == OPEN || what == LOOK || what == NAMES; }

/* A question comes in one call, and the path or the bytes to be written in another one. Then it is performed. */
ssize_t cobix_asked_write(int number, const void *bytes, size_t length)
{
    (void)number;
    uint64_t *q = asked->question;
    bool begins = !asked->follows && length == sizeof asked->question;
    if (begins)
        memcpy(q, bytes, length);
    asked->follows = begins && q[3] && (has_path(q[0]) || q[0] == WRITE);
    if (asked->follows)
        return (ssize_t)length;
    size_t came = begins ? 0 : length;
    int64_t answer = asked->disowned ? -EBADF : has_path(q[0]) ? by_path(q, bytes, came) : by_file(q, bytes, came);
    memcpy(asked->answer, &answer, 8);
    asked->next = 0, asked->end = 8 + (q[0] == READ && answer > 0 ? (size_t)answer : 0);
    return (ssize_t)length;
}

/* The answer, as much of it as there is room for; 0 where all of it was taken. */
ssize_t cobix_asked_read(int number, void *bytes, size_t room)
{
    (void)number;
    size_t left = asked->end - asked->next, length = left < room ? left : room;
    memcpy(bytes, asked->answer + asked->next, length);
    asked->next += length;
    return (ssize_t)length;
}
