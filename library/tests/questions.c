/* Each question of asked.c, right ones and wrong ones, asked as the proved library asks them.
   The last line is "questions: N passed, M failed".    usage: questions FOLDER, which is empty */
#define _GNU_SOURCE
#include "asked.h"
#include "check.h"
#include <errno.h>
#include <fcntl.h>
#include <limits.h>
#include <stdlib.h>
#include <string.h>
#include <sys/file.h>
#include <sys/stat.h>
#include <unistd.h>

enum { OPEN, CLOSE, LOOK, MEASURE, READ, WRITE, SYNC, SHARE, CLAIM, RELEASE, NAMES, NONE };
enum { TO_READ, TO_WRITE, MADE_NEW };

static struct asked asked;
static char came[2 * ASKED_PAGE];

/* Takes so many bytes of an answer, three at a time. How many came. */
static size_t take(char *bytes, size_t length)
{
    size_t had = 0;
    ssize_t got;
    while (had < length && (got = cobix_asked_read(0, bytes + had, length - had < 3 ? length - had : 3)) > 0)
        had += (size_t)got;
    return had;
}

static long ask(uint64_t what, long file, uint64_t at, size_t length, const void *bytes)
{
    uint64_t question[4] = {what, (uint64_t)file, at, length};
    int64_t answer;
    CHECK("the question is taken", cobix_asked_write(1, question, sizeof question), sizeof question);
    if (bytes && length)
        CHECK("what follows is taken", cobix_asked_write(1, bytes, length), length);
    CHECK("an answer", take((char *)&answer, sizeof answer), sizeof answer);
    if (what == READ && answer > 0)
        CHECK("its bytes", take(came, (size_t)answer), answer);
    CHECK("and no more", take((char[1]){0}, 1), 0);
    return answer;
}

static long ask_path(uint64_t what, long file, uint64_t how, const char *path) { return ask(what, file, how, strlen(path), path); }

static void paths(void)
{
    CHECK("absent", ask_path(OPEN, 0, TO_READ, "absent"), -ENOENT);
    CHECK("look at nothing", ask_path(LOOK, 0, 0, "absent"), -ENOENT);
    CHECK("below a file that is none", ask_path(LOOK, 0, 0, "absent/f"), -ENOENT);
    CHECK("made", ask_path(OPEN, 0, MADE_NEW, "f"), 0);
    CHECK("made again", ask_path(OPEN, 0, MADE_NEW, "f"), -EEXIST);
    CHECK("write", ask(WRITE, 0, 10, 5, "hello"), 5);
    CHECK("look", ask_path(LOOK, 0, 0, "f"), 15);
    CHECK("close", ask(CLOSE, 0, 0, 0, NULL), 0);
    CHECK("a link", symlink("f", "link"), 0);
    CHECK("is not opened", ask_path(OPEN, 0, TO_READ, "link"), -ELOOP);
    CHECK("is not made", ask_path(OPEN, 0, MADE_NEW, "link"), -EEXIST);
    CHECK("is no file", ask_path(LOOK, 0, 0, "link"), -EISDIR);
    CHECK("a pipe", mkfifo("pipe", 0600), 0);
    CHECK("is not opened, and not waited for", ask_path(OPEN, 0, TO_READ, "pipe"), -EISDIR);
    CHECK("a folder", mkdir("folder", 0700), 0);
    CHECK("is not written", ask_path(OPEN, 0, TO_WRITE, "folder"), -EISDIR);
    CHECK("is no file", ask_path(LOOK, 0, 0, "folder"), -EISDIR);
    CHECK("is opened to be read", ask_path(OPEN, 0, TO_READ, "folder"), 0);
    CHECK("and brought to the disk", ask(SYNC, 0, 0, 0, NULL), 0);
    CHECK("close", ask(CLOSE, 0, 0, 0, NULL), 0);
    CHECK("a zero in a path", ask(OPEN, 0, TO_READ, 3, "f\0g"), -EINVAL);
    CHECK("no path", ask(OPEN, 0, TO_READ, 0, NULL), -ENOENT);
    char *path = malloc(PATH_MAX);
    memset(path, 'x', PATH_MAX);
    CHECK("a long path", ask(OPEN, 0, TO_READ, PATH_MAX, path), -ENAMETOOLONG);
    free(path);
    CHECK("another way to open", ask_path(OPEN, 0, 3, "f"), -EINVAL);
}

static void bytes(void)
{
    static char much[2 * ASKED_PAGE];
    memset(much, 'a', sizeof much), much[ASKED_PAGE - 1] = 'z';
    long file = ask_path(OPEN, 0, TO_WRITE, "f");
    CHECK("read", ask(READ, file, 10, 100, NULL), 5);
    CHECK("what was written", memcmp(came, "hello", 5), 0);
    CHECK("read past the end", ask(READ, file, 15, 100, NULL), 0);
    CHECK("write much", ask(WRITE, file, 0, sizeof much, much), sizeof much);
    CHECK("measure", ask(MEASURE, file, 0, 0, NULL), sizeof much);
    CHECK("read much", ask(READ, file, 0, sizeof much, NULL), ASKED_PAGE);
    CHECK("the first of it", memcmp(came, much, ASKED_PAGE), 0);
    CHECK("write nothing", ask(WRITE, file, 0, 0, NULL), 0);
    CHECK("as many bytes as a question has", ask(WRITE, file, 0, 32, "0123456789abcdef0123456789abcdef"), 32);
    CHECK("read them", ask(READ, file, 0, 32, NULL), 32);
    CHECK("they are as written", memcmp(came, "0123456789abcdef0123456789abcdef", 32), 0);
    CHECK("read nowhere", ask(READ, file, UINT64_MAX, 8, NULL), -EINVAL);
    CHECK("sync", ask(SYNC, file, 0, 0, NULL), 0);
    CHECK("close", ask(CLOSE, file, 0, 0, NULL), 0);
    file = ask_path(OPEN, 0, TO_READ, "f");
    CHECK("write to what is read", ask(WRITE, file, 0, 1, "x"), -EBADF);
    CHECK("close", ask(CLOSE, file, 0, 0, NULL), 0);
}

static void locks(void)
{
    struct timespec times[2] = {{.tv_nsec = UTIME_OMIT}, {.tv_sec = 1000000000, .tv_nsec = 1}};
    long a = ask_path(OPEN, 0, TO_WRITE, "f"), b = ask_path(OPEN, 0, TO_WRITE, "f");
    CHECK("shared", ask(SHARE, a, 0, 0, NULL), 0);
    CHECK("shared by both", ask(SHARE, b, 0, 0, NULL), 0);
    CHECK("not claimed", ask(CLAIM, a, 0, 0, NULL), -EWOULDBLOCK);
    CHECK("let go", ask(RELEASE, b, 0, 0, NULL), 0);
    CHECK("claimed", ask(CLAIM, a, 0, 0, NULL), 0);
    CHECK("not shared", ask(SHARE, b, 0, 0, NULL), -EWOULDBLOCK);
    CHECK("close", ask(CLOSE, a, 0, 0, NULL), 0);
    CHECK("shared then", ask(SHARE, b, 0, 0, NULL), 0);
    CHECK("another time, by a nanosecond", futimens(asked.files[b].end, times), 0);
    CHECK("not claimed", ask(CLAIM, b, 0, 0, NULL), -EWOULDBLOCK);
    CHECK("shared anew", ask(SHARE, b, 0, 0, NULL), 0);
    CHECK("claimed", ask(CLAIM, b, 0, 0, NULL), 0);
    CHECK("shared anew", ask(SHARE, b, 0, 0, NULL), 0);
    CHECK("another length", ftruncate(asked.files[b].end, 3), 0);
    CHECK("not claimed", ask(CLAIM, b, 0, 0, NULL), -EWOULDBLOCK);
    CHECK("close", ask(CLOSE, b, 0, 0, NULL), 0);
    a = ask_path(OPEN, 0, MADE_NEW, "new");
    CHECK("made, and changed", ask(WRITE, a, 0, 1, "x"), 1);
    CHECK("claimed without having been shared", ask(CLAIM, a, 0, 0, NULL), 0);
    int copy = dup(asked.files[a].end), other = open("new", O_RDONLY);
    CHECK("the lock is there", flock(other, LOCK_SH | LOCK_NB), -1);
    CHECK("close", ask(CLOSE, a, 0, 0, NULL), 0);
    CHECK("the lock is gone, though a child may have the descriptor too", flock(other, LOCK_SH | LOCK_NB), 0);
    close(copy), close(other);
}

/* The locks of a folder, in which files come and go meanwhile. */
static void folder_locks(void)
{
    long a = ask_path(OPEN, 0, TO_READ, "folder"), b = ask_path(OPEN, 0, TO_READ, "folder");
    CHECK("claimed", ask(CLAIM, a, 0, 0, NULL), 0);
    CHECK("not claimed", ask(CLAIM, b, 0, 0, NULL), -EWOULDBLOCK);
    CHECK("not shared", ask(SHARE, b, 0, 0, NULL), -EWOULDBLOCK);
    long file = ask_path(OPEN, 0, MADE_NEW, "folder/made");
    CHECK("the file in it is claimed", ask(CLAIM, file, 0, 0, NULL), 0);
    CHECK("let go", ask(RELEASE, a, 0, 0, NULL), 0);
    CHECK("claimed again, though a file came", ask(CLAIM, a, 0, 0, NULL), 0);
    CHECK("let go", ask(RELEASE, a, 0, 0, NULL), 0);
    CHECK("shared", ask(SHARE, b, 0, 0, NULL), 0);
    CHECK("not claimed", ask(CLAIM, a, 0, 0, NULL), -EWOULDBLOCK);
    CHECK("close", ask(CLOSE, b, 0, 0, NULL), 0);
    CHECK("claimed then", ask(CLAIM, a, 0, 0, NULL), 0);
    CHECK("close", ask(CLOSE, a, 0, 0, NULL), 0);
    CHECK("close", ask(CLOSE, file, 0, 0, NULL), 0);
}

static void names(void)
{
    long file = ask_path(OPEN, 0, TO_READ, "f"), folder = ask_path(OPEN, 0, TO_READ, ".");
    CHECK("its name", ask_path(NAMES, file, 0, "f"), 1);
    CHECK("its name by another way", ask_path(NAMES, file, 0, "folder/../f"), 1);
    CHECK("a link to it", ask_path(NAMES, file, 0, "link"), 0);
    CHECK("another file", ask_path(NAMES, file, 0, "new"), 0);
    CHECK("nothing", ask_path(NAMES, file, 0, "absent"), 0);
    CHECK("below a file", ask_path(NAMES, file, 0, "f/g"), 0);
    CHECK("a folder", ask_path(NAMES, folder, 0, "."), 1);
    CHECK("another in its place", rename("new", "f"), 0);
    CHECK("no longer its name", ask_path(NAMES, file, 0, "f"), 0);
    CHECK("of no file", ask_path(NAMES, 100, 0, "f"), -EBADF);
    CHECK("close", ask(CLOSE, file, 0, 0, NULL), 0);
    CHECK("close", ask(CLOSE, folder, 0, 0, NULL), 0);
}

static void wrong_questions(void)
{
    CHECK("of no file", ask(MEASURE, 0, 0, 0, NULL), -EBADF);
    CHECK("of a number far off", ask(READ, -1, 0, 8, NULL), -EBADF);
    long file = ask_path(OPEN, 0, TO_READ, "f");
    CHECK("none of the questions", ask(NONE, file, 0, 0, NULL), -ENOSYS);
    CHECK("far off", ask(UINT64_MAX, file, 0, 0, NULL), -ENOSYS);
    for (int i = 1; i < ASKED_FILES; i++)
        CHECK("the next number", ask_path(OPEN, 0, TO_READ, "f"), i);
    CHECK("one more", ask_path(OPEN, 0, TO_READ, "f"), -EMFILE);
    CHECK("a number is free again", ask(CLOSE, 7, 0, 0, NULL), 0);
    CHECK("and given again", ask_path(OPEN, 0, TO_READ, "f"), 7);
}

/* The files of a parent: its lock stays, though the descriptor is closed here. */
static void disowned(void)
{
    int other = open("f", O_RDONLY);
    CHECK("shared", ask(SHARE, 5, 0, 0, NULL), 0);
    int parents = dup(asked.files[5].end);
    cobix_asked_disown(&asked);
    CHECK("the lock is there", flock(other, LOCK_EX | LOCK_NB), -1);
    CHECK("nothing is asked", ask(MEASURE, 5, 0, 0, NULL), -EBADF);
    CHECK("nor opened", ask_path(OPEN, 0, TO_READ, "f"), -EBADF);
    CHECK("the descriptors are closed", asked.files[5].end, -1);
    close(parents);
    CHECK("the lock is gone with the parent's", flock(other, LOCK_EX | LOCK_NB), 0);
    close(other);
}

int main(int count, char **words)
{
    if (count != 2 || chdir(words[1]))
        return 2;
    cobix_asked_init(&asked);
    cobix_asked_by(&asked);
    paths();
    bytes();
    locks();
    folder_locks();
    names();
    wrong_questions();
    disowned();
    return told("questions");
}
