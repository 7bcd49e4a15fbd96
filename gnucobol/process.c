/* A session in a process of its own, `cobix serve`. */
#define _GNU_SOURCE
#include "handler.h"
#include <errno.h>
#include <fcntl.h>
#include <spawn.h>
#include <stdio.h>
#include <stdlib.h>
#include <string.h>
#include <sys/wait.h>
#include <unistd.h>

void process_hang_up(struct server *server) { for (int *end = server->ends; *end >= 0; end++) close(*end), *end = -1; }

int process_wait(const struct server *server)
{
    int status = 0;
    while (waitpid(server->process, &status, 0) < 0 && errno == EINTR)
        continue;
    return status >> 8 ? status >> 8 : status & 127 ? 128 + (status & 127) : 0;
}

/* The same end, not under the number of standard input, output or error. */
static int above_standard(int end) { int above = fcntl(end, F_DUPFD_CLOEXEC, 3); close(end); return above; }

/* The process is in a group of its own, so that a key that interrupts the program leaves it the time to close the files. */
bool process_start(struct server *server, const char *folder)
{
    const char *program = getenv("COBIX"), *frames = getenv("COBIX_FRAMES");
    const char *words[] = {"cobix", "serve", "--folder", folder, frames ? "--frames" : NULL, frames, NULL};
    int *ends = memset(server->ends, -1, sizeof server->ends);
    bool fault = pipe2(ends, O_CLOEXEC) || pipe2(ends + 2, O_CLOEXEC);
    for (int i = 0; i < ENDS; i++)
        ends[i] = above_standard(ends[i]);
    posix_spawn_file_actions_t actions;
    posix_spawnattr_t attributes;
    posix_spawn_file_actions_init(&actions);
    posix_spawnattr_init(&attributes);
    fault = fault || posix_spawn_file_actions_adddup2(&actions, ends[REQUESTS_OUT], 0) ||
            posix_spawn_file_actions_adddup2(&actions, ends[ANSWERS_IN], 1) ||
            posix_spawnattr_setflags(&attributes, POSIX_SPAWN_SETPGROUP) ||
            posix_spawnp(&server->process, program && *program ? program : "cobix", &actions, &attributes,
                         (char *const *)(uintptr_t)words, environ);
    posix_spawnattr_destroy(&attributes);
    posix_spawn_file_actions_destroy(&actions);
    close(ends[ANSWERS_IN]), ends[ANSWERS_IN] = -1;
    if (fault)
        process_hang_up(server);
    return !fault;
}

static bool put(int end, const uint8_t *bytes, size_t length)
{
    for (ssize_t sent; length; bytes += sent, length -= (size_t)sent) {
        while ((sent = write(end, bytes, length)) < 0 && errno == EINTR)
            continue;
        if (sent <= 0)
            return false;
    }
    return true;
}

/* Takes so many frames. How many came whole: where it is fewer, or more bytes came, the process is asked no more. */
static unsigned get(struct server *server, unsigned wanted, uint8_t *frames)
{
    unsigned came = 0;
    size_t had = 0, whole = 0, length = FRAME;
    while (came < wanted) {
        ssize_t got = read(server->ends[ANSWERS_OUT], frames + had, ANSWERS - had);
        if (got < 0 && errno == EINTR)
            continue;
        had += got > 0 ? (size_t)got : 0;
        for (; came < wanted && had >= whole + 2; whole += length, came++)
            if ((length = 2 + (size_t)two(frames + whole)) < 3 || length > had - whole)
                break;
        if (got <= 0 || length < 3 || length > FRAME)
            break;
    }
    if (came < wanted || whole < had)
        process_hang_up(server);
    return came;
}

size_t process_exchange(struct server *server, uint8_t *request, size_t length, unsigned most, struct answers *from, struct answer *answer)
{
    if (from->left == 0) {
        from->asked = 2 * from->asked >= most ? most : from->asked ? 2 * from->asked : 1;
        put_two(request, (unsigned)length - 2);
        for (unsigned i = 1; i < from->asked; i++)
            memcpy(request + i * length, request, length);
        if (!put(server->ends[REQUESTS_IN], request, from->asked * length))
            process_hang_up(server);
        from->left = get(server, from->asked, from->bytes), from->next = from->bytes;
    }
    if (from->left == 0)
        return 0;
    size_t size = 2 + (size_t)two(from->next);
    answer->head = from->next, answer->record = from->next + HEAD;
    from->left--, from->next += size;
    return size;
}
