/* The sessions: one for each folder in use, from the first OPEN there to the end of the program; more where a file is open under two
   SELECTs. Each is performed in this process, or by a process `cobix serve`. */
#define _GNU_SOURCE
#include "handler.h"
#include <stdio.h>
#include <stdlib.h>
#include <string.h>
#include <sys/stat.h>
#include <unistd.h>

static struct server *servers;
static pid_t owner; /* the program; a copy that it makes of itself leaves the sessions alone */

/* Starts a session in this process or in one of its own: what COBIX_PROCESS says, or the default. Whether it was had. */
static bool begin(struct server *server, const char *folder)
{
    const char *way = getenv("COBIX_PROCESS");
    if (!way || !*way)
        way = HAS_INSIDE ? "inside" : "serve";
    if (strcmp(way, "inside") == 0)
        return inside_start(server, folder);
    if (strcmp(way, "serve") == 0)
        return process_start(server, folder);
    fprintf(stderr, "cobix: COBIX_PROCESS is `inside` or `serve`, and not `%s`\n", way);
    return false;
}

/* Where a session has ended by itself no verb reaches it. */
static bool is_alive(const struct server *server) { return server->engine || server->ends[0] >= 0; }

bool is_ours(pid_t process)
{
    const struct server *server = servers;
    while (server && server->process != process)
        server = server->next;
    return server || process == owner || process == getpid();
}

void end_sessions(void)
{
    if (getpid() != owner)
        return;
    for (struct server *server = servers; server; server = server->next) {
        if (server->engine)
            inside_end(server);
        process_hang_up(server);
    }
}

/* At the end of the program. Processes close the files side by side, and are waited for. */
static void end_all(void)
{
    end_sessions();
    for (struct server *server = getpid() == owner ? servers : NULL; server; server = server->next) {
        int status = server->process ? process_wait(server) : 0;
        if (status)
            fprintf(stderr, "cobix: the process that closes the files ended with status %d\n", status);
    }
}

static struct server *start(const char *folder, const struct stat *found)
{
    struct server *server = calloc(1, sizeof *server);
    if (!server)
        return NULL;
    memset(server->ends, -1, sizeof server->ends);
    if (!begin(server, folder)) {
        free(server);
        return NULL;
    }
    server->device = found->st_dev, server->folder = found->st_ino;
    struct server **end = &servers;
    while (*end)
        end = &(*end)->next;
    return *end = server;
}

struct server *server_of(const char *folder, struct server *behind)
{
    struct stat found;
    if (stat(folder, &found) || !S_ISDIR(found.st_mode) || (owner && owner != getpid()))
        return NULL;
    for (struct server *server = behind ? behind->next : servers; server; server = server->next)
        if (is_alive(server) && server->device == found.st_dev && server->folder == found.st_ino)
            return server;
    if (!owner && atexit(end_all))
        return NULL;
    owner = getpid();
    return start(folder, &found);
}

size_t exchange(struct server *server, uint8_t *request, size_t length, unsigned most, struct answers *from, struct answer *answer)
{
    if (server->engine)
        return inside_exchange(server, request, length, answer);
    bool is_ours_still = owner == getpid() && is_alive(server);
    return is_ours_still ? process_exchange(server, request, length, most, from, answer) : 0;
}
