/* A session in this process, by the proved library. Signals that end the program close the files first: between two verbs at once, and
   in the midst of one when it is done. What is called for that may be called from a handler of a signal: the library asks the system by
   asked.c, and has its memory from memory.c. */
#define _GNU_SOURCE
#include "../library/engine.h"
#include "handler.h"
#include <pthread.h>
#include <signal.h>
#include <stdio.h>
#include <stdlib.h>
#include <string.h>
#include <unistd.h>

static const int ending[] = {SIGINT, SIGTERM, SIGHUP, SIGPIPE, SIGQUIT};
enum { ENDING = sizeof ending / sizeof *ending };

static pthread_t program;               /* the thread that performs verbs: GnuCOBOL has no other */
static struct sigaction behind[ENDING]; /* what libcob, or the program itself, has for them */
static volatile sig_atomic_t at_work;   /* how many calls of the library are on their way */
static volatile sig_atomic_t held;      /* a signal that came meanwhile, or 0 */

/* Closes the files, and then does what would have been done with the signal without us. */
static void end_by(int number)
{
    at_work++;
    end_sessions();
    for (int i = 0; i < ENDING; i++)
        if (behind[i].sa_handler != SIG_IGN)
            sigaction(ending[i], &behind[i], NULL);
    at_work--;
    raise(number);
}

/* A signal that comes to another thread of the process is for the one that performs verbs. */
static void on_signal(int number)
{
    if (!pthread_equal(pthread_self(), program))
        pthread_kill(program, number);
    else if (at_work)
        held = number;
    else
        end_by(number);
}

static void begin_work(void) { at_work++; }

static void end_work(void)
{
    at_work--;
    if (held && !at_work) {
        int number = held;
        held = 0;
        end_by(number);
    }
}

/* Once, before the first session. A signal that the program ignores stays ignored. fork() is as a call of the library: the list of
   sessions is locked meanwhile. */
static bool catch_signals(void)
{
    static bool are_caught;
    struct sigaction ours = {.sa_handler = on_signal, .sa_flags = SA_RESTART};
    if (are_caught)
        return true;
    sigfillset(&ours.sa_mask);
    program = pthread_self();
    if (pthread_atfork(begin_work, end_work, end_work))
        return false;
    for (int i = 0; i < ENDING; i++)
        if (sigaction(ending[i], NULL, &behind[i]) || (behind[i].sa_handler != SIG_IGN && sigaction(ending[i], &ours, NULL)))
            return false;
    return are_caught = true;
}

/* The pages that are held of each file, by COBIX_FRAMES. 0 where that is no such number. */
static uint32_t frames(void)
{
    const char *text = getenv("COBIX_FRAMES");
    if (!text)
        return ENGINE_FRAMES;
    char *end;
    unsigned long count = strtoul(text, &end, 10);
    return *text >= '0' && *text <= '9' && !*end && count <= ENGINE_MOST_FRAMES ? (uint32_t)count : 0;
}

bool inside_start(struct server *server, const char *folder)
{
    char *path = realpath(folder, NULL);
    if (path && frames() && catch_signals()) {
        begin_work();
        server->engine = cobix_engine_begin(path, ENGINE_PAGES, frames());
        end_work();
    }
    free(path);
    return server->engine != NULL;
}

size_t inside_exchange(struct server *server, uint8_t *request, size_t length, struct answer *answer)
{
    begin_work();
    bool is_ours_still = server->engine && !cobix_engine_is_parents(server->engine);
    size_t had = 0;
    if (is_ours_still) {
        static uint8_t head[ENGINE_HEAD];
        struct engine_record record;
        size_t size = cobix_engine_ask(server->engine, request + 2, length - 2, head, &record);
        answer->head = head, answer->record = record.bytes;
        if (size >= 3 && size + record.length == 2 + (size_t)two(head))
            had = size + record.length;
    }
    end_work();
    return had;
}

/* A signal may have come: so it is told by a call of the system alone. */
static void tell_unclosed(void)
{
    static const char line[] = "cobix: a file that was open at the end was not closed well\n";
    if (write(STDERR_FILENO, line, sizeof line - 1) < 0)
        return;
}

void inside_end(struct server *server)
{
    struct engine *engine = server->engine;
    begin_work();
    server->engine = NULL;
    bool is_child = cobix_engine_is_parents(engine);
    if (cobix_engine_end(engine) && !is_child)
        tell_unclosed();
    end_work();
}
