/* The calls of cobix.h as requests of docs/LIBRARY.md, and the answers back. */
#define _GNU_SOURCE
#include "cobix.h"
#include "engine.h"
#include <errno.h>
#include <pthread.h>
#include <stdatomic.h>
#include <stdlib.h>
#include <string.h>
#include <sys/stat.h>

enum { FILES = 64, KEYS = 9, NAME = 64 };
enum { DESCRIBE = 1, PERFORM = 2, RELEASE = 3 };                      /* kinds of requests */
enum { OPEN, CLOSE, READ_NEXT, READ, START, WRITE, REWRITE, DELETE }; /* verbs */
enum { REFUSED, DONE, TOLD };                                         /* kinds of answers */

struct cobix_file {
    cobix *session; /* NULL where the number is free */
    uint16_t greatest;
    uint8_t number, key_count;
    bool is_sequential;
    cobix_key keys[KEYS];
};

struct cobix {
    cobix *next;
    struct engine *engine; /* NULL once the end of the process has closed it */
    atomic_flag busy;
    struct cobix_file files[FILES];
    uint8_t body[ENGINE_REQUEST];
};

/* ---- a call begins and ends */

/* 0, or why no call may begin. It ends by `leave`. The flag orders the calls of a session, whatever threads they come from: so it
   is what the proved library asks of a handle that passes from thread to thread, a sequentially consistent atomic. */
static int enter(cobix *session)
{
    if (!session || atomic_flag_test_and_set(&session->busy))
        return COBIX_MISUSE;
    if (session->engine && !cobix_engine_is_parents(session->engine))
        return 0;
    int why = session->engine ? COBIX_FORKED : COBIX_ENDED;
    atomic_flag_clear(&session->busy);
    return why;
}

static int leave(cobix *session, int answer)
{
    atomic_flag_clear(&session->busy);
    return answer;
}

/* A call on a file, whose operands are in their ranges or not. */
static int enter_file(cobix_file *file, bool sound) { return file && sound ? enter(file->session) : COBIX_MISUSE; }

/* ---- sessions */

static pthread_once_t once = PTHREAD_ONCE_INIT;
static pthread_mutex_t list_lock = PTHREAD_MUTEX_INITIALIZER;
static cobix *list;
static bool closes_at_end;

/* A session in which no thread is at work and that was not closed yet, entered. NULL where there is none. */
static cobix *enter_next(void)
{
    pthread_mutex_lock(&list_lock);
    cobix *session = list;
    while (session && enter(session) != 0)
        session = session->next;
    pthread_mutex_unlock(&list_lock);
    return session;
}

/* At the end of the process. A session in which another thread is at work is left as it is. The list is not locked while files are
   closed: fork() in another thread takes the locks of both lists, this one last. */
static void close_all(void)
{
    for (cobix *session = enter_next(); session; session = enter_next()) {
        cobix_engine_end(session->engine), session->engine = NULL;
        leave(session, 0);
    }
}

static void before_fork(void) { pthread_mutex_lock(&list_lock); }

static void after_fork(void) { pthread_mutex_unlock(&list_lock); }

static void begin(void)
{
    closes_at_end = pthread_atfork(before_fork, after_fork, after_fork) == 0 && atexit(close_all) == 0;
}

static void put_in_list(cobix *session)
{
    pthread_mutex_lock(&list_lock);
    session->next = list, list = session;
    pthread_mutex_unlock(&list_lock);
}

static void take_from_list(const cobix *session)
{
    pthread_mutex_lock(&list_lock);
    cobix **at = &list;
    while (*at && *at != session)
        at = &(*at)->next;
    if (*at)
        *at = session->next;
    pthread_mutex_unlock(&list_lock);
}

/* Whether the text is UTF-8: no character has more bytes than it needs, is half of a pair, or is past the last one. */
static bool is_utf8(const char *text)
{
    for (const unsigned char *at = (const unsigned char *)text; *at;) {
        int more = *at < 0x80 ? 0 : *at >= 0xC2 && *at < 0xE0 ? 1 : *at >= 0xE0 && *at < 0xF0 ? 2 : *at >= 0xF0 && *at < 0xF5 ? 3 : -1;
        unsigned least = *at == 0xE0 ? 0xA0 : *at == 0xF0 ? 0x90 : 0x80, most = *at == 0xED ? 0x9F : *at == 0xF4 ? 0x8F : 0xBF;
        if (more < 0)
            return false;
        for (at++; more > 0; more--, at++, least = 0x80, most = 0xBF)
            if (*at < least || *at > most)
                return false;
    }
    return true;
}

/* The whole path of a folder, to be freed, or NULL with errno set. */
static char *path_of(const char *folder)
{
    struct stat found;
    char *path = realpath(folder, NULL);
    if (!path || stat(path, &found))
        ;
    else if (!S_ISDIR(found.st_mode))
        errno = ENOTDIR;
    else if (!is_utf8(path))
        errno = EILSEQ;
    else
        return path;
    int why = errno;
    free(path);
    errno = why;
    return NULL;
}

static bool are_in_range(const cobix_limits *limits)
{
    return (limits->pages == 0 || limits->pages >= ENGINE_FEWEST_PAGES) && limits->frames <= ENGINE_MOST_FRAMES;
}

int cobix_open(const char *folder, const cobix_limits *limits, cobix **session)
{
    static const cobix_limits usual = {0, 0};
    limits = limits ? limits : &usual;
    if (!session)
        return COBIX_MISUSE;
    *session = NULL;
    if (!folder || !are_in_range(limits))
        return COBIX_MISUSE;
    char *path = path_of(folder);
    if (!path)
        return errno == ENOMEM ? COBIX_NO_MEMORY : COBIX_NO_FOLDER;
    uint32_t pages = limits->pages ? limits->pages : ENGINE_PAGES, frames = limits->frames ? limits->frames : ENGINE_FRAMES;
    cobix *new = pthread_once(&once, begin) == 0 && closes_at_end ? calloc(1, sizeof *new) : NULL;
    if (new)
        new->engine = cobix_engine_begin(path, pages, frames);
    free(path);
    if (!new || !new->engine) {
        free(new);
        return COBIX_NO_MEMORY;
    }
    atomic_flag_clear(&new->busy);
    put_in_list(new);
    *session = new;
    return 0;
}

int cobix_close(cobix *session)
{
    int why = session ? enter(session) : 0;
    if (why == COBIX_MISUSE || !session)
        return why;
    take_from_list(session);
    size_t failed = session->engine ? cobix_engine_end(session->engine) : 0;
    free(session);
    return failed && why == 0 ? COBIX_FAULT : 0;
}

/* ---- requests and answers */

static uint8_t *put_two(uint8_t *at, unsigned value)
{
    at[0] = (uint8_t)(value >> 8), at[1] = (uint8_t)value;
    return at + 2;
}

/* Why a request was refused: the reasons of docs/LIBRARY.md. The rest are of requests that are never made. */
static int refusal(unsigned reason)
{
    static const int why[] = {
        [4] = COBIX_DESCRIPTION, [5] = COBIX_NAME_TAKEN, [6] = COBIX_FILE_IS_OPEN, [7] = COBIX_NO_MEMORY, [8] = COBIX_NO_SUCH_KEY};
    return reason < sizeof why / sizeof *why && why[reason] ? why[reason] : COBIX_MISUSE;
}

/* Has the request whose body ends at `end` answered: 0 where the answer is of this kind, or why the request was refused. */
static int ask(cobix *session, const uint8_t *end, int kind, uint8_t *head, struct engine_record *record)
{
    size_t length = cobix_engine_ask(session->engine, session->body, (size_t)(end - session->body), head, record);
    if (length >= 3 && head[2] == kind)
        return 0;
    return length == 4 && head[2] == REFUSED ? refusal(head[3]) : COBIX_MISUSE;
}

/* Has a verb performed and ends the call. Its status, with the record that it delivered; or why it was not performed. */
static int perform(cobix_file *file, const uint8_t *end, const void **record, size_t *length)
{
    uint8_t head[ENGINE_HEAD];
    struct engine_record delivered;
    int why = ask(file->session, end, TOLD, head, &delivered);
    if (why)
        return leave(file->session, why);
    int status = (head[3] - '0') * 10 + head[4] - '0';
    if (record)
        *record = delivered.bytes, *length = cobix_succeeded(status) ? delivered.length : 0;
    return leave(file->session, status);
}

static uint8_t *put_verb(const cobix_file *file, int verb, int operand, unsigned key, size_t leading, size_t length)
{
    uint8_t *at = file->session->body;
    *at++ = PERFORM, *at++ = file->number, *at++ = (uint8_t)verb, *at++ = (uint8_t)operand, *at++ = (uint8_t)key;
    return put_two(put_two(at, (unsigned)leading), (unsigned)length);
}

/* Puts the first bytes of a key where it stands in a record. */
static uint8_t *put_key(const cobix_file *file, uint8_t *at, unsigned key, const void *value, size_t length)
{
    size_t offset = file->keys[key].offset;
    if (offset > 0)
        memset(at, 0, offset);
    return (uint8_t *)mempcpy(at + offset, value, length);
}

/* ---- files */

static uint8_t *put_description(uint8_t *at, unsigned number, const cobix_description *d)
{
    *at++ = DESCRIBE, *at++ = (uint8_t)number, *at++ = (uint8_t)d->access, *at++ = d->optional;
    at = put_two(put_two(at, d->least), d->greatest);
    *at++ = (uint8_t)d->key_count;
    for (unsigned i = 0; i < d->key_count; i++)
        at = put_two(put_two(at, d->keys[i].offset), d->keys[i].length), *at++ = d->keys[i].duplicates;
    return (uint8_t *)mempcpy(at, d->name, strlen(d->name));
}

static cobix_file *free_file(cobix *session)
{
    for (unsigned i = 0; i < FILES; i++)
        if (!session->files[i].session) {
            session->files[i].number = (uint8_t)i;
            return &session->files[i];
        }
    return NULL;
}

static bool is_sound(const cobix_description *d)
{
    return d && d->name && d->keys && d->key_count >= 1 && d->key_count <= KEYS && (unsigned)d->access <= COBIX_DYNAMIC;
}

int cobix_describe(cobix *session, const cobix_description *description, cobix_file **file)
{
    if (!file)
        return COBIX_MISUSE;
    *file = NULL;
    int why = is_sound(description) ? enter(session) : COBIX_MISUSE;
    if (why)
        return why;
    cobix_file *made = free_file(session);
    if (!made || strlen(description->name) > NAME)
        return leave(session, made ? COBIX_DESCRIPTION : COBIX_MANY);
    uint8_t head[ENGINE_HEAD];
    struct engine_record none;
    why = ask(session, put_description(session->body, made->number, description), DONE, head, &none);
    if (why)
        return leave(session, why);
    made->session = session, made->greatest = description->greatest, made->key_count = (uint8_t)description->key_count;
    made->is_sequential = description->access == COBIX_SEQUENTIAL;
    memcpy(made->keys, description->keys, description->key_count * sizeof *description->keys);
    *file = made;
    return leave(session, 0);
}

int cobix_release(cobix_file *file)
{
    int why = enter_file(file, true);
    if (why)
        return why;
    cobix *session = file->session;
    uint8_t head[ENGINE_HEAD];
    struct engine_record none;
    session->body[0] = RELEASE, session->body[1] = file->number;
    why = ask(session, session->body + 2, DONE, head, &none);
    if (!why)
        file->session = NULL;
    return leave(session, why);
}

/* ---- verbs */

int cobix_open_file(cobix_file *file, cobix_mode mode)
{
    int why = enter_file(file, (unsigned)mode <= COBIX_EXTEND);
    return why ? why : perform(file, put_verb(file, OPEN, (int)mode, 0, 0, 0), NULL, NULL);
}

int cobix_close_file(cobix_file *file, bool lock)
{
    int why = enter_file(file, true);
    return why ? why : perform(file, put_verb(file, CLOSE, lock, 0, 0, 0), NULL, NULL);
}

int cobix_read_next(cobix_file *file, const void **record, size_t *length)
{
    int why = enter_file(file, record && length);
    return why ? why : perform(file, put_verb(file, READ_NEXT, 0, 0, 0, 0), record, length);
}

int cobix_read(cobix_file *file, unsigned key, const void *value, const void **record, size_t *length)
{
    int why = enter_file(file, value && record && length);
    if (why)
        return why;
    if (key >= file->key_count)
        return leave(file->session, COBIX_NO_SUCH_KEY);
    uint8_t *at = put_verb(file, READ, 0, key, 0, 0);
    return perform(file, put_key(file, at, key, value, file->keys[key].length), record, length);
}

int cobix_start(cobix_file *file, unsigned key, cobix_relation relation, const void *value, size_t length)
{
    int why = enter_file(file, value && length && (unsigned)relation <= COBIX_NOT_LESS);
    if (why)
        return why;
    if (key >= file->key_count || length > file->keys[key].length)
        return leave(file->session, COBIX_NO_SUCH_KEY);
    uint8_t *at = put_verb(file, START, (int)relation, key, length, 0);
    return perform(file, put_key(file, at, key, value, length), NULL, NULL);
}

/* A record past the greatest length is told by its length, and its first bytes are enough. */
static int store(cobix_file *file, int verb, const void *record, size_t length)
{
    int why = enter_file(file, record && length <= UINT16_MAX);
    if (why)
        return why;
    uint8_t *at = put_verb(file, verb, 0, 0, 0, length);
    return perform(file, mempcpy(at, record, length < file->greatest ? length : file->greatest), NULL, NULL);
}

int cobix_write(cobix_file *file, const void *record, size_t length) { return store(file, WRITE, record, length); }

int cobix_rewrite(cobix_file *file, const void *record, size_t length) { return store(file, REWRITE, record, length); }

/* Without a key the request would name the record whose bytes the record area has. In sequential access it names none. */
int cobix_delete(cobix_file *file, const void *prime)
{
    int why = enter_file(file, file && (prime || file->is_sequential));
    if (why)
        return why;
    uint8_t *at = put_verb(file, DELETE, 0, 0, 0, 0);
    return perform(file, prime ? put_key(file, at, 0, prime, file->keys[0].length) : at, NULL, NULL);
}
