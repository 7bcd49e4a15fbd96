/* Sessions of the proved library. They are in a list, so that a child of fork() closes what it has of their files. */
#define _GNU_SOURCE
#include "engine.h"
#include "asked.h"
#include <pthread.h>
#include <string.h>

/* What the proved library gives to hold for a session. */
struct handle {
    void *at;
};

/* The functions of the proved library. A record, pointer and length as a slice has them there, is lent with the handle: it is not used
   once the handle is. It points somewhere, even at no bytes. */
_Static_assert(ENGINE_HEAD >= 5, "the room that cobix_inside_answer requires");
bool cobix_inside_begin(const uint8_t *folder, size_t length, uint32_t pages, size_t frames, struct handle *made);
size_t cobix_inside_answer(struct handle *held, const uint8_t *body, size_t length, uint8_t *room, size_t size,
                           struct engine_record *delivered);
size_t cobix_inside_end(struct handle held);

/* The memory of the proved library, and of a session here: these are the kit's, or those of a program that replaces both. */
struct block {
    bool is_there;
    void *at;
};
struct block rattle_alloc(size_t size, size_t alignment);
void rattle_dealloc(void *at, size_t size, size_t alignment);

struct engine {
    struct engine *next;
    struct handle handle;
    struct asked asked;
};

static pthread_once_t once = PTHREAD_ONCE_INIT;
static pthread_mutex_t list_lock = PTHREAD_MUTEX_INITIALIZER;
static struct engine *list;
static bool has_handlers;

static void before_fork(void) { pthread_mutex_lock(&list_lock); }

static void in_parent(void) { pthread_mutex_unlock(&list_lock); }

static void in_child(void)
{
    for (struct engine *engine = list; engine; engine = engine->next)
        cobix_asked_disown(&engine->asked);
    pthread_mutex_unlock(&list_lock);
}

static void begin(void) { has_handlers = pthread_atfork(before_fork, in_parent, in_child) == 0; }

static void put_in_list(struct engine *engine)
{
    pthread_mutex_lock(&list_lock);
    engine->next = list, list = engine;
    pthread_mutex_unlock(&list_lock);
}

static void take_from_list(const struct engine *engine)
{
    pthread_mutex_lock(&list_lock);
    struct engine **at = &list;
    while (*at && *at != engine)
        at = &(*at)->next;
    if (*at)
        *at = engine->next;
    pthread_mutex_unlock(&list_lock);
}

static void give_back(struct engine *engine) { rattle_dealloc(engine, sizeof *engine, _Alignof(struct engine)); }

struct engine *cobix_engine_begin(const char *folder, uint32_t pages, uint32_t frames)
{
    if (pthread_once(&once, begin) || !has_handlers)
        return NULL;
    struct block block = rattle_alloc(sizeof(struct engine), _Alignof(struct engine));
    if (!block.is_there)
        return NULL;
    struct engine *engine = block.at;
    cobix_asked_init(&engine->asked);
    cobix_asked_by(&engine->asked);
    if (!cobix_inside_begin((const uint8_t *)folder, strlen(folder), pages, frames, &engine->handle)) {
        give_back(engine);
        return NULL;
    }
    put_in_list(engine);
    return engine;
}

size_t cobix_engine_ask(struct engine *engine, const uint8_t *body, size_t length, uint8_t *head, struct engine_record *record)
{
    *record = (struct engine_record){head, 0};
    cobix_asked_by(&engine->asked);
    return cobix_inside_answer(&engine->handle, body, length, head, ENGINE_HEAD, record);
}

size_t cobix_engine_end(struct engine *engine)
{
    take_from_list(engine);
    cobix_asked_by(&engine->asked);
    size_t failed = cobix_inside_end(engine->handle);
    give_back(engine);
    return failed;
}

bool cobix_engine_is_parents(const struct engine *engine) { return engine->asked.disowned; }
