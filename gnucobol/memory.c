/* The memory of the proved library in this handler. A signal may come while the program is in malloc, and the files are closed then: so
   this memory is the library's alone. Blocks have 2 to the power of `kind` bytes, with a head of 16, and are cut from large pieces. */
#define _GNU_SOURCE
#include <stdbool.h>
#include <stddef.h>
#include <stdint.h>
#include <string.h>
#include <sys/mman.h>

struct block {
    bool is_there;
    void *at;
};

/* What the library calls. Alignments are at most 16. */
struct block rattle_alloc(size_t size, size_t alignment);
struct block rattle_realloc(void *at, size_t old, size_t size, size_t alignment);
void rattle_dealloc(void *at, size_t size, size_t alignment);

enum { HEAD = 16, LEAST = 5, MOST = 40, PIECE = 20 };

struct head {
    unsigned kind;
    struct head *next; /* of the free blocks of its kind */
};

static struct head *free_blocks[MOST];
static uint8_t *piece;
static size_t left;

static unsigned kind_of(size_t size)
{
    unsigned kind = LEAST;
    while (kind < MOST && ((size_t)1 << kind) < size)
        kind++;
    return kind;
}

static void *map(size_t size)
{
    void *at = mmap(NULL, size, PROT_READ | PROT_WRITE, MAP_PRIVATE | MAP_ANONYMOUS, -1, 0);
    return at == MAP_FAILED ? NULL : at;
}

/* A new block, from the piece that is being cut, or a piece of its own. */
static struct head *cut(unsigned kind)
{
    size_t size = (size_t)1 << kind;
    if (kind >= PIECE)
        return map(size);
    if (left < size && (piece = map((size_t)1 << PIECE)))
        left = (size_t)1 << PIECE;
    if (!piece || left < size)
        return NULL;
    left -= size;
    return (struct head *)(void *)(piece + left);
}

struct block rattle_alloc(size_t size, size_t alignment)
{
    (void)alignment;
    unsigned kind = size < ((size_t)1 << (MOST - 1)) ? kind_of(size + HEAD) : MOST;
    struct head *head = kind < MOST ? free_blocks[kind] : NULL;
    if (head)
        free_blocks[kind] = head->next;
    else if (kind == MOST || !(head = cut(kind)))
        return (struct block){false, NULL};
    head->kind = kind;
    return (struct block){true, (uint8_t *)head + HEAD};
}

void rattle_dealloc(void *at, size_t size, size_t alignment)
{
    (void)size, (void)alignment;
    struct head *head = at ? (struct head *)(void *)((uint8_t *)at - HEAD) : NULL;
    if (!head)
        return;
    if (head->kind >= PIECE)
        munmap(head, (size_t)1 << head->kind);
    else
        head->next = free_blocks[head->kind], free_blocks[head->kind] = head;
}

struct block rattle_realloc(void *at, size_t old, size_t size, size_t alignment)
{
    (void)old;
    size_t had = ((size_t)1 << ((struct head *)(void *)((uint8_t *)at - HEAD))->kind) - HEAD;
    if (size <= had)
        return (struct block){true, at};
    struct block made = rattle_alloc(size, alignment);
    if (made.is_there)
        memcpy(made.at, at, had), rattle_dealloc(at, had, alignment);
    return made;
}
