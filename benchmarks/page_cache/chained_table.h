// A hash table of chains that go through the frames themselves.
#include <stdlib.h>

static struct frame **buckets;
static unsigned shift;

static struct frame **bucket(uint32_t n)
{
    return &buckets[(n * 0x9E3779B97F4A7C15ull) >> shift];
}

static int table_new(uint32_t capacity)
{
    for (shift = 64; (1ull << (64 - shift)) < 2ull * capacity;)
        shift--;
    buckets = calloc(1ull << (64 - shift), sizeof *buckets);
    return buckets != NULL;
}

static inline struct frame *table_get(uint32_t n)
{
    struct frame *f = *bucket(n);
    while (f && f->number != n)
        f = f->next_in_bucket;
    return f;
}

// Page n is not in the table.
static void table_put(uint32_t n, struct frame *frame)
{
    frame->next_in_bucket = *bucket(n);
    *bucket(n) = frame;
}

// Page n is in the table.
static void table_remove(uint32_t n)
{
    struct frame **p = bucket(n);
    while ((*p)->number != n)
        p = &(*p)->next_in_bucket;
    *p = (*p)->next_in_bucket;
}
