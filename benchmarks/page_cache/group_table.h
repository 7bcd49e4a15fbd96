// A hash table of groups, as Rust's HashMap is one: a control byte for each slot, 16 of them probed at a time, with
// seven bits of the hash in each that is full, and at most 7/8 of the slots in use.
#include <emmintrin.h>
#include <stdlib.h>

enum { GROUP = 16, EMPTY = 0xFF, DELETED = 0x80 };

struct slot {
    uint32_t number;
    struct frame *frame;
};

static unsigned char *controls;  // one for each slot, and the first 16 once more behind the last
static struct slot *slots;
static size_t mask, growth_left;

static uint64_t hash(uint32_t n)
{
    unsigned __int128 product = (unsigned __int128)(n ^ 0x243F6A8885A308D3ull) * 0x9E3779B97F4A7C15ull;
    return (uint64_t)product ^ (uint64_t)(product >> 64);
}

static __m128i group(size_t at)
{
    return _mm_loadu_si128((const __m128i *)(controls + at));
}

static unsigned with_byte(__m128i bytes, unsigned char byte)
{
    return (unsigned)_mm_movemask_epi8(_mm_cmpeq_epi8(bytes, _mm_set1_epi8((char)byte)));
}

static void set_control(size_t at, unsigned char byte)
{
    controls[at] = byte;
    controls[((at - GROUP) & mask) + GROUP] = byte;
}

static int table_new(uint32_t capacity)
{
    size_t count = GROUP;
    while (count / 8 * 7 < capacity)
        count *= 2;
    controls = malloc(count + GROUP);
    slots = malloc(count * sizeof *slots);
    if (!controls || !slots)
        return 0;
    memset(controls, EMPTY, count + GROUP);
    mask = count - 1;
    growth_left = count / 8 * 7;
    return 1;
}

// The slot of page n, or one past the last.
static inline size_t slot_of(uint32_t n)
{
    uint64_t h = hash(n);
    size_t at = h & mask, step = 0;
    for (;;) {
        __m128i bytes = group(at);
        for (unsigned full = with_byte(bytes, (unsigned char)(h >> 57)); full; full &= full - 1) {
            size_t slot = (at + (size_t)__builtin_ctz(full)) & mask;
            if (__builtin_expect(slots[slot].number == n, 1))
                return slot;
        }
        if (__builtin_expect(with_byte(bytes, EMPTY) != 0, 1))
            return mask + 1;
        step += GROUP;
        at = (at + step) & mask;
    }
}

static inline struct frame *table_get(uint32_t n)
{
    size_t slot = slot_of(n);
    return slot > mask ? NULL : slots[slot].frame;
}

// The first slot for page n that is empty or deleted.
static size_t free_slot(uint64_t h)
{
    size_t at = h & mask, step = 0;
    for (;;) {
        unsigned none = (unsigned)_mm_movemask_epi8(group(at));
        if (none)
            return (at + (size_t)__builtin_ctz(none)) & mask;
        step += GROUP;
        at = (at + step) & mask;
    }
}

static void fill_slot(uint32_t n, struct frame *frame)
{
    uint64_t h = hash(n);
    size_t slot = free_slot(h);
    growth_left -= controls[slot] == EMPTY;
    set_control(slot, (unsigned char)(h >> 57));
    slots[slot] = (struct slot){ n, frame };
}

// Every slot that was deleted is empty again.
static void clean_table(void)
{
    size_t count = mask + 1, held = 0;
    struct slot *old = malloc(count * sizeof *old);
    if (!old)
        abort();
    for (size_t i = 0; i < count; i++)
        if (controls[i] < DELETED)
            old[held++] = slots[i];
    memset(controls, EMPTY, count + GROUP);
    growth_left = count / 8 * 7;
    for (size_t i = 0; i < held; i++)
        fill_slot(old[i].number, old[i].frame);
    free(old);
}

// Page n is not in the table.
static void table_put(uint32_t n, struct frame *frame)
{
    if (growth_left == 0)
        clean_table();
    fill_slot(n, frame);
}

// Page n is in the table. Its slot is empty again where no probe went past it.
static void table_remove(uint32_t n)
{
    size_t slot = slot_of(n);
    unsigned before = with_byte(group((slot - GROUP) & mask), EMPTY), after = with_byte(group(slot), EMPTY);
    int lead = before ? __builtin_clz(before << 16) : GROUP, trail = after ? __builtin_ctz(after) : GROUP;
    int is_passed = lead + trail >= GROUP;
    growth_left += !is_passed;
    set_control(slot, is_passed ? DELETED : EMPTY);
}
