// Pages behind a hash table and a list of their last use, and nothing else: page_cache FOLDER PAGES FRAMES ROUNDS.
// The table is that of the header TABLE.
#include <fcntl.h>
#include <stdint.h>
#include <stdio.h>
#include <stdlib.h>
#include <string.h>
#include <time.h>
#include <unistd.h>

enum { PAGE = 4096 };

struct frame {
    uint32_t number;
    int changed;
    struct frame *newer, *older;
    unsigned char *page;
    struct frame *next_in_bucket;  // in a table of chains
};

#include TABLE

static int file;
static struct frame ends;  // ends.older is the frame used last, ends.newer the one used longest ago
static uint32_t held, frames;

static void stop(const char *what)
{
    perror(what);
    exit(1);
}

static void leave_order(struct frame *f)
{
    f->newer->older = f->older;
    f->older->newer = f->newer;
}

static void to_front(struct frame *f)
{
    f->newer = &ends;
    f->older = ends.older;
    ends.older->newer = f;
    ends.older = f;
}

static void write_back(struct frame *f)
{
    if (f->changed && pwrite(file, f->page, PAGE, (off_t)f->number * PAGE) != PAGE)
        stop("pwrite");
    f->changed = 0;
}

static struct frame *frame_for(uint32_t n)
{
    struct frame *f;
    if (held < frames) {
        f = malloc(sizeof *f);
        if (!f || !(f->page = malloc(PAGE)))
            stop("malloc");
        f->changed = 0;
        held++;
    } else {
        f = ends.newer;
        write_back(f);
        leave_order(f);
        table_remove(f->number);
    }
    f->number = n;
    table_put(n, f);
    to_front(f);
    return f;
}

static struct frame *find(uint32_t n)
{
    struct frame *f = table_get(n);
    if (f) {
        leave_order(f);
        to_front(f);
        return f;
    }
    f = frame_for(n);
    if (pread(file, f->page, PAGE, (off_t)n * PAGE) != PAGE)
        stop("pread");
    return f;
}

static uint32_t order(uint32_t pages, uint32_t i, uint32_t round)
{
    return (i * 7919u + round) % pages + 1;
}

static void write_page(uint32_t n)
{
    struct frame *f = find(n);
    f->changed = 1;
    f->page[100] += (unsigned char)(n % 251);
}

static uint64_t read_all(uint32_t pages, uint32_t round)
{
    uint64_t sum = 0;
    for (uint32_t i = 0; i < pages; i++)
        sum = sum * 31 + find(order(pages, i, round))->page[100];
    return sum;
}

static void write_all(uint32_t pages, uint32_t round)
{
    for (uint32_t i = 0; i < pages; i++)
        write_page(order(pages, i, round));
}

static long long now(void)
{
    struct timespec t;
    clock_gettime(CLOCK_MONOTONIC, &t);
    return t.tv_sec * 1000000000LL + t.tv_nsec;
}

int main(int count, char **args)
{
    if (count != 5)
        return 3;
    char path[4096];
    snprintf(path, sizeof path, "%s/pages", args[1]);
    uint32_t pages = (uint32_t)strtoul(args[2], NULL, 10);
    frames = (uint32_t)strtoul(args[3], NULL, 10);
    uint32_t rounds = (uint32_t)strtoul(args[4], NULL, 10);
    file = open(path, O_RDWR | O_CREAT | O_EXCL | O_CLOEXEC, 0666);
    if (file < 0)
        stop("open");
    if (!table_new(frames))
        stop("malloc");
    ends.newer = ends.older = &ends;
    static unsigned char zeros[PAGE];
    if (pwrite(file, "D", 1, 0) != 1 || fsync(file) != 0 || pwrite(file, zeros + 1, PAGE - 1, 1) != PAGE - 1)
        stop("gate");
    for (uint32_t n = 1; n <= pages; n++) {
        if (pwrite(file, zeros, PAGE, (off_t)n * PAGE) != PAGE)
            stop("pwrite");
        memset(frame_for(n)->page, 0, PAGE);
        write_page(n);
    }
    read_all(pages, 0);
    uint64_t sum = 0;
    long long read_time = INT64_MAX, write_time = INT64_MAX;
    for (uint32_t round = 0; round < rounds; round++) {
        long long start = now();
        sum += read_all(pages, round);
        long long time = now() - start;
        read_time = time < read_time ? time : read_time;
    }
    for (uint32_t round = 0; round < rounds; round++) {
        long long start = now();
        write_all(pages, round);
        long long time = now() - start;
        write_time = time < write_time ? time : write_time;
    }
    printf("sum %llu read %lld write %lld\n", (unsigned long long)sum, read_time, write_time);
    return 0;
}
