// The calls of the system that `benchmarks page_files` makes, and nothing else: pages FOLDER PAGES ROUNDS.
#include <fcntl.h>
#include <stdint.h>
#include <stdio.h>
#include <stdlib.h>
#include <string.h>
#include <time.h>
#include <unistd.h>

enum { PAGE = 4096 };

static void stop(const char *what)
{
    perror(what);
    exit(1);
}

static void read_page(int file, uint32_t n, unsigned char *page)
{
    if (pread(file, page, PAGE, (off_t)n * PAGE) != PAGE)
        stop("pread");
}

// Byte 0 of the file is the gate, which no page write changes.
static void write_page(int file, uint32_t n, const unsigned char *page)
{
    size_t first = n == 0 ? 1 : 0;
    if (pwrite(file, page + first, PAGE - first, (off_t)n * PAGE + (off_t)first) != (ssize_t)(PAGE - first))
        stop("pwrite");
}

static uint64_t mix(int file, uint32_t pages, uint32_t round, uint64_t sum)
{
    unsigned char page[PAGE];
    for (uint32_t i = 0; i < pages; i++) {
        read_page(file, (i * 7919u + round) % pages, page);
        sum = sum * 31 + page[100];
        page[100]++;
        write_page(file, (i * 6271u + round) % pages, page);
    }
    return sum;
}

int main(int count, char **args)
{
    if (count != 4)
        return 3;
    char path[4096];
    snprintf(path, sizeof path, "%s/pages", args[1]);
    uint32_t pages = (uint32_t)strtoul(args[2], NULL, 10);
    uint32_t rounds = (uint32_t)strtoul(args[3], NULL, 10);
    int file = open(path, O_RDWR | O_CREAT | O_EXCL | O_CLOEXEC, 0666);
    if (file < 0)
        stop("open");
    unsigned char page[PAGE];
    if (pwrite(file, "D", 1, 0) != 1 || fsync(file) != 0)
        stop("gate");
    for (uint32_t n = 0; n < pages; n++) {
        memset(page, (int)(n % 251), PAGE);
        write_page(file, n, page);
    }
    struct timespec start, end;
    clock_gettime(CLOCK_MONOTONIC, &start);
    uint64_t sum = 0;
    for (uint32_t round = 0; round < rounds; round++)
        sum = mix(file, pages, round, sum);
    clock_gettime(CLOCK_MONOTONIC, &end);
    long long time = (end.tv_sec - start.tv_sec) * 1000000000LL + (end.tv_nsec - start.tv_nsec);
    printf("pages %u sum %llu nanoseconds %lld\n", pages, (unsigned long long)sum, time);
    return 0;
}
