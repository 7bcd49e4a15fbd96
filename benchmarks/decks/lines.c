/* Writes a transcript to standard output as cobix does: lines are collected, up to 64 KiB, until one comes of a verb that may change a file.
   With a second argument it only reads the transcript. */
#include <stdbool.h>
#include <stdio.h>
#include <stdlib.h>
#include <string.h>
#include <unistd.h>

static bool only_reads(const char *line) { return !strncmp(line, "READ", 4) || !strncmp(line, "START", 5); }

static void hand_over(const char *from, const char *to) {
    if (write(1, from, to - from) != to - from) exit(1);
}

int main(int argc, char **argv) {
    FILE *f = argc > 1 ? fopen(argv[1], "rb") : NULL;
    static char text[64 << 20];
    if (!f) return 1;
    const char *held = text, *stop = text + fread(text, 1, sizeof text, f);
    for (const char *line = text, *end; argc == 2 && (end = memchr(line, '\n', stop - line)); line = end + 1)
        if (!only_reads(line) || end + 1 - held > 65536) {
            hand_over(held, line);
            held = line;
        }
    if (argc == 2) hand_over(held, stop);
    return 0;
}
