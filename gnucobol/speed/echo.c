/* A program that speaks as `cobix serve` and has no files: each verb is answered 00 at once, a READ with 100 bytes. What a run takes
   over it is the COBOL program, the handler, and a round trip over two pipes. As cobix does, it reads what is there, and writes each answer
   by itself. */
#include <string.h>
#include <unistd.h>

enum { FRAME = 2 + 8192, PERFORM = 2, READ_NEXT = 2, READ = 3, RECORD = 100 };

static int give(const unsigned char *frame)
{
    static unsigned char answer[5 + RECORD];
    int reads = frame[2] == PERFORM && (frame[4] == READ_NEXT || frame[4] == READ);
    memset(answer, 'x', sizeof answer);
    answer[0] = 0;
    answer[1] = (unsigned char)(frame[2] != PERFORM ? 1 : reads ? 3 + RECORD : 3);
    answer[2] = frame[2] == PERFORM ? PERFORM : 1;
    answer[3] = answer[4] = '0';
    return write(1, answer, 2u + answer[1]) > 0;
}

int main(void)
{
    unsigned char bytes[FRAME];
    size_t had = 0, length;
    for (ssize_t got; (got = read(0, bytes + had, sizeof bytes - had)) > 0;) {
        unsigned char *frame = bytes;
        for (had += (size_t)got; had >= 3 && (length = 2 + ((size_t)frame[0] << 8 | frame[1])) <= had; frame += length, had -= length)
            if (!give(frame))
                return 1;
        memmove(bytes, frame, had);
    }
    return 0;
}
