// Reading for the plain programs to compare with: a little-endian capture from standard input, in pieces of
// 65,536 bytes.
#include "records.h"
#include <string.h>
#include <unistd.h>

#define PIECE 65536

static unsigned char buffer[PIECE + 16 + LONGEST];
static size_t begin, end;

// Makes this many bytes stand at `begin`, if the input has them.
static int have(size_t bytes) {
    while (end - begin < bytes) {
        if (end + PIECE > sizeof buffer) {
            memmove(buffer, buffer + begin, end - begin);
            end -= begin;
            begin = 0;
        }
        ssize_t got = read(0, buffer + end, PIECE);
        if (got <= 0)
            return 0;
        end += got;
    }
    return 1;
}

// Reads the capture to its end. Answers whether it is one.
static int read_capture(void) {
    if (!have(24) || little(buffer) != 0xa1b2c3d4)
        return 0;
    begin = 24;
    while (have(16)) {
        uint32_t captured = little(buffer + begin + 8), original = little(buffer + begin + 12);
        if (captured > LONGEST || !have(16 + captured))
            return 0;
        decode(buffer + begin + 16, captured, original);
        begin += 16 + captured;
    }
    return end == begin;
}
