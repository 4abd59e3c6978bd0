// The plain program to compare made traffic with: traffic SEED FRAMES writes the same capture, in pieces of the same
// size. It draws and writes on its own; nothing in it is checked or proved.
#include <stdint.h>
#include <stdio.h>
#include <stdlib.h>
#include <string.h>
#include <unistd.h>

#define FRAME 50
#define PIECE 640

static const unsigned char header[24] = {0xd4, 0xc3, 0xb2, 0xa1, 2, 0, 4, 0, 0, 0, 0, 0, 0, 0, 0, 0, 0, 0, 4, 0, 1};

// A frame without its index, its lengths on the wire and its addresses.
static const unsigned char blank[FRAME] = {
    0,    0, 0, 0, 0, 0, 0, 0, 34,   0,    0, 0, 0, 0, 0, 0, // the header in the file
    2,    0, 0, 0, 0, 2, 2, 0, 0,    0,    0, 1, 8, 0,       // Ethernet
    0x45, 0, 0, 0, 0, 0, 0, 0, 0x40, 0x11,                   // IPv4
};

static uint64_t state;

// The address with this first byte that the next draw gives.
static void put_address(unsigned char *at, unsigned char first) {
    state = 6364136223846793005u * state + 1442695040888963407u;
    uint32_t draw = state >> 32;
    unsigned char high = draw >> 24;
    at[0] = first;
    at[1] = high < 128 ? 0 : draw >> 16;
    at[2] = high < 64 ? 0 : high < 128 ? draw >> 16 & 3 : draw >> 8;
    at[3] = high < 64 ? 1 : high < 128 ? draw >> 8 : draw;
}

static void put_frame(unsigned char *at, uint32_t index) {
    uint32_t length = 100 * (1 + index % 4);
    memcpy(at, blank, FRAME);
    memcpy(at, &index, 4);
    memcpy(at + 12, &length, 4);
    at[32] = (length - 14) >> 8;
    at[33] = length - 14;
    put_address(at + 42, 10);
    put_address(at + 46, 20);
}

static int write_all(const unsigned char *from, size_t length) {
    while (length) {
        ssize_t count = write(1, from, length);
        if (count <= 0)
            return 0;
        from += count;
        length -= count;
    }
    return 1;
}

int main(int count, char **words) {
    static unsigned char piece[FRAME * PIECE];
    if (count != 3)
        return 2;
    state = strtoull(words[1], 0, 10);
    uint32_t frames = strtoul(words[2], 0, 10);
    if (!write_all(header, sizeof header))
        return 5;
    for (uint32_t index = 0; index < frames;) {
        size_t held = 0;
        for (; held < sizeof piece && index < frames; held += FRAME)
            put_frame(piece + held, index++);
        if (!write_all(piece, held))
            return 5;
    }
}
