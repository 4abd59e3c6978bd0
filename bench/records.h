// Records of a capture, for the plain programs: a frame is decoded, and its record kept.
#ifndef RECORDS_H
#define RECORDS_H

#include <stdint.h>
#include <stdlib.h>

#define LONGEST 262144

struct record {
    uint32_t source, destination, weight;
};

static struct record *records;
static size_t count, room;

// How many frames were read, and how many of them skipped as not IPv4, as short, for a bad header.
static size_t frames, skipped_type, skipped_short, skipped_header;

static inline uint32_t little(const unsigned char *p) {
    return p[0] | p[1] << 8 | p[2] << 16 | (uint32_t)p[3] << 24;
}

static inline uint32_t big(const unsigned char *p) {
    return (uint32_t)p[0] << 24 | p[1] << 16 | p[2] << 8 | p[3];
}

static inline unsigned type_at(const unsigned char *p) {
    return p[0] << 8 | p[1];
}

static inline void keep(uint32_t source, uint32_t destination, uint32_t weight) {
    if (count == room) {
        room = room ? 2 * room : 1024;
        records = realloc(records, room * sizeof *records);
        if (!records)
            exit(13);
    }
    records[count++] = (struct record){source, destination, weight};
}

static inline void decode(const unsigned char *frame, uint32_t captured, uint32_t original) {
    size_t place = 14;
    for (int tags = 0; tags < 2 && captured >= place; tags++) {
        unsigned type = type_at(frame + place - 2);
        if (type != 0x8100 && type != 0x88a8)
            break;
        place += 4;
    }
    frames++;
    if (captured < place)
        skipped_short++;
    else if (type_at(frame + place - 2) != 0x0800)
        skipped_type++;
    else if (captured < place + 20)
        skipped_short++;
    else if (frame[place] >> 4 != 4 || (frame[place] & 15) < 5)
        skipped_header++;
    else
        keep(big(frame + place + 12), big(frame + place + 16), captured > original ? captured : original);
}

// What the records weigh together.
static inline uint64_t total_weight(void) {
    uint64_t total = 0;
    for (size_t i = 0; i < count; i++)
        total += records[i].weight;
    return total;
}

#endif
