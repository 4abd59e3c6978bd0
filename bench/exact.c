// The plain program to compare `report` with: reads a capture and finds the exact lines at 1 % of its weight. Its argument
// is how many bits a unit of an address has, 8 if it is missing, or 4.
// Level by level from the most specific prefixes up, it sums the weight of each prefix in a hash table, one node
// at a time, over the records that no line of a greater level covers. A prefix with enough of it is a line.
#include "capture.h"
#include <stdio.h>

#define PARTS_PER_MILLION 10000

static int grain = 8;

// A slot of the table. One with weight 0 is free.
struct slot {
    uint64_t key, weight;
};

static struct slot *slots;
static size_t used;
static unsigned bits;

// For each record the level of the line that covers it, plus 1, or 0 while none does.
static unsigned char *covered;

static void *zeros(size_t number, size_t size) {
    void *room = calloc(number, size);
    if (!room)
        exit(13);
    return room;
}

static struct slot *slot_of(uint64_t key) {
    size_t last = ((size_t)1 << bits) - 1, place = key * 0x9e3779b97f4a7c15 >> (64 - bits);
    while (slots[place].weight && slots[place].key != key)
        place = (place + 1) & last;
    return &slots[place];
}

static void empty_table(void) {
    free(slots);
    used = 0;
    bits = 10;
    slots = zeros((size_t)1 << bits, sizeof *slots);
}

// Doubles the table.
static void widen(void) {
    struct slot *old = slots, *behind = slots + ((size_t)1 << bits);
    bits++;
    slots = zeros((size_t)1 << bits, sizeof *slots);
    for (struct slot *slot = old; slot < behind; slot++)
        if (slot->weight)
            *slot_of(slot->key) = *slot;
    free(old);
}

static void add(uint64_t key, uint32_t weight) {
    struct slot *slot = slot_of(key);
    if (!slot->weight) {
        slot->key = key;
        used++;
    }
    slot->weight += weight;
    if (used > (size_t)1 << (bits - 1))
        widen();
}

static uint32_t mask_of(unsigned units) {
    return units ? 0xffffffff << (32 - grain * units) : 0;
}

static uint64_t pair_of(size_t i) {
    return (uint64_t)records[i].source << 32 | records[i].destination;
}

static void print_side(uint32_t address, unsigned units) {
    printf(" %u.%u.%u.%u/%u", address >> 24, address >> 16 & 255, address >> 8 & 255, address & 255, grain * units);
}

// Prints the lines of the node that keeps these units, and notes the records that they cover.
static void find_lines(unsigned source, unsigned destination, uint64_t threshold) {
    unsigned here = source + destination + 1;
    uint64_t mask = (uint64_t)mask_of(source) << 32 | mask_of(destination);
    empty_table();
    for (size_t i = 0; i < count; i++)
        if (!covered[i] || covered[i] == here)
            add(pair_of(i) & mask, records[i].weight);
    for (size_t i = 0; i < count; i++)
        if (!covered[i] && slot_of(pair_of(i) & mask)->weight >= threshold)
            covered[i] = here;
    for (struct slot *slot = slots; slot < slots + ((size_t)1 << bits); slot++)
        if (slot->weight >= threshold) {
            printf("line");
            print_side(slot->key >> 32, source);
            print_side(slot->key, destination);
            printf(" %llu\n", (unsigned long long)slot->weight);
        }
}

int main(int number, char **arguments) {
    grain = number > 1 ? atoi(arguments[1]) : 8;
    if (grain != 8 && grain != 4)
        return 2;
    if (!read_capture())
        return 3;
    covered = zeros(count + 1, 1);
    uint64_t threshold = (total_weight() * PARTS_PER_MILLION + 999999) / 1000000;
    threshold += !threshold;
    int most = 32 / grain;
    for (int level = 2 * most; level >= 0; level--)
        for (int source = 0; source <= most; source++)
            if (level - source >= 0 && level - source <= most)
                find_lines(source, level - source, threshold);
}
