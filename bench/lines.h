// Lines of a report, for the plain audits: which is under which, their order, and when one is justified. A line has its
// two addresses in one key and the index of its node, `sides * s + d` where s and d units are kept. A unit has eight bits,
// or four after `set_grain(4)`.
#ifndef LINES_H
#define LINES_H

#include "records.h"

#define MOST_NODES 81
#define MOST_SHARDS 16

// The bits of a unit, how many lengths a side may have, and how many nodes that makes.
static unsigned grain = 8, sides = 5, node_count = 25;

struct line {
    uint64_t key, low, high, weight, left;
    unsigned node;
};

struct report {
    uint64_t positions[MOST_SHARDS], total, threshold;
    unsigned shards;
    struct line *lines;
    size_t count;
};

static inline void *zeros(size_t number, size_t size) {
    void *space = calloc(number ? number : 1, size);
    if (!space)
        exit(13);
    return space;
}

// Whether there is a grain of so many bits, which then counts.
static inline int set_grain(uint64_t bits) {
    if (bits != 8 && bits != 4)
        return 0;
    grain = bits;
    sides = 32 / grain + 1;
    node_count = sides * sides;
    return 1;
}

// The units that a node keeps. Each division is by a constant, since one by a variable takes longer.
static inline unsigned source_units(unsigned node) {
    return grain == 8 ? node / 5 : node / 9;
}

static inline unsigned destination_units(unsigned node) {
    return grain == 8 ? node % 5 : node % 9;
}

static inline unsigned level_of(unsigned node) {
    return source_units(node) + destination_units(node);
}

static inline uint32_t kept(uint32_t address, unsigned units) {
    return units ? address & 0xffffffff << (32 - grain * units) : 0;
}

// The bits of a key that a node keeps.
static inline uint64_t mask_of(unsigned node) {
    return (uint64_t)kept(0xffffffff, source_units(node)) << 32 | kept(0xffffffff, destination_units(node));
}

static inline uint64_t pair_of(size_t i) {
    return (uint64_t)records[i].source << 32 | records[i].destination;
}

// The key of a record at a node.
static inline uint64_t key_of(size_t i, unsigned node) {
    return pair_of(i) & mask_of(node);
}

// Whether a node keeps no fewer units of either address than another one.
static inline int is_below(unsigned node, unsigned above) {
    return node != above && source_units(node) >= source_units(above) && destination_units(node) >= destination_units(above);
}

// A prefix as it stands in a report.
struct place {
    uint64_t key;
    unsigned node;
};

static inline int compare(struct place one, struct place other) {
    if (level_of(one.node) != level_of(other.node))
        return level_of(one.node) > level_of(other.node) ? -1 : 1;
    if (one.key >> 32 != other.key >> 32)
        return one.key >> 32 < other.key >> 32 ? -1 : 1;
    if (one.node != other.node)
        return source_units(one.node) < source_units(other.node) ? -1 : 1;
    return one.key < other.key ? -1 : one.key > other.key;
}

static inline int begins(uint64_t key, unsigned node, uint64_t upper, unsigned above) {
    return (above == node || is_below(node, above)) && (key & mask_of(above)) == upper;
}

static inline int under(const struct line *lower, const struct line *upper) {
    return begins(lower->key, lower->node, upper->key, upper->node);
}

static inline int same(const struct line *one, const struct line *other) {
    return one->key == other->key && one->node == other->node;
}

static inline int strictly_under(const struct line *lower, const struct line *upper) {
    return under(lower, upper) && !same(lower, upper);
}

// The longer of two halves of a prefix, if it begins with the other. Answers whether it does.
static inline int longer(
    uint32_t one, unsigned units, uint32_t other, unsigned other_units, uint32_t *half, unsigned *length) {
    unsigned shared = units < other_units ? units : other_units;
    *half = units < other_units ? other : one;
    *length = units < other_units ? other_units : units;
    return kept(one, shared) == kept(other, shared);
}

static inline int meet(const struct line *one, const struct line *other, struct line *lowest) {
    uint32_t source, destination;
    unsigned source_length, destination_length;
    if (!longer(one->key >> 32, source_units(one->node), other->key >> 32, source_units(other->node), &source, &source_length)
        || !longer(one->key, destination_units(one->node), other->key, destination_units(other->node), &destination,
            &destination_length))
        return 0;
    lowest->key = (uint64_t)source << 32 | destination;
    lowest->node = sides * source_length + destination_length;
    return 1;
}

// The lines strictly under a line that are under no other of these. Answers how many.
static inline size_t find_closest(const struct report *report, const struct line *line, struct line *closest) {
    struct line *under_it = zeros(report->count, sizeof *under_it);
    size_t number = 0, tops = 0;
    for (size_t i = 0; i < report->count; i++)
        if (strictly_under(&report->lines[i], line))
            under_it[number++] = report->lines[i];
    for (size_t i = 0; i < number; i++) {
        int top = 1;
        for (size_t j = 0; top && j < number; j++)
            top = !strictly_under(&under_it[i], &under_it[j]);
        if (top)
            closest[tops++] = under_it[i];
    }
    free(under_it);
    return tops;
}

// Finds the meet of two of the closest lines. Answers whether there is one and it is under no third.
static inline int is_kept(const struct line *closest, size_t tops, size_t i, size_t j, struct line *lowest) {
    int keeps = meet(&closest[i], &closest[j], lowest);
    for (size_t k = 0; keeps && k < tops; k++)
        keeps = k == i || k == j || !under(lowest, &closest[k]);
    return keeps;
}

// The numbers of closest lines and of their kept pairs, added up.
static inline uint64_t count_widths(const struct report *report, const struct line *line, int with_pairs) {
    struct line *closest = zeros(report->count, sizeof *closest), lowest;
    size_t tops = find_closest(report, line, closest);
    uint64_t pairs = 0;
    for (size_t i = 0; with_pairs && i < tops; i++)
        for (size_t j = i + 1; j < tops; j++)
            pairs += is_kept(closest, tops, i, j, &lowest);
    free(closest);
    return tops + pairs;
}

static inline int allows(const struct report *report, uint64_t left, uint64_t widths, uint64_t capacity) {
    return (unsigned __int128)capacity * left + (unsigned __int128)widths * report->total
        >= (unsigned __int128)capacity * report->threshold;
}

static inline int is_justified(const struct report *report, const struct line *line, uint64_t capacity) {
    return allows(report, line->left, 1, capacity)
        || allows(report, line->left, 1 + count_widths(report, line, 0), capacity)
        || allows(report, line->left, 1 + count_widths(report, line, 1), capacity);
}

// The least weight, at least 1, that is at least this many parts per million of the total.
static inline uint64_t threshold_of(uint64_t total, uint64_t share) {
    uint64_t threshold = ((unsigned __int128)total * share + 999999) / 1000000;
    return threshold + !threshold;
}

#endif
