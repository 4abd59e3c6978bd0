// The plain program to compare `audit` with: reads a capture from standard input and a session text from the file that
// is named first, and tests every report against the records, dealt in turn. Its other arguments are the capacity, the
// share in parts per million, and the bits of a unit: 512, 10,000 and 8 if they are missing.
//
// For each report it notes at which nodes a line covers each record, one bit a node. Then it sums the weights of each
// node in a hash table, and beside them what no line strictly below the node covers. It prints what `audit` prints, and
// its status is 0 where all reports are sound, 11 where one isn't, and 12 where the text isn't read.
#include "capture.h"
#include "lines.h"
#include <stdio.h>

#define LONGEST_LINE 512
#define WORD_BITS 32
#define MOST_WORDS 3

// A slot of a hash table. One with weight 0 is free.
struct slot {
    uint64_t key, weight, left;
};

static struct slot *slots;
static size_t used;
static unsigned bits;

// Where lines are by node and key: one more than their number, and 0 in a free place.
static uint32_t *homes;
static size_t last_home;

// The records that a report counts, by their numbers, and at which nodes a line covers each. A set of nodes has so many
// words.
static uint32_t *counted, *covered;
static size_t counted_count;
static unsigned set_words;

// For each node those below it.
static uint32_t below[MOST_NODES][MOST_WORDS];

static inline void put_in(uint32_t *set, unsigned node) {
    set[node / WORD_BITS] |= 1u << node % WORD_BITS;
}

static inline int share_a_node(const uint32_t *set, const uint32_t *other) {
    uint32_t shared = 0;
    for (unsigned word = 0; word < set_words; word++)
        shared |= set[word] & other[word];
    return shared != 0;
}

static void find_nodes_below(void) {
    set_words = (node_count + WORD_BITS - 1) / WORD_BITS;
    for (unsigned node = 0; node < node_count; node++)
        for (unsigned other = 0; other < node_count; other++)
            if (is_below(other, node))
                put_in(below[node], other);
}

static struct slot *slot_of(uint64_t key) {
    size_t last = ((size_t)1 << bits) - 1, place = key * 0x9e3779b97f4a7c15 >> (64 - bits);
    while (slots[place].weight && slots[place].key != key)
        place = (place + 1) & last;
    return &slots[place];
}

static void empty_table(void) {
    free(slots);
    used = 0;
    bits = 10;
    slots = zeros((size_t)1 << bits, sizeof *slots);
}

static void widen(void) {
    struct slot *old = slots, *behind = slots + ((size_t)1 << bits);
    bits++;
    slots = zeros((size_t)1 << bits, sizeof *slots);
    for (struct slot *slot = old; slot < behind; slot++)
        if (slot->weight)
            *slot_of(slot->key) = *slot;
    free(old);
}

static void add(uint64_t key, uint32_t weight, int explained) {
    struct slot *slot = slot_of(key);
    if (!slot->weight) {
        slot->key = key;
        used++;
    }
    slot->weight += weight;
    slot->left += explained ? 0 : weight;
    if (used > (size_t)1 << (bits - 1))
        widen();
}

static size_t home_of(const struct report *report, unsigned node, uint64_t key) {
    size_t home = (key * 0x9e3779b97f4a7c15 + node * 0xc2b2ae3d27d4eb4f) >> 20 & last_home;
    while (homes[home]) {
        const struct line *line = &report->lines[homes[home] - 1];
        if (line->node == node && line->key == key)
            break;
        home = (home + 1) & last_home;
    }
    return home;
}

static void find_homes(const struct report *report) {
    size_t number = 16;
    while (number < 2 * report->count)
        number *= 2;
    free(homes);
    homes = zeros(number, sizeof *homes);
    last_home = number - 1;
    for (size_t i = 0; i < report->count; i++)
        homes[home_of(report, report->lines[i].node, report->lines[i].key)] = i + 1;
}

// Notes the records before the positions, of shards that are dealt to in turn.
static void count_records(const struct report *report) {
    counted_count = 0;
    for (size_t i = 0; i < count; i++)
        if (i / report->shards < report->positions[i % report->shards])
            counted[counted_count++] = i;
}

static void note_covered(const struct report *report) {
    int has_lines[MOST_NODES] = {0};
    uint64_t masks[MOST_NODES];
    for (size_t i = 0; i < report->count; i++)
        has_lines[report->lines[i].node] = 1;
    for (unsigned node = 0; node < node_count; node++)
        masks[node] = mask_of(node);
    memset(covered, 0, counted_count * set_words * sizeof *covered);
    for (size_t i = 0; i < counted_count; i++)
        for (unsigned node = 0; node < node_count; node++)
            if (has_lines[node] && homes[home_of(report, node, pair_of(counted[i]) & masks[node])])
                put_in(&covered[i * set_words], node);
}

// Sums each node, notes the sums of its lines, and finds the first prefix that is left out.
static int sum_nodes(struct report *report, struct place *first, uint64_t *left) {
    int found = 0;
    for (unsigned node = 0; node < node_count; node++) {
        uint64_t mask = mask_of(node);
        empty_table();
        for (size_t i = 0; i < counted_count; i++)
            add(pair_of(counted[i]) & mask, records[counted[i]].weight, share_a_node(&covered[i * set_words], below[node]));
        for (size_t i = 0; i < report->count; i++)
            if (report->lines[i].node == node) {
                struct slot *slot = slot_of(report->lines[i].key);
                report->lines[i].weight = slot->weight;
                report->lines[i].left = slot->left;
            }
        for (struct slot *slot = slots; slot < slots + ((size_t)1 << bits); slot++) {
            struct place place = {slot->key, node};
            if (slot->weight && slot->left >= report->threshold && !homes[home_of(report, node, slot->key)]
                && (!found || compare(place, *first) < 0)) {
                found = 1;
                *first = place;
                *left = slot->left;
            }
        }
    }
    return found;
}

static void print_side(uint32_t address, unsigned units) {
    printf(" %u.%u.%u.%u/%u", address >> 24, address >> 16 & 255, address >> 8 & 255, address & 255, grain * units);
}

static int says(const char *verdict, size_t number) {
    printf("%s%zu\n", verdict, number + 1);
    return 0;
}

// Tests a report, prints after its number what is wrong with it, and answers whether it is sound.
static int test(struct report *report, size_t number, uint64_t capacity, uint64_t share) {
    uint64_t total = 0, left = 0;
    struct place first = {0, 0};
    char front[64];
    snprintf(front, sizeof front, "report %zu: ", number);
    for (unsigned shard = 0; shard < report->shards; shard++)
        if (report->positions[shard] > (count + report->shards - 1 - shard) / report->shards)
            return printf("%sbad positions\n", front), 0;
    count_records(report);
    for (size_t i = 0; i < counted_count; i++)
        total += records[counted[i]].weight;
    if (total != report->total)
        return printf("%sbad total\n", front), 0;
    uint64_t threshold = threshold_of(total, share);
    if (threshold != report->threshold)
        return printf("%sbad threshold\n", front), 0;
    find_homes(report);
    note_covered(report);
    int found = sum_nodes(report, &first, &left);
    for (size_t i = 0; i < report->count; i++)
        if (report->lines[i].weight < report->lines[i].low || report->lines[i].weight > report->lines[i].high)
            return printf("%s", front), says("bad interval in line ", i);
    for (size_t i = 0; i < report->count; i++)
        if ((unsigned __int128)(report->lines[i].high - report->lines[i].low) * capacity > total)
            return printf("%s", front), says("too wide in line ", i);
    for (size_t i = 0; i < report->count; i++)
        if (report->lines[i].high < threshold)
            return printf("%s", front), says("below threshold in line ", i);
    for (size_t i = 0; i < report->count; i++)
        if (!is_justified(report, &report->lines[i], capacity))
            return printf("%s", front), says("not justified in line ", i);
    if (!found)
        return 1;
    printf("%sleft out", front);
    print_side(first.key >> 32, source_units(first.node));
    print_side(first.key, destination_units(first.node));
    printf(" %llu\n", (unsigned long long)left);
    return 0;
}

static int read_positions(char *text, struct report *report) {
    report->shards = 0;
    for (char *word = strtok(text, " \n"); word; word = strtok(0, " \n")) {
        if (report->shards == MOST_SHARDS)
            return 0;
        report->positions[report->shards++] = strtoull(word, 0, 10);
    }
    return report->shards > 0;
}

static int read_line(const char *text, struct line *line) {
    unsigned s[5], d[5];
    unsigned long long low, high;
    if (sscanf(text, "line %u.%u.%u.%u/%u %u.%u.%u.%u/%u %llu %llu", &s[0], &s[1], &s[2], &s[3], &s[4], &d[0], &d[1],
            &d[2], &d[3], &d[4], &low, &high) != 12)
        return 0;
    line->key = (uint64_t)(s[0] << 24 | s[1] << 16 | s[2] << 8 | s[3]) << 32 | (d[0] << 24 | d[1] << 16 | d[2] << 8 | d[3]);
    line->node = sides * (s[4] / grain) + d[4] / grain;
    line->low = low;
    line->high = high;
    return s[4] <= 32 && d[4] <= 32 && s[4] % grain == 0 && d[4] % grain == 0;
}

// Reads the next report of a session. Answers 1, 0 at the end of the text, and 12 for a text that isn't read.
static int read_report(FILE *session, struct report *report) {
    static char text[LONGEST_LINE];
    size_t space = 0;
    int inside = 0;
    report->count = 0;
    while (fgets(text, sizeof text, session)) {
        if (!strcmp(text, "report\n"))
            inside = 1;
        else if (inside && !strcmp(text, "done\n"))
            return 1;
        else if (inside && !strncmp(text, "at ", 3)) {
            if (!read_positions(text + 3, report))
                return 12;
        } else if (inside && !strncmp(text, "total ", 6))
            report->total = strtoull(text + 6, 0, 10);
        else if (inside && !strncmp(text, "threshold ", 10))
            report->threshold = strtoull(text + 10, 0, 10);
        else if (inside) {
            if (report->count == space) {
                space = space ? 2 * space : 64;
                report->lines = realloc(report->lines, space * sizeof *report->lines);
                if (!report->lines)
                    exit(13);
            }
            if (!read_line(text, &report->lines[report->count++]))
                return 12;
        }
    }
    return inside ? 12 : 0;
}

int main(int number, char **arguments) {
    uint64_t capacity = number > 2 ? strtoull(arguments[2], 0, 10) : 512;
    uint64_t share = number > 3 ? strtoull(arguments[3], 0, 10) : 10000;
    FILE *session = number > 1 ? fopen(arguments[1], "r") : 0;
    if (!set_grain(number > 4 ? strtoull(arguments[4], 0, 10) : 8))
        return 2;
    if (!session)
        return 12;
    if (!read_capture())
        return 3;
    find_nodes_below();
    counted = zeros(count, sizeof *counted);
    covered = zeros(count * set_words, sizeof *covered);
    size_t reports = 0;
    for (;;) {
        struct report report = {.lines = 0};
        int got = read_report(session, &report);
        if (got == 12)
            return 12;
        if (!got)
            break;
        if (!test(&report, ++reports, capacity, share))
            return 11;
        free(report.lines);
    }
    printf("good %zu\n", reports);
}
