// Searches pairs of addresses that are chosen against a hash of the program, and prints them for `make_capture.py
// listed`: a source and a destination, as numbers, and a length on the wire, in each line.
//
//     hostile_keys deep CAPACITY SHARDS
//     hostile_keys filled CAPACITY SHARDS FRAMES
//     hostile_keys turned CAPACITY SHARDS FRAMES
//     hostile_keys listed CAPACITY SHARDS FRAMES
//     hostile_keys marked CAPACITY SHARDS FRAMES
//     hostile_keys even CAPACITY SHARDS FRAMES LENGTH
//     hostile_keys met BITS COUNT
//
// All but `met` are made against the tables of a shard, and a pair is printed once for each shard, since records are
// dealt to the shards in turn. The index of a table, in crates/key_index, has four homes for each key that it has room
// for. A key has eight homes, one a turn, between which its bits are mixed anew. It is kept at the first of these that
// has less than four keys; a home that turned one away has a mark, by which a search goes on. A key that all eight
// turned away is in a sorted list. The constants below, `mix` and `home_of` say all that is known of it here.
//
// - `deep`: all homes of the last pair are full, each of four pairs that were chosen by their first home alone, which a
//   few trials find. That pair comes again and again.
// - `filled`: three quarters of a table fill homes, and are heavy, so they stay. The other pairs, as many as the last
//   quarter has room for, come in turn. Three homes turned each of them away.
// - `turned`: twice as many pairs as that quarter has room for come in turn, so each takes the place of another. Four
//   homes turned each of them away, as many as all pairs of 16-bit addresses give enough keys for.
// - `listed`: pairs that all eight homes turn away come in turn, and at the greater capacities each takes the place of
//   another. The full homes are chosen by these pairs, which are few: a sixteenth of all homes can be full, so of 2^32
//   other keys one has all its homes among them, and as each turn mixes all bits anew, trials alone find it.
// - `marked`: each home is filled by four pairs and turns a fifth away, so that all have marks. Then new pairs come,
//   and each is looked for at all eight homes.
// - `even`: twice as many pairs as there are slots come in turn, with lengths that differ by a few bytes, so that all
//   counts are nearly equal.
//
// `deep` has pairs of no more than the first byte of either address, so that the key is the same in the 16 tables that
// keep a byte or more of each side. The others have two bytes: nine tables.
//
// `met` is made against the maps of the audit, which are those of `indexmap`, whose hash has a fixed seed. The keys of
// all pairs share the low bits of their hash, so their searches begin at one place in each map that has at most 2^BITS
// groups of twelve, and pass the groups of all keys before them. No pair has more than the first two bytes of either
// address, so its key is the same at nine nodes.
#include <stdint.h>
#include <stdio.h>
#include <stdlib.h>
#include <string.h>

#define MULTIPLIER 0x9e3779b97f4a7c15
#define TURNS 8
#define HOMES_A_KEY 4
#define KEYS_A_HOME 4

#define MOST_CAPACITY 4096
#define MOST_HOMES (HOMES_A_KEY * MOST_CAPACITY)
#define FILLED_TURNS 3
#define TURNED_TURNS 4
#define NEW_HOMES 3
#define LIGHT 100
#define HEAVY 100000000

static uint32_t capacity, homes, shards;

// How many of the keys so far are at each home, or are meant to be.
static uint8_t held[MOST_HOMES], wanted[MOST_HOMES];

static uint64_t mix(uint64_t mixed) {
    return (mixed ^ mixed >> 32) * MULTIPLIER;
}

static uint32_t home_of(uint64_t mixed) {
    return ((mixed >> 32) * homes) >> 32;
}

static uint32_t first_home(uint64_t key) {
    return home_of(mix(key));
}

static uint64_t key_of_bytes(uint32_t pair) {
    return (uint64_t)(pair >> 8) << 56 | (uint64_t)(pair & 255) << 24;
}

static uint64_t key_of_two_bytes(uint64_t pair) {
    return (pair >> 16 & 65535) << 48 | (pair & 65535) << 16;
}

static int fails(const char *why) {
    fprintf(stderr, "hostile_keys: %s\n", why);
    return 1;
}

static void print_key(uint64_t key, uint32_t length) {
    for (uint32_t shard = 0; shard < shards; shard++)
        printf("%u %u %u\n", (uint32_t)(key >> 32), (uint32_t)key, length);
}

// Whether the key's homes are apart, and enough pairs of first bytes have these for their first.
static int can_be_deep(uint64_t key, const uint32_t *at_home) {
    memset(wanted, 0, sizeof wanted);
    for (int turn = 0; turn < TURNS; turn++) {
        key = mix(key);
        uint32_t home = home_of(key);
        if (wanted[home] || at_home[home] < KEYS_A_HOME)
            return 0;
        wanted[home] = KEYS_A_HOME;
    }
    return 1;
}

static int print_deep(void) {
    static uint32_t at_home[MOST_HOMES];
    // Neither byte is 0, so that a key comes from no other pair.
    for (uint32_t pair = 257; pair < 65536; pair++)
        at_home[first_home(key_of_bytes(pair))] += (pair & 255) != 0;
    uint32_t deep = 257;
    // The deep key may be one of those of its own first home, so that home needs another.
    while (deep < 65536 && !((deep & 255) && can_be_deep(key_of_bytes(deep), at_home) &&
                             at_home[first_home(key_of_bytes(deep))] > KEYS_A_HOME))
        deep++;
    if (deep == 65536)
        return fails("no deep key");
    for (uint32_t pair = 257; pair < 65536; pair++) {
        uint64_t key = key_of_bytes(pair);
        if (pair == deep || !(pair & 255) || !wanted[first_home(key)])
            continue;
        wanted[first_home(key)]--;
        print_key(key, LIGHT);
    }
    print_key(key_of_bytes(deep), LIGHT);
    return 0;
}

// Prints heavy pairs that fill the wanted homes, from this pair on. Answers the first pair that wasn't tried.
static uint64_t print_fills(uint64_t pair) {
    uint32_t left = 0;
    for (uint32_t home = 0; home < homes; home++)
        left += wanted[home];
    for (; left; pair++) {
        uint64_t key = key_of_two_bytes(pair);
        uint32_t home = first_home(key);
        if (held[home] == wanted[home])
            continue;
        held[home]++;
        left--;
        print_key(key, HEAVY);
    }
    return pair;
}

// Prints these pairs in turn.
static void print_in_turn(const uint64_t *keys, uint32_t count, uint32_t frames) {
    for (uint32_t frame = 0; frame < frames / shards; frame++)
        print_key(keys[frame % count], LIGHT);
}

static int is_turned_away(uint64_t key, int turns) {
    for (int turn = 0; turn < turns; turn++) {
        key = mix(key);
        if (!held[home_of(key)])
            return 0;
    }
    return 1;
}

// Heavy pairs, as many as three quarters of a table, and then in turn so many pairs which so many full homes turn away.
// The full homes are strewn over all.
static int print_turned(uint32_t count, int turns, uint32_t frames) {
    static uint64_t keys[MOST_CAPACITY];
    uint32_t full = capacity * 3 / 4 / KEYS_A_HOME, found = 0;
    for (uint32_t place = 0; place < full; place++)
        wanted[(uint64_t)place * homes / full] = KEYS_A_HOME;
    for (uint64_t pair = print_fills(0); pair >> 32 == 0 && found < count; pair++) {
        uint64_t key = key_of_two_bytes(pair);
        if (is_turned_away(key, turns))
            keys[found++] = key;
    }
    if (found < count)
        return fails("too few pairs are turned away");
    print_in_turn(keys, count, frames);
    return 0;
}

// Wants all homes of the key full, if no more than `most` of them aren't wanted so far. Answers how many these are.
static uint32_t want_homes(uint64_t key, uint32_t most) {
    uint32_t others = 0, other[TURNS];
    for (int turn = 0; turn < TURNS && others <= most; turn++) {
        key = mix(key);
        if (wanted[home_of(key)])
            continue;
        other[others++] = home_of(key);
        wanted[home_of(key)] = KEYS_A_HOME;
    }
    if (others > most)
        for (uint32_t place = 0; place < others; place++)
            wanted[other[place]] = 0;
    return others;
}

// Heavy pairs, which leave a slot in 32, and then in turn those that all their homes turn away. The first of these
// bring the homes that are to be full, and the others have most of theirs among these.
static int print_listed(uint32_t frames) {
    static uint64_t keys[MOST_CAPACITY];
    uint32_t most = (capacity - capacity / 32) / KEYS_A_HOME, full = 0, found = 0;
    // All homes of the first pair are one.
    uint64_t pair = 1;
    for (; full + NEW_HOMES <= most; pair++) {
        uint64_t key = key_of_two_bytes(pair);
        uint32_t few = full < most / 2 ? TURNS : NEW_HOMES, others = want_homes(key, few);
        if (others > few)
            continue;
        keys[found++] = key;
        full += others;
    }
    print_fills(pair);
    print_in_turn(keys, found, frames);
    return 0;
}

// Pairs of which one home after another has a key more than it keeps, and then new ones.
static int print_marked(uint32_t frames) {
    static uint64_t keys[MOST_HOMES][KEYS_A_HOME + 1];
    uint32_t left = homes * (KEYS_A_HOME + 1);
    uint64_t pair = 0;
    for (; left; pair++) {
        uint64_t key = key_of_two_bytes(pair);
        uint32_t home = first_home(key);
        if (held[home] > KEYS_A_HOME)
            continue;
        keys[home][held[home]++] = key;
        left--;
    }
    for (uint32_t home = 0; home < homes; home++)
        for (int place = 0; place <= KEYS_A_HOME; place++)
            print_key(keys[home][place], LIGHT);
    for (uint32_t frame = 0; frame < frames / shards; frame++)
        print_key(key_of_two_bytes(pair++), LIGHT);
    return 0;
}

static int print_even(uint32_t frames, uint32_t length) {
    for (uint32_t frame = 0; frame < frames / shards; frame++)
        print_key(key_of_two_bytes(frame % (2 * capacity) * 0x9e3779b1), length + frame % 4);
    return 0;
}

static uint32_t audit_hash(uint64_t key) {
    unsigned __int128 product = (unsigned __int128)(key ^ 0x243f6a8885a308d3) * (0x9e3779b97f4a7c15 ^ 16);
    uint64_t folded = (uint64_t)product ^ (uint64_t)(product >> 64);
    return folded ^ folded >> 32;
}

static int print_met(uint32_t bits, uint32_t count) {
    uint32_t low = ((uint32_t)1 << bits) - 1;
    for (uint64_t pair = 0; pair >> 32 == 0 && count; pair++) {
        uint64_t key = key_of_two_bytes(pair);
        if (audit_hash(key) & low)
            continue;
        print_key(key, LIGHT);
        count--;
    }
    return count ? fails("there are fewer pairs") : 0;
}

int main(int count, char **words) {
    uint32_t numbers[4] = {0};
    for (int i = 0; i < 4 && i + 2 < count; i++)
        numbers[i] = strtoul(words[i + 2], 0, 10);
    const char *kind = count > 1 ? words[1] : "";
    shards = 1;
    if (count == 4 && !strcmp(kind, "met"))
        return print_met(numbers[0], numbers[1]);
    capacity = numbers[0];
    homes = HOMES_A_KEY * capacity;
    shards = numbers[1];
    if (capacity < 64 || capacity > MOST_CAPACITY || !shards)
        return fails("no such tables");
    if (count == 4 && !strcmp(kind, "deep"))
        return print_deep();
    if (count == 5 && !strcmp(kind, "filled"))
        return print_turned(capacity / 4, FILLED_TURNS, numbers[2]);
    if (count == 5 && !strcmp(kind, "turned"))
        return print_turned(capacity / 2, TURNED_TURNS, numbers[2]);
    if (count == 5 && !strcmp(kind, "listed"))
        return print_listed(numbers[2]);
    if (count == 5 && !strcmp(kind, "marked"))
        return print_marked(numbers[2]);
    if (count == 6 && !strcmp(kind, "even"))
        return print_even(numbers[2], numbers[3]);
    return fails("which keys?");
}
