// What `sites` writes over the stores of several sites, and how it ends, for `fuzz.c`: by the rules of docs/FORMATS.md, from
// the bytes of the stores alone. `plain_sites.py` says the same in Python.

#define MOST_SITES 8
#define TOO_HEAVY ((uint64_t)1 << 56)

// The tables of all sites, for each shard and node. A table is its total, how many entries it has, and these.
static struct {
    const unsigned char *at[MOST_SITES * MOST_SHARDS][MOST_NODES];
    unsigned shards;
} site_tables;

static size_t entries_of(const unsigned char *table) {
    return big(table + 8);
}

static uint64_t key_in(const unsigned char *table, size_t place) {
    return big_number(table + 12 + 24 * place);
}

static uint64_t count_in(const unsigned char *table, size_t place) {
    return big_number(table + 12 + 24 * place + 8);
}

static uint64_t error_in(const unsigned char *table, size_t place) {
    return big_number(table + 12 + 24 * place + 16);
}

// The place of a key in a table, or the number of its entries.
static size_t place_in(const unsigned char *table, uint64_t key) {
    size_t place = 0;
    while (place < entries_of(table) && key_in(table, place) != key)
        place++;
    return place;
}

static void add_tables(const unsigned char *body, const struct settings *settings) {
    const unsigned char *at = body + BODY_FRONT;
    for (unsigned shard = 0; shard < settings->shards; shard++) {
        at += 8;
        for (unsigned node = 0; node < node_count; node++) {
            site_tables.at[site_tables.shards][node] = at;
            at += 12 + 24 * entries_of(at);
        }
        site_tables.shards++;
    }
}

// The interval of a prefix: a table that doesn't have it may have missed as much as its least count, if it is full.
static void find_interval(struct line *prefix, size_t capacity) {
    prefix->low = prefix->high = 0;
    for (unsigned shard = 0; shard < site_tables.shards; shard++) {
        const unsigned char *table = site_tables.at[shard][prefix->node];
        size_t place = place_in(table, prefix->key), number = entries_of(table);
        if (place < number) {
            prefix->low += count_in(table, place) - error_in(table, place);
            prefix->high += count_in(table, place);
        } else if (number == capacity)
            prefix->high += count_in(table, 0);
    }
}

static int is_in_earlier_table(const struct line *prefix, unsigned shard) {
    for (unsigned earlier = 0; earlier < shard; earlier++)
        if (place_in(site_tables.at[earlier][prefix->node], prefix->key) < entries_of(site_tables.at[earlier][prefix->node]))
            return 1;
    return 0;
}

static int in_order(const void *one, const void *other) {
    const struct line *x = one, *y = other;
    return compare((struct place){x->key, x->node}, (struct place){y->key, y->node});
}

// The prefixes that some table has and that may weigh as much as the threshold, in the order of a report.
static struct line *find_candidates(uint64_t threshold, size_t capacity, size_t *number) {
    size_t room = 0;
    for (unsigned shard = 0; shard < site_tables.shards; shard++)
        for (unsigned node = 0; node < node_count; node++)
            room += entries_of(site_tables.at[shard][node]);
    struct line *candidates = zeros(room, sizeof *candidates);
    *number = 0;
    for (unsigned shard = 0; shard < site_tables.shards; shard++)
        for (unsigned node = 0; node < node_count; node++)
            for (size_t place = 0; place < entries_of(site_tables.at[shard][node]); place++) {
                struct line prefix = {.key = key_in(site_tables.at[shard][node], place), .node = node};
                if (is_in_earlier_table(&prefix, shard))
                    continue;
                find_interval(&prefix, capacity);
                if (prefix.high >= threshold)
                    candidates[(*number)++] = prefix;
            }
    qsort(candidates, *number, sizeof *candidates, in_order);
    return candidates;
}

// What the lines so far leave of a prefix at most.
static __int128 bound_of(const struct report *report, const struct line *prefix, size_t capacity) {
    struct line *closest = zeros(report->count, sizeof *closest), lowest;
    size_t tops = find_closest(report, prefix, closest);
    __int128 left = prefix->high;
    for (size_t i = 0; i < tops; i++) {
        left -= closest[i].low;
        for (size_t j = i + 1; j < tops; j++)
            if (is_kept(closest, tops, i, j, &lowest)) {
                find_interval(&lowest, capacity);
                left += lowest.high;
            }
    }
    free(closest);
    return left;
}

static void select_lines(struct report *report, size_t capacity) {
    size_t number;
    struct line *candidates = find_candidates(report->threshold, capacity, &number);
    report->lines = zeros(number, sizeof *report->lines);
    report->count = 0;
    for (size_t i = 0; i < number; i++)
        if (bound_of(report, &candidates[i], capacity) >= report->threshold)
            report->lines[report->count++] = candidates[i];
    free(candidates);
}

// What was read of the store of a site.
struct site {
    struct body bodies[2], *newest;
    uint64_t total;
};

static void put_sites(struct bytes *text, const struct site *sites, unsigned number, const struct settings *settings,
    const struct report *report) {
    static const uint64_t nothing[MOST_SHARDS];
    put(text, "sites %u\n", number);
    for (unsigned site = 0; site < number; site++) {
        put(text, "site %u", site + 1);
        put_positions(text, "", sites[site].newest ? sites[site].newest->positions : nothing, settings->shards);
    }
    put(text, "total %llu\nthreshold %llu\n", (unsigned long long)report->total, (unsigned long long)report->threshold);
    for (const struct line *line = report->lines; line < report->lines + report->count; line++) {
        put(text, "line");
        put_prefix(text, line->key, line->node);
        put(text, " %llu %llu\n", (unsigned long long)line->low, (unsigned long long)line->high);
    }
    put(text, "end\n");
}

// Reads the store of a site. Answers whether it is taken; if not, the run ends with that.
static int is_taken(struct site *site, unsigned number, const struct bytes *image, const struct settings *settings,
    struct ending *ending) {
    struct header stored;
    *site = (struct site){0};
    struct opening read = read_store(image, settings, &stored, site->bodies);
    if (read.rule) {
        put(&ending->line, "hhh: site %u: ", number);
        if (read.status == 8)
            put(&ending->line, "damaged: slot %u\n", read.slot);
        else
            put(&ending->line, "%s\n", read.rule);
        end_with(ending, read.status, read.rule);
        return 0;
    }
    if (read.slot < 2) {
        site->newest = &site->bodies[read.slot];
        for (unsigned shard = 0; shard < settings->shards; shard++)
            site->total += site->newest->totals[shard];
        add_tables(site->newest->digest - 16, settings);
    }
    return 1;
}

// The first two sites that counted something of records with one digest. Answers whether there are two.
static int find_same(const struct site *sites, unsigned number, unsigned *first, unsigned *second) {
    for (*first = 0; *first < number; ++*first)
        for (*second = *first + 1; *second < number; ++*second) {
            const struct site *one = &sites[*first], *other = &sites[*second];
            if (one->total && other->total && !memcmp(one->newest->digest, other->newest->digest, 32))
                return 1;
        }
    return 0;
}

// The bits of the settings have to count.
static void predict_sites(
    const struct bytes *images, unsigned number, const struct settings *settings, struct ending *ending) {
    static struct site sites[MOST_SITES];
    struct report report = {0};
    unsigned first, second;
    site_tables.shards = 0;
    for (unsigned site = 0; site < number; site++) {
        if (!is_taken(&sites[site], site + 1, &images[site], settings, ending))
            return;
        report.total += sites[site].total;
    }
    if (find_same(sites, number, &first, &second)) {
        put(&ending->line, "hhh: sites %u and %u are of one capture\n", first + 1, second + 1);
        end_with(ending, 14, "of one capture");
    } else if (report.total >= TOO_HEAVY) {
        put(&ending->line, "hhh: too heavy\n");
        end_with(ending, 15, "too heavy");
    } else {
        report.threshold = threshold_of(report.total, settings->share);
        select_lines(&report, settings->capacity);
        put_sites(&ending->output, sites, number, settings, &report);
        end_with(ending, 0, report.count ? "reported, with lines" : "reported, without a line");
        free(report.lines);
    }
}
