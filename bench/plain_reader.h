// A plain reader beside the program's own, for `fuzz.c`: of a capture, of the text of a session and of the image of a
// store, each as bytes in memory. It goes over them by the rules of docs/FORMATS.md, without any cleverness, and
// predicts how a run must end: the status, what is written, and the rule by which it is so.
#include "capture_reader.h"
#include "lines.h"
#include <stdarg.h>

#define LONGEST_TEXT 268435456
#define TABLE_OF_WEIGH 64
#define FRONT 64
#define BODY_FRONT 48
#define LAST_SEQUENCE ((uint64_t)1 << 62)
#define MOST_SEVERITY 7

// How a run must end. The output of a report over a store is that without its lines of prefixes.
struct ending {
    int status;
    struct bytes output, line;
    const char *rule;
};

struct settings {
    unsigned shards, capacity, share;
    int by_packets, deal;
    unsigned bits;
};

enum { ROUND, SOURCE, FREE };

static const char *const weighings[] = {"bytes", "packets"}, *const dealings[] = {"round", "source", "free"};

static void put(struct bytes *text, const char *form, ...) {
    size_t room = 100;
    for (;;) {
        va_list values;
        make_room(text, text->length + room);
        va_start(values, form);
        size_t length = vsnprintf((char *)text->at + text->length, room, form, values);
        va_end(values);
        if (length < room) {
            text->length += length;
            return;
        }
        room = length + 1;
    }
}

static void put_number(struct bytes *text, uint64_t number) {
    put(text, " %llu", (unsigned long long)number);
}

static void put_side(struct bytes *text, uint32_t address, unsigned units) {
    put(text, " %u.%u.%u.%u/%u", address >> 24, address >> 16 & 255, address >> 8 & 255, address & 255, grain * units);
}

static void put_prefix(struct bytes *text, uint64_t key, unsigned node) {
    put_side(text, key >> 32, source_units(node));
    put_side(text, key, destination_units(node));
}

static void end_with(struct ending *ending, int status, const char *rule) {
    ending->status = status;
    ending->rule = rule;
}

// The capture.

// Reads a capture. Answers whether it is taken; if not, the run ends with that.
static int is_read(const struct bytes *capture, int with_front, struct ending *ending) {
    size_t offset;
    const char *fault = read_capture(capture, with_front, &offset);
    if (!fault)
        return 1;
    put(&ending->line, "hhh: bad capture: %s at %zu\n", fault, offset);
    end_with(ending, 3, fault);
    return 0;
}

static void count_packets(void) {
    for (size_t i = 0; i < count; i++)
        records[i].weight = 1;
}

// `weigh`: a table of Space-Saving (Metwally et al. 2005), counts rising.

struct entry {
    uint64_t key, count, error;
};

static void insert_entry(struct entry *table, size_t *length, struct entry entry) {
    size_t place = (*length)++;
    for (; place && table[place - 1].count > entry.count; place--)
        table[place] = table[place - 1];
    table[place] = entry;
}

static struct entry remove_entry(struct entry *table, size_t *length, size_t place) {
    struct entry entry = table[place];
    memmove(table + place, table + place + 1, (--*length - place) * sizeof *table);
    return entry;
}

static size_t place_of_key(const struct entry *table, size_t length, uint64_t key) {
    size_t place = 0;
    while (place < length && table[place].key != key)
        place++;
    return place;
}

static void add_weight(struct entry *table, size_t *length, uint64_t key, uint64_t weight) {
    struct entry entry = {key, 0, 0};
    size_t place = place_of_key(table, *length, key);
    if (place < *length)
        entry = remove_entry(table, length, place);
    else if (*length == TABLE_OF_WEIGH)
        entry.count = entry.error = remove_entry(table, length, 0).count;
    entry.count += weight;
    insert_entry(table, length, entry);
}

static void predict_weigh(const struct bytes *capture, int with_front, int by_packets, uint64_t key, unsigned node,
    struct ending *ending) {
    struct entry table[TABLE_OF_WEIGH];
    size_t length = 0;
    if (!is_read(capture, with_front, ending))
        return;
    if (by_packets)
        count_packets();
    for (size_t i = 0; i < count; i++)
        add_weight(table, &length, key_of(i, node), records[i].weight);
    size_t place = place_of_key(table, length, key);
    int has_entry = place < length;
    uint64_t high = has_entry ? table[place].count : length == TABLE_OF_WEIGH ? table[0].count : 0;
    uint64_t low = has_entry ? high - table[place].error : 0;
    put(&ending->output, "low %llu\nhigh %llu\ntotal %llu\n", (unsigned long long)low, (unsigned long long)high,
        (unsigned long long)total_weight());
    end_with(ending, 0, is_cut ? "taken up to a cut" : "taken");
}

// Dealing: for each record its shard and its place in that shard's list.

static struct {
    unsigned *shard;
    uint64_t *place, ends[MOST_SHARDS];
    size_t room;
} dealt;

static unsigned number_to_deal_by(size_t i, int deal) {
    return deal == ROUND ? i : deal == SOURCE ? records[i].source : records[i].source ^ records[i].destination;
}

static void deal_records(const struct settings *settings) {
    if (settings->by_packets)
        count_packets();
    if (dealt.room < count) {
        free(dealt.shard);
        free(dealt.place);
        dealt.room = 2 * count;
        dealt.shard = zeros(dealt.room, sizeof *dealt.shard);
        dealt.place = zeros(dealt.room, sizeof *dealt.place);
    }
    memset(dealt.ends, 0, sizeof dealt.ends);
    for (size_t i = 0; i < count; i++) {
        dealt.shard[i] = number_to_deal_by(i, settings->deal) % settings->shards;
        dealt.place[i] = dealt.ends[dealt.shard[i]]++;
    }
}

static int is_before(size_t i, const uint64_t *positions) {
    return dealt.place[i] < positions[dealt.shard[i]];
}

static void put_positions(struct bytes *text, const char *word, const uint64_t *positions, unsigned shards) {
    put(text, "%s", word);
    for (unsigned shard = 0; shard < shards; shard++)
        put_number(text, positions[shard]);
    put(text, "\n");
}

// The text of a session.

enum stage { NOTHING, OPENED, BEGUN, PLACED, WEIGHED, LISTING, DONE, SAVED, COUNTED, SKIPPED, CUT, ENDED };

// The positions of a line `saved`, if there is one after a report.
struct saved {
    int is_there;
    uint64_t positions[MOST_SHARDS];
};

struct session {
    enum stage stage;
    unsigned shards;
    uint64_t opened[MOST_SHARDS], frames, skipped[3], cut;
    int has_cut;
    struct report *reports;
    struct saved *saved;
    struct line *lines;
    size_t count, line_count;
};

// What is left of a line, without its line feed.
struct rest {
    const unsigned char *at, *end;
};

static int take(struct rest *rest, const char *word) {
    size_t length = strlen(word);
    if ((size_t)(rest->end - rest->at) < length || memcmp(rest->at, word, length))
        return 0;
    rest->at += length;
    return 1;
}

static int is_at_end(const struct rest *rest) {
    return rest->at == rest->end;
}

static int is_at_digit(const struct rest *rest) {
    return !is_at_end(rest) && *rest->at >= '0' && *rest->at <= '9';
}

static int take_number(struct rest *rest, uint64_t most, uint64_t *number) {
    const unsigned char *begin = rest->at;
    unsigned __int128 value = 0;
    for (; is_at_digit(rest) && value <= most; rest->at++)
        value = 10 * value + (*rest->at - '0');
    *number = value;
    return rest->at > begin && value <= most && (*begin != '0' || rest->at == begin + 1);
}

static int take_side(struct rest *rest, uint32_t *address, unsigned *units) {
    uint64_t number;
    *address = 0;
    for (int part = 0; part < 4; part++) {
        if ((part && !take(rest, ".")) || !take_number(rest, 255, &number))
            return 0;
        *address = *address << 8 | number;
    }
    if (!take(rest, "/") || !take_number(rest, 32, &number) || number % grain)
        return 0;
    *units = number / grain;
    return kept(*address, *units) == *address;
}

static int take_positions(struct rest *rest, uint64_t *positions, unsigned *shards) {
    *shards = 0;
    while (*shards < MOST_SHARDS && take(rest, " "))
        if (!take_number(rest, MOST_FRAMES, &positions[(*shards)++]))
            return 0;
    return *shards > 0;
}

static int take_same_positions(struct rest *rest, const struct session *session, uint64_t *positions) {
    unsigned shards;
    return take_positions(rest, positions, &shards) && shards == session->shards;
}

static struct report *last_report(struct session *session) {
    return &session->reports[session->count - 1];
}

static int is_earlier(const struct line *one, const struct line *other) {
    return compare((struct place){one->key, one->node}, (struct place){other->key, other->node}) < 0;
}

static int take_line(struct rest *rest, struct session *session) {
    struct line line = {0};
    uint32_t source, destination;
    unsigned units, further_units;
    if (!take_side(rest, &source, &units) || !take(rest, " "))
        return 0;
    if (!take_side(rest, &destination, &further_units))
        return 0;
    if (!take(rest, " ") || !take_number(rest, UINT64_MAX, &line.low))
        return 0;
    if (!take(rest, " ") || !take_number(rest, UINT64_MAX, &line.high) || line.low > line.high)
        return 0;
    line.key = (uint64_t)source << 32 | destination;
    line.node = sides * units + further_units;
    struct report *report = last_report(session);
    if (report->count && !is_earlier(&report->lines[report->count - 1], &line))
        return 0;
    report->lines[report->count++] = line;
    session->line_count++;
    return 1;
}

static int begin_report(struct session *session) {
    struct report report = {.lines = session->lines + session->line_count, .shards = session->shards};
    session->reports[session->count] = report;
    session->saved[session->count++].is_there = 0;
    return BEGUN;
}

// The stage to which a line leads that may come after a report, or 0.
static int after_report(struct rest *rest, struct session *session) {
    if (take(rest, "report"))
        return begin_report(session);
    return take(rest, "frames ") && take_number(rest, UINT64_MAX, &session->frames) ? COUNTED : 0;
}

static int after_done(struct rest *rest, struct session *session) {
    struct saved *saved = &session->saved[session->count - 1];
    if (!take(rest, "saved"))
        return after_report(rest, session);
    saved->is_there = 1;
    return take_same_positions(rest, session, saved->positions) ? SAVED : 0;
}

static int take_skipped(struct rest *rest, struct session *session) {
    if (!take(rest, "skipped"))
        return 0;
    for (int reason = 0; reason < 3; reason++)
        if (!take(rest, " ") || !take_number(rest, UINT64_MAX, &session->skipped[reason]))
            return 0;
    return 1;
}

static int after_skipped(struct rest *rest, struct session *session) {
    if (take(rest, "end"))
        return ENDED;
    session->has_cut = 1;
    return take(rest, "cut ") && take_number(rest, UINT64_MAX, &session->cut) ? CUT : 0;
}

// The stage to which a line leads, or 0 where it may not come here.
static int next_stage(struct rest *rest, struct session *session) {
    uint64_t *threshold = 0;
    switch (session->stage) {
    case NOTHING:
        return take(rest, "opened") && take_positions(rest, session->opened, &session->shards) ? OPENED : 0;
    case OPENED:
        return take(rest, "report") ? begin_report(session) : 0;
    case BEGUN:
        return take(rest, "at") && take_same_positions(rest, session, last_report(session)->positions) ? PLACED : 0;
    case PLACED:
        return take(rest, "total ") && take_number(rest, UINT64_MAX, &last_report(session)->total) ? WEIGHED : 0;
    case WEIGHED:
        threshold = &last_report(session)->threshold;
        return take(rest, "threshold ") && take_number(rest, UINT64_MAX, threshold) && *threshold ? LISTING : 0;
    case LISTING:
        return take(rest, "done") ? DONE : take(rest, "line ") && take_line(rest, session) ? LISTING : 0;
    case DONE:
        return after_done(rest, session);
    case SAVED:
        return after_report(rest, session);
    case COUNTED:
        return take_skipped(rest, session) ? SKIPPED : 0;
    case SKIPPED:
        return after_skipped(rest, session);
    case CUT:
        return take(rest, "end") ? ENDED : 0;
    default:
        return 0;
    }
}

static void free_session(struct session *session) {
    free(session->reports);
    free(session->saved);
    free(session->lines);
}

// Reads a text that isn't too long. Answers 0, or the number of the line that is wrong or, where no line is, missing.
static size_t read_session(const struct bytes *text, struct session *session, int *is_missing) {
    const unsigned char *end = text->at + text->length;
    struct rest rest = {text->at, 0};
    size_t number = 1, most = 1;
    for (size_t i = 0; i < text->length; i++)
        most += text->at[i] == '\n';
    memset(session, 0, sizeof *session);
    session->reports = zeros(most, sizeof *session->reports);
    session->saved = zeros(most, sizeof *session->saved);
    session->lines = zeros(most, sizeof *session->lines);
    *is_missing = 0;
    while (rest.at < end) {
        rest.end = memchr(rest.at, '\n', end - rest.at);
        if (session->stage == ENDED)
            return number;
        if (!rest.end)
            break;
        session->stage = next_stage(&rest, session);
        if (!session->stage || !is_at_end(&rest))
            return number;
        rest.at++;
        number++;
    }
    *is_missing = session->stage != ENDED;
    return *is_missing ? number : 0;
}

static void put_session(struct bytes *text, const struct session *session) {
    put_positions(text, "opened", session->opened, session->shards);
    for (const struct report *report = session->reports; report < session->reports + session->count; report++) {
        const struct saved *saved = &session->saved[report - session->reports];
        put(text, "report\n");
        put_positions(text, "at", report->positions, session->shards);
        put(text, "total %llu\n", (unsigned long long)report->total);
        put(text, "threshold %llu\n", (unsigned long long)report->threshold);
        for (const struct line *line = report->lines; line < report->lines + report->count; line++) {
            put(text, "line");
            put_prefix(text, line->key, line->node);
            put(text, " %llu %llu\n", (unsigned long long)line->low, (unsigned long long)line->high);
        }
        put(text, "done\n");
        if (saved->is_there)
            put_positions(text, "saved", saved->positions, session->shards);
    }
    put(text, "frames %llu\n", (unsigned long long)session->frames);
    put_positions(text, "skipped", session->skipped, 3);
    if (session->has_cut)
        put(text, "cut %llu\n", (unsigned long long)session->cut);
    put(text, "end\n");
}

// The audit, over the records as they are dealt.

static uint64_t weight_of(const struct report *report, const struct line *prefix) {
    uint64_t weight = 0;
    for (size_t i = 0; i < count; i++)
        if (is_before(i, report->positions) && key_of(i, prefix->node) == prefix->key)
            weight += records[i].weight;
    return weight;
}

// Of what a prefix weighs, that of the records which no line strictly under it covers.
static uint64_t left_of(const struct report *report, const struct line *prefix) {
    uint64_t left = 0;
    for (size_t i = 0; i < count; i++) {
        if (!is_before(i, report->positions) || key_of(i, prefix->node) != prefix->key)
            continue;
        int is_covered = 0;
        for (const struct line *line = report->lines; !is_covered && line < report->lines + report->count; line++)
            is_covered = strictly_under(line, prefix) && key_of(i, line->node) == line->key;
        left += is_covered ? 0 : records[i].weight;
    }
    return left;
}

static int has_line(const struct report *report, const struct line *prefix) {
    for (size_t i = 0; i < report->count; i++)
        if (same(&report->lines[i], prefix))
            return 1;
    return 0;
}

static int is_first_with_key(const struct report *report, size_t i, unsigned node) {
    for (size_t j = 0; j < i; j++)
        if (is_before(j, report->positions) && key_of(j, node) == key_of(i, node))
            return 0;
    return is_before(i, report->positions);
}

// The first prefix that is left out. Answers whether there is one.
static int find_left_out(const struct report *report, struct line *first) {
    int found = 0;
    for (unsigned node = 0; node < node_count; node++)
        for (size_t i = 0; i < count; i++) {
            struct line prefix = {.key = key_of(i, node), .node = node};
            if (!is_first_with_key(report, i, node) || has_line(report, &prefix))
                continue;
            if (found && !is_earlier(&prefix, first))
                continue;
            prefix.left = left_of(report, &prefix);
            if (prefix.left >= report->threshold) {
                *first = prefix;
                found = 1;
            }
        }
    return found;
}

static int has_bad_positions(const struct report *report, const struct settings *settings) {
    if (report->shards != settings->shards)
        return 1;
    for (unsigned shard = 0; shard < report->shards; shard++)
        if (report->positions[shard] > dealt.ends[shard])
            return 1;
    return 0;
}

static uint64_t total_of(const struct report *report) {
    return weight_of(report, &(struct line){.key = 0, .node = 0});
}

static int is_bad_interval(const struct report *report, const struct line *line, const struct settings *settings) {
    (void)report, (void)settings;
    return line->weight < line->low || line->weight > line->high;
}

static int is_too_wide(const struct report *report, const struct line *line, const struct settings *settings) {
    return (unsigned __int128)(line->high - line->low) * settings->capacity > report->total;
}

static int is_below_threshold(const struct report *report, const struct line *line, const struct settings *settings) {
    (void)settings;
    return line->high < report->threshold;
}

static int is_not_justified(const struct report *report, const struct line *line, const struct settings *settings) {
    return !is_justified(report, line, settings->capacity);
}

static const struct {
    const char *name;
    int (*fails)(const struct report *, const struct line *, const struct settings *);
} tests_of_lines[] = {
    {"bad interval", is_bad_interval}, {"too wide", is_too_wide}, {"below threshold", is_below_threshold},
    {"not justified", is_not_justified},
};

// The test that the report fails first, or none; what the verdict says besides is put after its name.
static const char *test_report(struct report *report, const struct settings *settings, struct bytes *besides) {
    struct line first;
    if (has_bad_positions(report, settings))
        return "bad positions";
    if (report->total != total_of(report))
        return "bad total";
    if (report->threshold != threshold_of(report->total, settings->share))
        return "bad threshold";
    for (size_t i = 0; i < report->count; i++) {
        report->lines[i].weight = weight_of(report, &report->lines[i]);
        report->lines[i].left = left_of(report, &report->lines[i]);
    }
    for (size_t test = 0; test < sizeof tests_of_lines / sizeof *tests_of_lines; test++)
        for (size_t i = 0; i < report->count; i++)
            if (tests_of_lines[test].fails(report, &report->lines[i], settings)) {
                put(besides, " in line %zu", i + 1);
                return tests_of_lines[test].name;
            }
    if (!find_left_out(report, &first))
        return 0;
    put_prefix(besides, first.key, first.node);
    put_number(besides, first.left);
    return "left out";
}

static void audit_session(struct session *session, const struct settings *settings, struct ending *ending) {
    static struct bytes besides;
    for (size_t i = 0; i < session->count; i++) {
        besides.length = 0;
        const char *test = test_report(&session->reports[i], settings, &besides);
        if (test) {
            put(&ending->output, "report %zu: %s", i + 1, test);
            append(&ending->output, besides.at, besides.length);
            put(&ending->output, "\n");
            put(&ending->line, "hhh: audit: no\n");
            end_with(ending, 11, test);
            return;
        }
    }
    put(&ending->output, "good %zu\n", session->count);
    end_with(ending, 0, "good");
}

// Reads a text. Answers whether it is that of a session; if not, the run ends with that.
static int is_session(const struct bytes *text, struct session *session, struct ending *ending) {
    int is_missing;
    if (text->length > LONGEST_TEXT) {
        memset(session, 0, sizeof *session);
        put(&ending->line, "hhh: bad report: too long\n");
        end_with(ending, 12, "too long");
        return 0;
    }
    size_t line = read_session(text, session, &is_missing);
    if (line) {
        put(&ending->line, "hhh: bad report: %s %zu\n", is_missing ? "no end at line" : "line", line);
        end_with(ending, 12, is_missing ? "no end" : "bad line");
    }
    return !line;
}

// The records of the capture have to be read and dealt.
static void predict_audit(const struct bytes *text, const struct settings *settings, struct ending *ending) {
    struct session session;
    if (is_session(text, &session, ending))
        audit_session(&session, settings, ending);
    free_session(&session);
}

// The alarms of `watch`.

// The prefix under which lines are watched, and the least low that raises an alarm.
struct rule {
    uint64_t key, limit;
    unsigned node;
};

static int has_high_low(const struct report *report, const struct line *prefix, uint64_t limit) {
    for (size_t i = 0; i < report->count; i++)
        if (same(&report->lines[i], prefix) && report->lines[i].low >= limit)
            return 1;
    return 0;
}

// Whether a line of report `number`, from 0, raises an alarm.
static int raises_alarm(const struct session *session, size_t number, const struct line *line, const struct rule *rule) {
    int is_first = 1;
    for (size_t i = 0; is_first && i < number; i++)
        is_first = !has_high_low(&session->reports[i], line, rule->limit);
    return is_first && line->low >= rule->limit && begins(line->key, line->node, rule->key, rule->node);
}

static void predict_watch(const struct bytes *text, const struct rule *rule, struct ending *ending) {
    struct session session;
    size_t alarms = 0;
    if (is_session(text, &session, ending)) {
        for (size_t number = 0; number < session.count; number++) {
            const struct report *report = &session.reports[number];
            for (const struct line *line = report->lines; line < report->lines + report->count; line++)
                if (raises_alarm(&session, number, line, rule)) {
                    uint64_t severity = line->low / rule->limit;
                    put(&ending->output, "alarm %zu", number + 1);
                    put_prefix(&ending->output, line->key, line->node);
                    put_number(&ending->output, line->low);
                    put_number(&ending->output, severity < MOST_SEVERITY ? severity : MOST_SEVERITY);
                    put(&ending->output, "\n");
                    alarms++;
                }
        }
        put(&ending->output, "alarms %zu\nend\n", alarms);
        end_with(ending, 0, alarms ? "alarms" : "no alarm");
    }
    free_session(&session);
}

// SHA-256 (FIPS 180-4).

static const uint32_t round_numbers[64] = {
    0x428a2f98, 0x71374491, 0xb5c0fbcf, 0xe9b5dba5, 0x3956c25b, 0x59f111f1, 0x923f82a4, 0xab1c5ed5,
    0xd807aa98, 0x12835b01, 0x243185be, 0x550c7dc3, 0x72be5d74, 0x80deb1fe, 0x9bdc06a7, 0xc19bf174,
    0xe49b69c1, 0xefbe4786, 0x0fc19dc6, 0x240ca1cc, 0x2de92c6f, 0x4a7484aa, 0x5cb0a9dc, 0x76f988da,
    0x983e5152, 0xa831c66d, 0xb00327c8, 0xbf597fc7, 0xc6e00bf3, 0xd5a79147, 0x06ca6351, 0x14292967,
    0x27b70a85, 0x2e1b2138, 0x4d2c6dfc, 0x53380d13, 0x650a7354, 0x766a0abb, 0x81c2c92e, 0x92722c85,
    0xa2bfe8a1, 0xa81a664b, 0xc24b8b70, 0xc76c51a3, 0xd192e819, 0xd6990624, 0xf40e3585, 0x106aa070,
    0x19a4c116, 0x1e376c08, 0x2748774c, 0x34b0bcb5, 0x391c0cb3, 0x4ed8aa4a, 0x5b9cca4f, 0x682e6ff3,
    0x748f82ee, 0x78a5636f, 0x84c87814, 0x8cc70208, 0x90befffa, 0xa4506ceb, 0xbef9a3f7, 0xc67178f2,
};

static uint32_t turned(uint32_t word, unsigned bits) {
    return word >> bits | word << (32 - bits);
}

static void hash_block(uint32_t *hash, const unsigned char *block) {
    uint32_t w[64], v[8];
    for (int i = 0; i < 16; i++)
        w[i] = big(block + 4 * i);
    for (int i = 16; i < 64; i++)
        w[i] = w[i - 16] + w[i - 7] + (turned(w[i - 15], 7) ^ turned(w[i - 15], 18) ^ w[i - 15] >> 3)
            + (turned(w[i - 2], 17) ^ turned(w[i - 2], 19) ^ w[i - 2] >> 10);
    memcpy(v, hash, sizeof v);
    for (int i = 0; i < 64; i++) {
        uint32_t one = v[7] + (turned(v[4], 6) ^ turned(v[4], 11) ^ turned(v[4], 25)) + ((v[4] & v[5]) ^ (~v[4] & v[6]))
            + round_numbers[i] + w[i];
        uint32_t two = (turned(v[0], 2) ^ turned(v[0], 13) ^ turned(v[0], 22))
            + ((v[0] & v[1]) ^ (v[0] & v[2]) ^ (v[1] & v[2]));
        memmove(v + 1, v, 7 * sizeof *v);
        v[4] += one;
        v[0] = one + two;
    }
    for (int i = 0; i < 8; i++)
        hash[i] += v[i];
}

static void put_big(unsigned char *at, uint64_t number, unsigned length) {
    for (unsigned i = 0; i < length; i++)
        at[i] = number >> 8 * (length - 1 - i);
}

static void hash_bytes(const struct bytes *bytes, unsigned char *digest) {
    uint32_t hash[8] = {
        0x6a09e667, 0xbb67ae85, 0x3c6ef372, 0xa54ff53a, 0x510e527f, 0x9b05688c, 0x1f83d9ab, 0x5be0cd19,
    };
    unsigned char last[128] = {0};
    size_t whole = bytes->length / 64 * 64, rest = bytes->length - whole, padded = rest < 56 ? 64 : 128;
    for (size_t at = 0; at < whole; at += 64)
        hash_block(hash, bytes->at + at);
    memcpy(last, bytes->at + whole, rest);
    last[rest] = 0x80;
    put_big(last + padded - 8, 8 * (uint64_t)bytes->length, 8);
    for (size_t at = 0; at < padded; at += 64)
        hash_block(hash, last + at);
    for (int i = 0; i < 8; i++)
        put_big(digest + 4 * i, hash[i], 4);
}

// The store.

static uint64_t big_number(const unsigned char *p) {
    return (uint64_t)big(p) << 32 | big(p + 4);
}

// What the header of a store spells.
struct header {
    unsigned version;
    struct settings settings;
};

// The bytes 2 to 63 of a store. Version 1 says nothing of the bits, which are 8.
static void spell_header(const struct header *header, unsigned char *spelled) {
    const struct settings *settings = &header->settings;
    memset(spelled, 0, FRONT - 2);
    memcpy(spelled, "HHHS", 4);
    spelled[4] = header->version;
    spelled[5] = settings->shards;
    put_big(spelled + 6, settings->capacity, 2);
    spelled[8] = settings->by_packets;
    spelled[9] = settings->deal;
    spelled[10] = header->version == 1 ? 0 : settings->bits;
}

static unsigned most_capacity(unsigned bits) {
    return bits == 4 ? 1024 : 4096;
}

// The header that these bytes spell. Answers whether they are one.
static int read_store_header(const unsigned char *spelled, struct header *header) {
    unsigned char again[FRONT - 2];
    unsigned version = spelled[4], bits = version == 1 ? 8 : spelled[10];
    struct settings *settings = &header->settings;
    *header = (struct header){version, {spelled[5], spelled[6] << 8 | spelled[7], 0, spelled[8], spelled[9], bits}};
    if ((version != 1 && version != 2) || (bits != 8 && bits != 4))
        return 0;
    if (settings->shards < 1 || settings->shards > MOST_SHARDS || settings->capacity < 2
        || settings->capacity > most_capacity(bits) || settings->by_packets > 1 || settings->deal > FREE)
        return 0;
    spell_header(header, again);
    return !memcmp(spelled, again, sizeof again);
}

static int have_same_store(const struct settings *one, const struct settings *other) {
    return one->shards == other->shards && one->capacity == other->capacity && one->by_packets == other->by_packets
        && one->deal == other->deal && one->bits == other->bits;
}

// The bits of the settings have to count.
static uint64_t span_of(const struct settings *settings) {
    return BODY_FRONT + (uint64_t)settings->shards * (8 + node_count * (12 + 24 * (uint64_t)settings->capacity));
}

static size_t place_of_body(const struct settings *settings, unsigned slot) {
    return FRONT + slot * span_of(settings);
}

// The digest of the records as they are dealt, in a store with this header.
static void digest_records(const struct header *header, unsigned char *digest) {
    static struct bytes hashed;
    unsigned char piece[FRONT];
    spell_header(header, piece);
    hashed.length = 0;
    append(&hashed, piece, FRONT - 2);
    for (unsigned shard = 0; shard < header->settings.shards; shard++) {
        put_big(piece, dealt.ends[shard], 4);
        append(&hashed, piece, 4);
        for (size_t i = 0; i < count; i++)
            if (dealt.shard[i] == shard) {
                put_big(piece, records[i].source, 4);
                put_big(piece + 4, records[i].destination, 4);
                put_big(piece + 8, records[i].weight, 4);
                append(&hashed, piece, 12);
            }
    }
    hash_bytes(&hashed, digest);
}

// A body that was read.
struct body {
    uint64_t sequence, positions[MOST_SHARDS], totals[MOST_SHARDS];
    const unsigned char *digest;
};

static int has_key_before(const unsigned char *entries, size_t place) {
    for (size_t i = 0; i < place; i++)
        if (big_number(entries + 24 * i) == big_number(entries + 24 * place))
            return 1;
    return 0;
}

// What is wrong with the entries of a table, or none.
static const char *fault_of_entries(
    const unsigned char *entries, size_t number, uint64_t capacity, uint64_t total, unsigned node) {
    unsigned __int128 sum = 0;
    uint64_t last = 0;
    for (size_t i = 0; i < number; i++) {
        uint64_t key = big_number(entries + 24 * i), weight = big_number(entries + 24 * i + 8);
        uint64_t error = big_number(entries + 24 * i + 16);
        if (weight < last)
            return "counts fall";
        if (has_key_before(entries, i))
            return "a key twice";
        if (error >= weight || (unsigned __int128)error * capacity > total)
            return "a great error";
        if (key & ~mask_of(node))
            return "a bit that isn't kept";
        last = weight;
        sum += weight;
    }
    return sum == total ? 0 : "counts don't add up";
}

// Reads the table at `at`, and leaves `at` behind it.
static const char *read_table(
    const unsigned char **at, const unsigned char *end, uint64_t capacity, unsigned node, uint64_t *total) {
    if (end - *at < 12)
        return "too short";
    *total = big_number(*at);
    uint64_t number = big(*at + 8);
    *at += 12;
    if (number > capacity)
        return "too many entries";
    if ((uint64_t)(end - *at) < 24 * number)
        return "too short";
    if (*total >> 56)
        return "a great total";
    *at += 24 * number;
    return fault_of_entries(*at - 24 * number, number, capacity, *total, node);
}

static const char *read_shard(
    const unsigned char **at, const unsigned char *end, uint64_t capacity, struct body *body, unsigned shard) {
    if (end - *at < 8)
        return "too short";
    body->positions[shard] = big_number(*at);
    *at += 8;
    for (unsigned node = 0; node < node_count; node++) {
        uint64_t total;
        const char *fault = read_table(at, end, capacity, node, &total);
        if (fault)
            return fault;
        if (node && total != body->totals[shard])
            return "totals differ";
        body->totals[shard] = total;
    }
    return body->positions[shard] > MOST_FRAMES ? "a great position" : 0;
}

// What is wrong with the body of a slot, or none.
static const char *read_body(
    const struct bytes *image, unsigned slot, const struct settings *settings, struct body *body) {
    size_t place = place_of_body(settings, slot);
    if (place + 8 > image->length)
        return "no length";
    const unsigned char *at = image->at + place;
    uint64_t length = big_number(at);
    if (length < 8 || length > span_of(settings) || length > image->length - place)
        return "a wrong length";
    const unsigned char *end = at + length;
    if (length < BODY_FRONT)
        return "too short";
    body->sequence = big_number(at + 8);
    body->digest = at + 16;
    at += BODY_FRONT;
    if (body->sequence < 1 || body->sequence > LAST_SEQUENCE)
        return "a wrong sequence";
    for (unsigned shard = 0; shard < settings->shards; shard++) {
        const char *fault = read_shard(&at, end, settings->capacity, body, shard);
        if (fault)
            return fault;
    }
    return at == end ? 0 : "bytes after the last table";
}

// What is wrong with the newest body, or none.
static const char *fault_of_newest(const struct body *body, const struct settings *settings) {
    if (body->sequence > LAST_SEQUENCE - 64)
        return "no sequence left";
    for (unsigned shard = 0; shard < settings->shards; shard++)
        if (body->positions[shard] > dealt.ends[shard])
            return "a position past the end";
    for (unsigned shard = 0; shard < settings->shards; shard++) {
        uint64_t total = 0;
        for (size_t i = 0; i < count; i++)
            if (dealt.shard[i] == shard && is_before(i, body->positions))
                total += records[i].weight;
        if (total != body->totals[shard])
            return "another total";
    }
    return 0;
}

// What an image opens to: a status, and with 0 the positions and the sequence, with 8 the slot.
struct opening {
    int status;
    unsigned slot;
    uint64_t positions[MOST_SHARDS], sequence;
    const char *rule;
};

static struct opening refused(int status, const char *rule, unsigned slot) {
    return (struct opening){.status = status, .rule = rule, .slot = slot};
}

// Reads the header and the bodies under open gates. Answers how they are refused, or no rule; then the slot is the newest
// one, or 2 where no gate is open.
static struct opening read_store(
    const struct bytes *image, const struct settings *settings, struct header *stored, struct body *bodies) {
    unsigned newest = 2;
    if (image->length < FRONT || !read_store_header(image->at + 2, stored))
        return refused(7, "not formatted", 0);
    if (!have_same_store(&stored->settings, settings))
        return refused(9, "other settings", 0);
    for (unsigned slot = 0; slot < 2; slot++) {
        if (image->at[slot] != 1)
            continue;
        const char *fault = read_body(image, slot, settings, &bodies[slot]);
        if (fault)
            return refused(8, fault, slot);
        if (newest == 2 || bodies[slot].sequence > bodies[newest].sequence)
            newest = slot;
    }
    return refused(0, 0, newest);
}

// The records of the capture have to be read and dealt.
static struct opening open_store(const struct bytes *image, const struct settings *settings) {
    struct header stored;
    struct body bodies[2] = {{0}};
    unsigned char digest[32];
    struct opening read = read_store(image, settings, &stored, bodies);
    if (read.rule)
        return read;
    if (read.slot == 2)
        return (struct opening){.rule = "opened, no gate open"};
    const struct body *newest = &bodies[read.slot];
    digest_records(&stored, digest);
    if (memcmp(newest->digest, digest, sizeof digest))
        return refused(10, "another capture", 0);
    const char *fault = fault_of_newest(newest, settings);
    if (fault)
        return refused(8, fault, newest - bodies);
    struct opening opening = {.rule = "opened, slot 0 newest", .sequence = newest->sequence};
    if (newest != bodies)
        opening.rule = "opened, slot 1 newest";
    memcpy(opening.positions, newest->positions, sizeof opening.positions);
    return opening;
}

// The session of a run without rounds from these positions on, without its lines of prefixes.
static void put_bare_session(struct bytes *text, const uint64_t *positions, const struct settings *settings) {
    uint64_t total = total_weight(), skipped[] = {skipped_type, skipped_short, skipped_header};
    put_positions(text, "opened", positions, settings->shards);
    put(text, "report\n");
    put_positions(text, "at", dealt.ends, settings->shards);
    put(text, "total %llu\nthreshold %llu\ndone\n", (unsigned long long)total,
        (unsigned long long)threshold_of(total, settings->share));
    put_positions(text, "saved", dealt.ends, settings->shards);
    put(text, "frames %zu\n", frames);
    put_positions(text, "skipped", skipped, 3);
    if (is_cut)
        put(text, "cut %zu\n", cut_place);
    put(text, "end\n");
}

static void predict_report(const struct opening *opening, const struct settings *settings, struct ending *ending) {
    end_with(ending, opening->status, opening->rule);
    if (opening->status == 0)
        put_bare_session(&ending->output, opening->positions, settings);
    else if (opening->status == 7)
        put(&ending->line, "hhh: store not formatted\n");
    else if (opening->status == 8)
        put(&ending->line, "hhh: store damaged: slot %u\n", opening->slot);
    else if (opening->status == 9)
        put(&ending->line, "hhh: store has other settings\n");
    else
        put(&ending->line, "hhh: store is of another capture\n");
}
