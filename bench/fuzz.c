// Changes real captures, session texts and stores, runs the program on them, and compares how it ends with what a plain
// reader predicts: fuzz PROGRAM FOLDER KEPT CAPTURES TEXTS STORES SETS SEED PROCESSES
//
// FOLDER/captures has the captures that are changed; KEPT is the folder for what is kept of a difference. `fuzz.sh`
// makes both, and says what is tested. Each input has a state of its own, which the seed, its kind and its number give.
// So it is the same for any number of processes, which share the inputs.
#define _GNU_SOURCE
#include "mutations.h"
#include "plain_sites.h"
#include <dirent.h>
#include <fcntl.h>
#include <signal.h>
#include <spawn.h>
#include <sys/mman.h>
#include <sys/resource.h>
#include <sys/stat.h>
#include <sys/wait.h>
#include <unistd.h>

#define MOST_SEEDS 1000
#define MOST_WORDS 40
#define MOST_RULES 40
#define MOST_KEPT 200
#define MOST_SECONDS 1.0
#define MOST_SECONDS_OF_LIMITS 5.0
#define SECONDS_TO_STOP 600
#define MOST_PROCESSES 64
#define SITE_GROUPS 40
#define SITES_OF_GROUP 12

// Texts are watched once they are audited.
enum { CAPTURES, TEXTS, STORES, SETS, WATCHES, LIMITS, KINDS };

// The greatest value, and the number of its input.
struct most {
    double value;
    uint64_t number;
};

// What is counted of one kind of inputs: how many ended by each rule, and what they took of a processor, of memory, and
// of the bound of memory.
struct tally {
    uint64_t runs, differences, rules[MOST_RULES];
    struct most seconds, kilobytes, share;
};

// What a process counts, and its own memory.
struct counts {
    struct tally kinds[KINDS];
    long kilobytes;
};

static const struct kind {
    const char *name, *rules[MOST_RULES];
} kinds[KINDS] = {
    {"captures",
        {"taken", "taken up to a cut", "not a capture", "version", "link", "short header", "long frame",
            "cut frame", "byte order", "block", "block tail", "interface", "cut block"}},
    {"texts",
        {"good", "bad positions", "bad total", "bad threshold", "bad interval", "too wide", "below threshold",
            "not justified", "left out", "bad line", "no end", "not a capture", "version", "link", "short header",
            "long frame", "cut frame", "byte order", "block", "block tail", "interface", "cut block"}},
    {"stores",
        {"opened, no gate open", "opened, slot 0 newest", "opened, slot 1 newest", "not formatted", "other settings",
            "no length", "a wrong length", "too short", "a wrong sequence", "a great position", "a great total",
            "too many entries", "counts fall", "a key twice", "a great error", "a bit that isn't kept",
            "counts don't add up", "totals differ", "bytes after the last table", "another capture", "no sequence left",
            "a position past the end", "another total", "not a capture", "version", "link", "short header",
            "long frame", "cut frame", "byte order", "block", "block tail", "interface", "cut block"}},
    {"sets",
        {"reported, with lines", "reported, without a line", "not formatted", "other settings", "no length", "a wrong length",
            "too short", "a wrong sequence", "a great position", "a great total", "too many entries", "counts fall",
            "a key twice", "a great error", "a bit that isn't kept", "counts don't add up", "totals differ",
            "bytes after the last table", "of one capture", "too heavy"}},
    {"watches", {"alarms", "no alarm", "bad line", "no end"}},
    {"limits", {"taken", "too many frames", "no end", "too long"}},
};

// What a run is given.
struct input {
    int kind, with_front;
    uint64_t number;
    struct settings settings;
    struct bytes capture, text, store, sites[MOST_SITES];
    unsigned site_count;
};

// How a run ended; the signal is 0 where there was none.
struct run {
    int status, signal;
    double seconds;
    long kilobytes;
    struct bytes output, line, store;
};

// A text or a store that is changed: where it is in the file of seeds, its settings, and the number of its capture.
// They aren't in memory, since the system counts what this process takes as taken by each program that it starts.
struct seed {
    size_t at, length, capture;
    struct settings settings;
};

static const char *program, *folder, *kept_folder;
static uint64_t seed;
static struct counts *counts;
static struct bytes captures[MOST_SEEDS];
static struct seed texts[MOST_SEEDS], stores[MOST_SEEDS], sites[MOST_SEEDS];
static size_t capture_count, text_count, store_count, site_count, seeds_length;
static int seed_file;
static struct input input;
static struct run run;
static struct ending ending;

// The files of this process: standard input, output and error of a run, and those that its words name.
static int input_file, output_file, line_file, capture_file, text_file, store_file, site_files[MOST_SITES];
static const char *const site_names[] = {"site1", "site2", "site3", "site4", "site5", "site6", "site7", "site8"};
static pid_t running, processes[MOST_PROCESSES];
static unsigned process_count;
static volatile sig_atomic_t is_stopped;
static char word_texts[MOST_WORDS][40], *words[MOST_WORDS + 1];
static size_t word_count;

static void refuse(const char *why) {
    fprintf(stderr, "fuzz: %s\n", why);
    exit(2);
}

static void fail(const char *what) {
    perror(what);
    exit(2);
}

// Files.

static int open_file(const char *name) {
    int file = open(name, O_RDWR | O_CREAT | O_CLOEXEC, 0644);
    if (file < 0)
        fail(name);
    return file;
}

static void write_file(int file, const struct bytes *bytes) {
    if (pwrite(file, bytes->at, bytes->length, 0) != (ssize_t)bytes->length || ftruncate(file, bytes->length))
        fail("a file of a run");
}

static void read_whole(int file, struct bytes *bytes) {
    struct stat stat;
    if (fstat(file, &stat))
        fail("a file of a run");
    make_room(bytes, stat.st_size);
    bytes->length = stat.st_size;
    if (pread(file, bytes->at, bytes->length, 0) != (ssize_t)bytes->length)
        fail("a file of a run");
}

static void empty_file(int file) {
    if (ftruncate(file, 0) || lseek(file, 0, SEEK_SET))
        fail("a file of a run");
}

static void use_folder(const char *name) {
    char path[4096];
    snprintf(path, sizeof path, "%s/%s", folder, name);
    if (mkdir(path, 0755) || chdir(path))
        fail(path);
    input_file = memfd_create("input", MFD_CLOEXEC);
    output_file = memfd_create("output", MFD_CLOEXEC);
    line_file = memfd_create("line", MFD_CLOEXEC);
    capture_file = open_file("capture");
    text_file = open_file("text");
    store_file = open_file("store");
    for (unsigned site = 0; site < MOST_SITES; site++)
        site_files[site] = open_file(site_names[site]);
}

// Runs.

static void add_word(const char *form, ...) {
    va_list values;
    va_start(values, form);
    vsnprintf(word_texts[word_count], sizeof *word_texts, form, values);
    va_end(values);
    words[word_count] = word_texts[word_count];
    words[++word_count] = 0;
}

static void begin_words(const char *command) {
    words[0] = (char *)program;
    word_count = 1;
    add_word("%s", command);
}

static void add_option(const char *name, const char *value) {
    add_word("--%s", name);
    add_word("%s", value);
}

static void add_number(const char *name, unsigned number) {
    add_word("--%s", name);
    add_word("%u", number);
}

// The settings that a store has.
static void add_store_settings(const struct settings *settings) {
    add_number("shards", settings->shards);
    add_number("capacity", settings->capacity);
    add_option("weigh", weighings[settings->by_packets]);
    add_option("deal", dealings[settings->deal]);
    if (settings->bits != 8)
        add_number("bits", settings->bits);
}

static void add_front(void) {
    if (input.with_front)
        add_option("front", "yes");
    else if (one_in(4))
        add_option("front", "no");
}

static void add_settings(const struct settings *settings) {
    add_option("capture", "capture");
    add_store_settings(settings);
    add_number("phi", settings->share);
}

static void stop_run(int number) {
    (void)number;
    kill(running, SIGKILL);
}

static double seconds_of(struct timeval time) {
    return time.tv_sec + time.tv_usec / 1e6;
}

// Runs the program with the words.
static void run_program(void) {
    posix_spawn_file_actions_t actions;
    struct rusage usage;
    int status;
    empty_file(output_file);
    empty_file(line_file);
    if (lseek(input_file, 0, SEEK_SET) || posix_spawn_file_actions_init(&actions))
        fail("a file of a run");
    posix_spawn_file_actions_adddup2(&actions, input_file, 0);
    posix_spawn_file_actions_adddup2(&actions, output_file, 1);
    posix_spawn_file_actions_adddup2(&actions, line_file, 2);
    if (posix_spawn(&running, program, &actions, 0, words, environ))
        fail(program);
    posix_spawn_file_actions_destroy(&actions);
    alarm(SECONDS_TO_STOP);
    while (wait4(running, &status, 0, &usage) < 0)
        ;
    alarm(0);
    run.signal = WIFSIGNALED(status) ? WTERMSIG(status) : 0;
    run.status = WIFEXITED(status) ? WEXITSTATUS(status) : -1;
    run.seconds = seconds_of(usage.ru_utime) + seconds_of(usage.ru_stime);
    run.kilobytes = usage.ru_maxrss;
    read_whole(output_file, &run.output);
    read_whole(line_file, &run.line);
}

// What is counted, and what is kept of a difference.

static void put_kept_name(struct bytes *text, const char *part) {
    put(text, "%s/%s.%llu.%s", kept_folder, kinds[input.kind].name, (unsigned long long)input.number, part);
}

static void write_kept(const char *part, const struct bytes *bytes) {
    static struct bytes path;
    path.length = 0;
    put_kept_name(&path, part);
    int file = open_file((char *)path.at);
    write_file(file, bytes);
    close(file);
}

// The words of the run, with the kept names of its files.
static void put_words(struct bytes *text) {
    for (size_t i = 0; i < word_count; i++) {
        int is_file = !strcmp(words[i], "capture") || !strcmp(words[i], "text") || !strcmp(words[i], "store")
            || (!strncmp(words[i], "site", 4) && strcmp(words[i], "sites"));
        put(text, " ");
        if (is_file)
            put_kept_name(text, words[i]);
        else
            put(text, "%s", words[i]);
    }
    if (!strcmp(words[1], "weigh")) {
        put(text, " <");
        put_kept_name(text, "capture");
    }
    put(text, "\n");
}

static void put_end(
    struct bytes *text, const char *who, int status, const struct bytes *output, const struct bytes *line) {
    put(text, "\n%s: status %d, standard error: ", who, status);
    append(text, line->at, line->length);
    put(text, "\nstandard output:\n");
    append(text, output->at, output->length);
}

// Keeps the input and both endings, and prints a line with the words.
static void tell(const char *difference) {
    static struct bytes text;
    text.length = 0;
    put(&text, "%s %llu: %s:", kinds[input.kind].name, (unsigned long long)input.number, difference);
    put_words(&text);
    if (++counts->kinds[input.kind].differences > MOST_KEPT)
        return;
    fwrite(text.at, 1, text.length, stdout);
    fflush(stdout);
    put(&text, "by the rule '%s'; %.3f s, %ld kB, signal %d", ending.rule, run.seconds, run.kilobytes, run.signal);
    put_end(&text, "predicted", ending.status, &ending.output, &ending.line);
    put_end(&text, "ended", run.status, &run.output, &run.line);
    write_kept("difference", &text);
    if (input.kind == LIMITS)
        return;
    if (input.kind != SETS && input.kind != WATCHES)
        write_kept("capture", &input.capture);
    if (input.kind == TEXTS || input.kind == WATCHES)
        write_kept("text", &input.text);
    for (unsigned site = 0; site < input.site_count; site++)
        write_kept(site_names[site], &input.sites[site]);
    if (input.kind == STORES)
        write_kept("store", &input.store);
}

static void test(int holds, const char *difference) {
    if (!holds)
        tell(difference);
}

static void count_rule(void) {
    const char *const *rules = kinds[input.kind].rules;
    size_t rule = 0;
    while (rule < MOST_RULES && rules[rule] && strcmp(rules[rule], ending.rule))
        rule++;
    if (rule == MOST_RULES || !rules[rule])
        refuse(ending.rule);
    counts->kinds[input.kind].rules[rule]++;
}

// The bytes of memory that a run may take: 10 MB, 30 bytes a frame, five times the text and three times the stores.
static double memory_bound(void) {
    size_t bytes_of_stores = input.store.length;
    for (unsigned site = 0; site < input.site_count; site++)
        bytes_of_stores += input.sites[site].length;
    return 10e6 + 30.0 * frames + 5.0 * input.text.length + 3.0 * bytes_of_stores;
}

// The longest inputs have a bound of their own, since the system alone may take half a second to read one.
static double most_seconds(void) {
    return input.kind == LIMITS ? MOST_SECONDS_OF_LIMITS : MOST_SECONDS;
}

static void note(struct most *most, struct most other) {
    if (other.value > most->value)
        *most = other;
}

// The most memory that this process has had so far. The system shows no less for a run, which begins as a copy of it.
static long own_kilobytes(void) {
    struct rusage usage;
    getrusage(RUSAGE_SELF, &usage);
    return usage.ru_maxrss;
}

// Notes what a run took, and tests it against the bounds.
static void count_run(void) {
    struct tally *tally = &counts->kinds[input.kind];
    double share = 1024.0 * run.kilobytes / memory_bound();
    tally->runs++;
    count_rule();
    note(&tally->seconds, (struct most){run.seconds, input.number});
    note(&tally->kilobytes, (struct most){run.kilobytes, input.number});
    note(&tally->share, (struct most){share, input.number});
    test(run.seconds <= most_seconds(), "more time of a processor than its bound");
    test(share <= 1 || run.kilobytes <= own_kilobytes(), "more memory than its bound");
}

static int is_same(const struct bytes *one, const struct bytes *other) {
    return one->length == other->length && (!one->length || !memcmp(one->at, other->at, one->length));
}

static void test_ending(void) {
    count_run();
    if (run.signal)
        tell("a signal");
    else if (run.status != ending.status)
        tell("another status");
    else
        test(is_same(&run.output, &ending.output) && is_same(&run.line, &ending.line), "another text");
}

// No prediction yet.
static void begin_ending(int kind, uint64_t number) {
    input.kind = kind;
    input.number = number;
    ending.output.length = ending.line.length = 0;
}

// Begins with an input of a kind: the state that its number gives.
static void begin_input(int kind, uint64_t number) {
    state = seed * KINDS + kind;
    state = draw() + number;
    state = draw();
    begin_ending(kind, number);
    input.text.length = input.store.length = input.site_count = 0;
}

// Captures.

static void draw_prefix(uint64_t *key, unsigned *node) {
    size_t offset;
    *key = *node = 0;
    if (!one_in(8))
        return;
    *node = draw_below(node_count);
    read_file(input.capture.at, input.capture.length, &offset);
    uint64_t pair = draw();
    if (count && !one_in(8)) {
        const struct record *record = &records[draw_below(count)];
        pair = (uint64_t)record->source << 32 | record->destination;
    }
    *key = pair & mask_of(*node);
}

static void add_prefix(uint64_t key, unsigned node) {
    static struct bytes side;
    for (int i = 0; i < 2; i++) {
        side.length = 0;
        put_side(&side, i ? key : key >> 32, i ? destination_units(node) : source_units(node));
        add_word("%s", (char *)side.at + 1);
    }
}

static void try_capture(uint64_t number) {
    uint64_t key;
    unsigned node;
    begin_input(CAPTURES, number);
    set_grain(8);
    copy_bytes(&input.capture, &captures[draw_below(capture_count)]);
    change_capture(&input.capture);
    draw_prefix(&key, &node);
    int by_packets = one_in(8);
    write_file(input_file, &input.capture);
    for (input.with_front = 0; input.with_front < 2; input.with_front++) {
        begin_ending(CAPTURES, number);
        predict_weigh(&input.capture, input.with_front, by_packets, key, node, &ending);
        begin_words("weigh");
        add_prefix(key, node);
        add_front();
        if (by_packets)
            add_option("weigh", "packets");
        run_program();
        test_ending();
    }
}

// Settings.

static void change_settings(struct settings *settings) {
    switch (draw_below(6)) {
    case 0:
        settings->shards = 1 + draw_below(one_in(4) ? MOST_SHARDS : 4);
        break;
    case 1:
        settings->capacity = 2 + draw_below(one_in(4) ? 4095 : 8);
        break;
    case 2:
        settings->by_packets = !settings->by_packets;
        break;
    case 3:
        settings->deal = draw_below(3);
        break;
    case 4:
        settings->bits = 12 - settings->bits;
        break;
    }
    if (settings->capacity > most_capacity(settings->bits))
        settings->capacity = most_capacity(settings->bits);
    if ((uint64_t)settings->share * settings->capacity < 2000000 || one_in(4))
        settings->share = draw_share(settings->capacity);
}

static void take_seed(const struct seed *from, struct bytes *bytes) {
    make_room(bytes, from->length);
    bytes->length = from->length;
    if (pread(seed_file, bytes->at, from->length, from->at) != (ssize_t)from->length)
        fail("the file of seeds");
}

// Takes the capture of a seed, or now and then another one, or one that is changed or cut, some as pcapng captures.
static void draw_capture(size_t number) {
    copy_bytes(&input.capture, &captures[one_in(30) ? draw_below(capture_count) : number]);
    if (one_in(30))
        change_capture(&input.capture);
    else if (one_in(4))
        turn_to_pcapng(&input.capture);
    input.with_front = one_in(4);
    if (input.with_front && one_in(4))
        (one_in(2) ? cut : add_bytes)(&input.capture);
}

// Reads and deals the records of the capture, and lets the bits of the settings count. Answers whether it is taken.
static int deal_capture(const struct settings *settings) {
    size_t offset;
    set_grain(settings->bits);
    int is_taken = !read_capture(&input.capture, input.with_front, &offset);
    deal_records(settings);
    return is_taken;
}

// Texts.

// A rule under which some lines of the text are, mostly, and whose limit some of them reach.
static void draw_rule(struct rule *rule) {
    struct session session;
    struct line line = {.key = draw(), .low = draw_below(1000)};
    int is_missing;
    if (!read_session(&input.text, &session, &is_missing)) {
        const struct report *report = &session.reports[draw_below(session.count)];
        if (report->count)
            line = report->lines[draw_below(report->count)];
    }
    free_session(&session);
    const uint64_t limits[] = {line.low, line.low, line.low + 1, line.low / 2, line.low / 7, line.low / 8, 1, UINT64_MAX,
        draw() >> 24};
    unsigned source = draw_below(source_units(line.node) + 1), destination = draw_below(destination_units(line.node) + 1);
    rule->limit = PICK(limits);
    rule->limit += !rule->limit;
    rule->node = one_in(3) ? 0 : sides * source + destination;
    rule->key = (one_in(8) ? draw() : line.key) & mask_of(rule->node);
}

static void add_side(const char *name, uint32_t address, unsigned units) {
    static struct bytes side;
    side.length = 0;
    put_side(&side, address, units);
    append(&side, "", 1);
    if (units || one_in(4))
        add_option(name, (char *)side.at + 1);
}

// Watches the text that was audited, now and then as one of the other bits.
static void try_watch(uint64_t number) {
    struct rule rule;
    begin_ending(WATCHES, number);
    unsigned bits = one_in(10) ? 12 - changed_settings.bits : changed_settings.bits;
    set_grain(bits);
    draw_rule(&rule);
    predict_watch(&input.text, &rule, &ending);
    begin_words("watch");
    add_option("report", "text");
    add_word("--limit");
    add_word("%llu", (unsigned long long)rule.limit);
    add_side("src", rule.key >> 32, source_units(rule.node));
    add_side("dst", rule.key, destination_units(rule.node));
    if (bits != 8 || one_in(4))
        add_number("bits", bits);
    run_program();
    test_ending();
}

static void try_text(uint64_t number) {
    begin_input(TEXTS, number);
    const struct seed *from = &texts[draw_below(text_count)];
    take_seed(from, &input.text);
    changed_settings = from->settings;
    draw_capture(from->capture);
    deal_capture(&changed_settings);
    MUTATE(&input.text, mutations_of_texts);
    input.settings = changed_settings;
    if (one_in(10))
        change_settings(&input.settings);
    if (deal_capture(&input.settings))
        predict_audit(&input.text, &input.settings, &ending);
    else
        is_read(&input.capture, input.with_front, &ending);
    begin_words("audit");
    add_settings(&input.settings);
    add_front();
    add_option("report", "text");
    write_file(capture_file, &input.capture);
    write_file(text_file, &input.text);
    run_program();
    test_ending();
    try_watch(number);
}

// Stores.

// The output without its lines of prefixes.
static void strip_output(struct bytes *output) {
    size_t length = 0;
    for (unsigned char *at = output->at, *end = at + output->length; at < end;) {
        unsigned char *behind = memchr(at, '\n', end - at);
        behind = behind ? behind + 1 : end;
        if (behind - at < 5 || memcmp(at, "line ", 5)) {
            memmove(output->at + length, at, behind - at);
            length += behind - at;
        }
        at = behind;
    }
    output->length = length;
}

// Tests what a run left of its store: as it was where it was refused, and else one with the same header that opens at
// the ends of the lists, after one save more. Where the sequence then has no room for another run, it doesn't open.
static void test_store(const struct opening *before) {
    read_whole(store_file, &run.store);
    if (ending.status) {
        test(is_same(&run.store, &input.store), "a store that was refused is another one");
        return;
    }
    test(!memcmp(run.store.at + 2, input.store.at + 2, FRONT - 2), "the store has another header");
    struct opening after = open_store(&run.store, &input.settings);
    int is_at_ends = !memcmp(after.positions, dealt.ends, sizeof dealt.ends);
    if (before->sequence == LAST_SEQUENCE - 64)
        test(!strcmp(after.rule, "no sequence left"), "the store opens past the last sequence");
    else
        test(is_at_ends && after.sequence == before->sequence + 1, "the store opens otherwise than at the ends");
}

// A report's lines depend on the tables, which may have been changed. So their grammar and order is tested, and where
// no gate was open that the report is sound.
static void test_session(const struct opening *before) {
    static struct ending verdict;
    verdict.output.length = verdict.line.length = 0;
    predict_audit(&run.output, &input.settings, &verdict);
    test(verdict.status != 12, "no text of a session");
    test(before->sequence || !verdict.status, "a report that isn't sound");
    strip_output(&run.output);
}

static void try_store(uint64_t number) {
    struct opening opening = {0};
    begin_input(STORES, number);
    const struct seed *from = &stores[draw_below(store_count)];
    take_seed(from, &input.store);
    input.settings = changed_settings = from->settings;
    draw_capture(from->capture);
    set_grain(changed_settings.bits);
    MUTATE(&input.store, mutations_of_stores);
    if (one_in(20))
        change_settings(&input.settings);
    if (deal_capture(&input.settings)) {
        opening = open_store(&input.store, &input.settings);
        predict_report(&opening, &input.settings, &ending);
    } else
        is_read(&input.capture, input.with_front, &ending);
    begin_words("report");
    add_settings(&input.settings);
    add_front();
    add_option("store", "store");
    add_option("workers", "1");
    write_file(capture_file, &input.capture);
    write_file(store_file, &input.store);
    run_program();
    if (!run.signal && !run.status)
        test_session(&opening);
    test_ending();
    test_store(&opening);
}

// Sets of stores.

// Takes the stores of some sites of a group, which have the same settings and other captures, and changes some of them.
static void draw_sites(void) {
    size_t group = draw_below(site_count / SITES_OF_GROUP), first = draw_below(SITES_OF_GROUP);
    unsigned number = one_in(4) ? MOST_SITES : 1 + draw_below(MOST_SITES);
    changed_settings = sites[group * SITES_OF_GROUP].settings;
    set_grain(changed_settings.bits);
    for (unsigned site = 0; site < number; site++) {
        size_t place = group * SITES_OF_GROUP + (first + site) % SITES_OF_GROUP;
        take_seed(&sites[one_in(100) ? draw_below(site_count) : place], &input.sites[site]);
        if (one_in(3))
            recount_body(&input.sites[site]);
    }
    input.site_count = number;
    if (one_in(30))
        copy_bytes(&input.sites[draw_below(number)], &input.sites[draw_below(number)]);
    for (size_t times = draw_below(3); times; times--)
        MUTATE(&input.sites[draw_below(number)], mutations_of_sites);
}

static void try_set(uint64_t number) {
    begin_input(SETS, number);
    frames = 0;
    draw_sites();
    input.settings = changed_settings;
    input.settings.share = draw_share(input.settings.capacity);
    if (one_in(30))
        change_settings(&input.settings);
    set_grain(input.settings.bits);
    predict_sites(input.sites, input.site_count, &input.settings, &ending);
    begin_words("sites");
    add_store_settings(&input.settings);
    add_number("phi", input.settings.share);
    for (unsigned site = 0; site < input.site_count; site++) {
        write_file(site_files[site], &input.sites[site]);
        add_word("%s", site_names[site]);
    }
    run_program();
    test_ending();
    for (unsigned site = 0; site < input.site_count; site++) {
        read_whole(site_files[site], &run.store);
        test(is_same(&run.store, &input.sites[site]), "the store of a site is another one");
    }
}

// The longest inputs, of which nearly all bytes are 0, so that they take no disk.

static void lengthen_file(int file, uint64_t length) {
    if (ftruncate(file, length))
        fail("a file of a run");
}

static void try_long_capture(uint64_t number, uint64_t length) {
    begin_input(LIMITS, number);
    frames = MOST_FRAMES;
    write_file(input_file, &captures[0]);
    lengthen_file(input_file, 24);
    lengthen_file(input_file, length);
    begin_words("weigh");
    add_prefix(0, 0);
}

static void try_long_text(uint64_t number, uint64_t length) {
    begin_input(LIMITS, number);
    frames = 0;
    input.text.length = length;
    write_file(capture_file, &captures[0]);
    lengthen_file(text_file, 0);
    lengthen_file(text_file, length);
    begin_words("audit");
    add_option("capture", "capture");
    add_option("report", "text");
}

static void end_limit(int status, const char *rule, const char *text) {
    put(status ? &ending.line : &ending.output, "%s", text);
    end_with(&ending, status, rule);
    run_program();
    test_ending();
}

static void try_limits(void) {
    const uint64_t end = 24 + 16 * (uint64_t)MOST_FRAMES;
    try_long_capture(0, end);
    end_limit(0, "taken", "low 0\nhigh 0\ntotal 0\n");
    try_long_capture(1, end + 1);
    end_limit(3, "too many frames", "hhh: bad capture: too many frames at 268435480\n");
    try_long_text(2, LONGEST_TEXT);
    end_limit(12, "no end", "hhh: bad report: no end at line 1\n");
    try_long_text(3, LONGEST_TEXT + 1);
    end_limit(12, "too long", "hhh: bad report: too long\n");
    empty_file(input_file);
    empty_file(text_file);
}

// What is changed: captures, and the texts and stores that the program makes of them.

static int by_name(const struct dirent **one, const struct dirent **other) {
    return strcmp((*one)->d_name, (*other)->d_name);
}

static int is_shown(const struct dirent *entry) {
    return entry->d_name[0] != '.';
}

static void load_captures(void) {
    char path[4096];
    struct dirent **entries;
    snprintf(path, sizeof path, "%s/captures", folder);
    int number = scandir(path, &entries, is_shown, by_name);
    for (int i = 0; i < number && capture_count < MOST_SEEDS; i++) {
        snprintf(path, sizeof path, "%s/captures/%s", folder, entries[i]->d_name);
        int file = open(path, O_RDONLY | O_CLOEXEC);
        if (file < 0)
            fail(path);
        read_whole(file, &captures[capture_count++]);
        close(file);
        free(entries[i]);
    }
    if (!capture_count)
        refuse("no captures");
    free(entries);
}

static void must_end_well(void) {
    run_program();
    if (run.status || run.signal) {
        fwrite(run.line.at, 1, run.line.length, stderr);
        refuse("a run on a real capture didn't end well");
    }
}

static void make_report(
    const struct bytes *capture, const struct settings *settings, int has_store, int rounds, int callers) {
    write_file(capture_file, capture);
    begin_words("report");
    add_settings(settings);
    add_option("workers", "1");
    if (has_store)
        add_option("store", "store");
    add_number("rounds", rounds);
    add_number("callers", callers);
    must_end_well();
}

// Writes the first bytes of a store without a save.
static void write_front(const struct header *header) {
    unsigned char front[FRONT] = {0};
    spell_header(header, front + 2);
    write_file(store_file, &(struct bytes){.at = front, .length = sizeof front});
}

// Makes a store. `format` writes version 2 alone.
static void format_store(const struct header *header) {
    empty_file(store_file);
    if (header->version == 1) {
        write_front(header);
        return;
    }
    begin_words("format");
    add_store_settings(&header->settings);
    add_option("store", "store");
    must_end_well();
}

static void add_seed(
    struct seed *seeds, size_t *number, const struct bytes *bytes, const struct settings *settings, size_t capture) {
    if (*number == MOST_SEEDS)
        refuse("too many seeds");
    if (pwrite(seed_file, bytes->at, bytes->length, seeds_length) != (ssize_t)bytes->length)
        fail("the file of seeds");
    seeds[(*number)++] = (struct seed){seeds_length, bytes->length, capture, *settings};
    seeds_length += bytes->length;
}

static void add_text(const struct bytes *text, const struct settings *settings, size_t capture) {
    add_seed(texts, &text_count, text, settings, capture);
}

static void add_store(const struct settings *settings, size_t capture) {
    read_whole(store_file, &run.store);
    add_seed(stores, &store_count, &run.store, settings, capture);
}

// The beginning of a capture, of so many frames or of fewer.
static void take_frames(const struct bytes *capture, size_t number, struct bytes *beginning) {
    copy_bytes(beginning, capture);
    find_frames(capture);
    if (number < found.count)
        beginning->length = found.at[number];
}

static size_t frames_in(const struct bytes *capture) {
    find_frames(capture);
    return found.count;
}

// Puts a report on the first frames before the last report of the session of the whole capture, as one of a round is.
static void put_round(struct bytes *text, const struct bytes *capture, const struct settings *settings, size_t number) {
    static struct bytes beginning;
    take_frames(capture, number, &beginning);
    make_report(&beginning, settings, 0, 0, 0);
    unsigned char *begin = memmem(run.output.at, run.output.length, "report\n", 7);
    unsigned char *end = memmem(begin, run.output.at + run.output.length - begin, "frames", 6);
    unsigned char *last = text->at + text->length;
    do
        last--;
    while (memcmp(last, "report\n", 7));
    replace(text, last - text->at, 0, begin, end - begin);
}

// The sessions of runs are the same each time: rounds are made where a store has all records counted, and otherwise put
// together from reports on parts of the capture.
static void make_texts(size_t number, const struct header *header) {
    static struct bytes text;
    const struct bytes *capture = &captures[number];
    const struct settings *settings = &header->settings;
    make_report(capture, settings, 0, 0, 0);
    add_text(&run.output, settings, number);
    copy_bytes(&text, &run.output);
    size_t first = draw_below(frames_in(capture) + 1);
    put_round(&text, capture, settings, first);
    put_round(&text, capture, settings, first + draw_below(frames_in(capture) + 1 - first));
    add_text(&text, settings, number);
    format_store(header);
    make_report(capture, settings, 1, 0, 0);
    add_text(&run.output, settings, number);
    make_report(capture, settings, 1, 1 + draw_below(2), draw_below(3));
    add_text(&run.output, settings, number);
}

// Gives a store with one save the digest of a capture, as if it had the counts of this one.
static void graft_store(const struct header *header, size_t number) {
    copy_bytes(&input.capture, &captures[number]);
    deal_capture(&header->settings);
    read_whole(store_file, &run.store);
    digest_records(header, run.store.at + FRONT + 16);
    write_file(store_file, &run.store);
    add_store(&header->settings, number);
}

static void make_stores(size_t number, const struct header *header) {
    static struct bytes beginning;
    const struct bytes *capture = &captures[number];
    const struct settings *settings = &header->settings;
    format_store(header);
    add_store(settings, number);
    for (int saves = 0; saves < 3; saves++) {
        make_report(capture, settings, 1, 0, 0);
        add_store(settings, number);
    }
    take_frames(capture, draw_below(frames_in(capture)), &beginning);
    format_store(header);
    make_report(&beginning, settings, 1, 0, 0);
    graft_store(header, number);
    make_report(capture, settings, 1, 0, 0);
    add_store(settings, number);
    format_store(header);
    make_report(&captures[draw_below(capture_count)], settings, 1, 0, 0);
    graft_store(header, number);
}

// The versions of stores, and the bits that go with them.
static const struct {
    unsigned version, bits;
} kinds_of_stores[] = {{1, 8}, {2, 8}, {2, 4}};

// Stores of the same settings over several captures, some with one save, some with two or with none.
static void make_site_group(void) {
    static const unsigned capacities[] = {2, 3, 4, 5, 6, 8, 12, 64};
    struct header header = {.settings = {.shards = 1 + draw_below(3), .capacity = PICK(capacities)}};
    struct settings *settings = &header.settings;
    settings->share = draw_share(settings->capacity);
    settings->by_packets = one_in(4);
    settings->deal = draw_below(3);
    settings->bits = one_in(3) ? 4 : 8;
    set_grain(settings->bits);
    for (size_t turn = 0, first = draw_below(capture_count); turn < SITES_OF_GROUP; turn++) {
        size_t number = (first + turn) % capture_count, saves = one_in(8) ? 0 : 1 + draw_below(2);
        header.version = settings->bits == 8 ? 1 + draw_below(2) : 2;
        format_store(&header);
        for (; saves; saves--)
            make_report(&captures[number], settings, 1, 0, 0);
        read_whole(store_file, &run.store);
        add_seed(sites, &site_count, &run.store, settings, number);
    }
}

static void make_seeds(void) {
    static const unsigned capacities[] = {2, 3, 4, 8, 16, 64, 64, 512, 512};
    state = seed;
    for (int group = 0; group < SITE_GROUPS; group++)
        make_site_group();
    for (size_t number = 0; number < capture_count; number++)
        for (int turn = 0; turn < 4; turn++) {
            size_t kind = draw_below(LENGTH_OF(kinds_of_stores));
            struct header header = {.version = kinds_of_stores[kind].version};
            struct settings *settings = &header.settings;
            *settings = (struct settings){
                1 + draw_below(4), PICK(capacities), 0, one_in(4), draw_below(3), kinds_of_stores[kind].bits};
            settings->share = draw_share(settings->capacity);
            make_texts(number, &header);
            settings->shards = 1 + draw_below(3);
            settings->capacity = 2 + draw_below(5);
            settings->share = draw_share(settings->capacity);
            make_stores(number, &header);
        }
}

// The processes, and what is printed.

static void stop_early(int number) {
    (void)number;
    is_stopped = 1;
    for (unsigned process = 0; process < process_count; process++)
        kill(processes[process], SIGTERM);
}

// The inputs of all kinds by their numbers, so that a run which is stopped early has tried some of each.
static void try_inputs(const uint64_t *numbers, uint64_t first, uint64_t step) {
    static void (*const tries[])(uint64_t) = {try_capture, try_text, try_store, try_set};
    int are_left = 1;
    for (uint64_t number = first; are_left && !is_stopped; number += step) {
        are_left = 0;
        for (int kind = CAPTURES; kind <= SETS && !is_stopped; kind++)
            if (number < numbers[kind]) {
                tries[kind](number);
                are_left = 1;
            }
    }
}

static void begin_process(unsigned process, unsigned number, const uint64_t *numbers) {
    char name[40];
    pid_t made = fork();
    if (made < 0)
        fail("fork");
    if (made) {
        processes[process_count++] = made;
        return;
    }
    process_count = 0;
    counts += process;
    snprintf(name, sizeof name, "%u", process);
    use_folder(name);
    if (!process)
        try_limits();
    try_inputs(numbers, process, number);
    counts->kilobytes = own_kilobytes();
    exit(0);
}

static int all_end_well(void) {
    int status, are_well = 1;
    while (wait(&status) > 0)
        are_well &= status == 0;
    return are_well;
}

static void add_tally(struct tally *sum, const struct tally *other) {
    sum->runs += other->runs;
    sum->differences += other->differences;
    for (size_t rule = 0; rule < MOST_RULES; rule++)
        sum->rules[rule] += other->rules[rule];
    note(&sum->seconds, other->seconds);
    note(&sum->kilobytes, other->kilobytes);
    note(&sum->share, other->share);
}

// Adds up what the processes counted, in the place behind theirs.
static struct counts *add_counts(void) {
    struct counts *sum = counts + process_count;
    for (unsigned process = 0; process < process_count; process++) {
        for (int kind = 0; kind < KINDS; kind++)
            add_tally(&sum->kinds[kind], &counts[process].kinds[kind]);
        if (counts[process].kilobytes > sum->kilobytes)
            sum->kilobytes = counts[process].kilobytes;
    }
    return sum;
}

static void print_tally(const struct kind *kind, const struct tally *sum) {
    printf("%s: %llu runs, %llu differences\n", kind->name, (unsigned long long)sum->runs,
        (unsigned long long)sum->differences);
    printf("    at most %.3f s of a processor (input %llu), %.0f kB (%llu), %.2f of the bound of memory (%llu)\n",
        sum->seconds.value, (unsigned long long)sum->seconds.number, sum->kilobytes.value,
        (unsigned long long)sum->kilobytes.number, sum->share.value, (unsigned long long)sum->share.number);
    for (size_t rule = 0; kind->rules[rule]; rule++)
        printf("%12llu %s\n", (unsigned long long)sum->rules[rule], kind->rules[rule]);
}

int main(int number, char **arguments) {
    if (number != 10)
        return 2;
    program = arguments[1];
    folder = arguments[2];
    kept_folder = arguments[3];
    uint64_t numbers[KINDS];
    for (int kind = CAPTURES; kind <= SETS; kind++)
        numbers[kind] = strtoull(arguments[4 + kind], 0, 10);
    seed = strtoull(arguments[8], 0, 10);
    unsigned number_of_processes = strtoul(arguments[9], 0, 10), with_differences = 0;
    if (!number_of_processes || number_of_processes > MOST_PROCESSES)
        return 2;
    size_t size = (number_of_processes + 1) * sizeof *counts;
    counts = mmap(0, size, PROT_READ | PROT_WRITE, MAP_SHARED | MAP_ANONYMOUS, -1, 0);
    if (counts == MAP_FAILED)
        fail("mmap");
    signal(SIGALRM, stop_run);
    load_captures();
    use_folder("seeds");
    seed_file = open_file("seeds");
    make_seeds();
    signal(SIGTERM, stop_early);
    for (unsigned process = 0; process < number_of_processes; process++)
        begin_process(process, number_of_processes, numbers);
    int are_well = all_end_well();
    struct counts *sum = add_counts();
    for (int kind = 0; kind < KINDS; kind++) {
        print_tally(&kinds[kind], &sum->kinds[kind]);
        with_differences += sum->kinds[kind].differences > 0;
    }
    printf("%zu captures, %zu texts, %zu stores and %zu stores of sites were changed\n", capture_count, text_count, store_count,
        site_count);
    printf("the driver itself took up to %ld kB; the system shows no less for a run\n", sum->kilobytes);
    if (is_stopped)
        printf("stopped early\n");
    if (!are_well)
        printf("a process of the driver failed\n");
    return with_differences || !are_well;
}
