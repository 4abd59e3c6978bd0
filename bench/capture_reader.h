// A plain reader of captures of both formats, as bytes in memory, for `plain_reader.h`.
#include "records.h"
#include <stdio.h>
#include <string.h>

#define MOST_FRAMES 16777216
#define MOST_BLOCKS 16777216

// Bytes that grow.
struct bytes {
    unsigned char *at;
    size_t length, room;
};

static void make_room(struct bytes *bytes, size_t length) {
    if (length > bytes->room) {
        bytes->room = length < 2000 ? 4000 : 2 * length;
        bytes->at = realloc(bytes->at, bytes->room);
        if (!bytes->at)
            exit(13);
    }
}

static void append(struct bytes *bytes, const void *piece, size_t length) {
    make_room(bytes, bytes->length + length);
    if (length)
        memcpy(bytes->at + bytes->length, piece, length);
    bytes->length += length;
}

// Classic captures.

static int is_magic(const unsigned char *p) {
    uint32_t magic = big(p);
    return magic == 0xa1b2c3d4 || magic == 0xd4c3b2a1 || magic == 0xa1b23c4d || magic == 0x4d3cb2a1;
}

static uint32_t number_of(const unsigned char *p, int is_big) {
    return is_big ? big(p) : little(p);
}

static int is_version(const unsigned char *p, int is_big) {
    return is_big ? big(p) == 0x00020004 : little(p) == 0x00040002;
}

static const char *fault_of_header(const unsigned char *file, size_t length, size_t *offset) {
    *offset = 0;
    if (length >= 4 && !is_magic(file))
        return "not a capture";
    int is_big = length >= 4 && file[0] == 0xa1;
    *offset = 4;
    if (length >= 8 && !is_version(file + 4, is_big))
        return "version";
    *offset = 20;
    if (length >= 24 && number_of(file + 20, is_big) != 1)
        return "link";
    *offset = length;
    return length < 24 ? "short header" : 0;
}

// The first fault of a classic capture, or none.
static const char *read_classic(const unsigned char *file, size_t length, size_t *offset) {
    const char *fault = fault_of_header(file, length, offset);
    if (fault)
        return fault;
    int is_big = file[0] == 0xa1;
    for (size_t at = 24; at < length;) {
        *offset = at;
        if (frames == MOST_FRAMES)
            return "too many frames";
        if (length - at < 16)
            return "cut frame";
        uint32_t captured = number_of(file + at + 8, is_big), original = number_of(file + at + 12, is_big);
        if (captured > LONGEST)
            return "long frame";
        if (length - at - 16 < captured)
            return "cut frame";
        decode(file + at + 16, captured, original);
        at += 16 + captured;
    }
    return 0;
}

// Captures of pcapng.

enum { SECTION = 0x0a0d0d0a, INTERFACE = 1, PACKET = 6 };

// The section that is read: its byte order, and for each of its interfaces whether it is Ethernet.
static struct {
    int is_big;
    struct bytes are_ethernet;
} section;

static uint32_t word_at(const unsigned char *p) {
    return number_of(p, section.is_big);
}

static unsigned half_at(const unsigned char *p) {
    return section.is_big ? p[0] << 8 | p[1] : p[1] << 8 | p[0];
}

static int is_section(const unsigned char *block, size_t left) {
    return left >= 4 && big(block) == SECTION;
}

// The first fault of a block of which so many bytes are left, by its fixed numbers. The section begins with its header.
static const char *fault_of_section(const unsigned char *block, size_t left) {
    if (left < 12)
        return "cut block";
    section.is_big = big(block + 8) == 0x1a2b3c4d;
    section.are_ethernet.length = 0;
    if (word_at(block + 8) != 0x1a2b3c4d)
        return "byte order";
    if (word_at(block + 4) < 28 || word_at(block + 4) % 4)
        return "block";
    return left >= 14 && half_at(block + 12) != 1 ? "version" : 0;
}

static const char *fault_of_packet(const unsigned char *block, size_t left) {
    if (left >= 12 && word_at(block + 8) >= section.are_ethernet.length)
        return "interface";
    if (left >= 24 && word_at(block + 20) > LONGEST)
        return "long frame";
    return left >= 24 && word_at(block + 20) + 32 > word_at(block + 4) ? "block" : 0;
}

static const char *fault_of_other(const unsigned char *block, size_t left) {
    if (left < 8)
        return "cut block";
    uint32_t kind = word_at(block), least = kind == PACKET ? 32 : kind == INTERFACE ? 20 : 12;
    if (word_at(block + 4) < least || word_at(block + 4) % 4)
        return "block";
    return kind == PACKET ? fault_of_packet(block, left) : 0;
}

static void take_block(const unsigned char *block) {
    if (word_at(block) == INTERFACE)
        append(&section.are_ethernet, &(unsigned char){half_at(block + 8) == 1}, 1);
    if (word_at(block) == PACKET && section.are_ethernet.at[word_at(block + 8)])
        decode(block + 28, word_at(block + 20), word_at(block + 24));
}

// The first fault of a pcapng capture, or none.
static const char *read_pcapng(const unsigned char *file, size_t length, size_t *offset) {
    size_t blocks = 0;
    for (size_t at = 0; at < length; blocks++) {
        const unsigned char *block = file + at;
        size_t left = length - at;
        *offset = at;
        if (blocks == MOST_BLOCKS)
            return "too many blocks";
        const char *fault = (is_section(block, left) ? fault_of_section : fault_of_other)(block, left);
        if (fault)
            return fault;
        uint32_t total = word_at(block + 4);
        if (left < total)
            return "cut block";
        if (word_at(block + total - 4) != total)
            return "block tail";
        take_block(block);
        at += total;
    }
    return 0;
}

// The first fault of a capture, or none. The records and the counts of its frames before that are kept.
static const char *read_file(const unsigned char *file, size_t length, size_t *offset) {
    count = frames = skipped_type = skipped_short = skipped_header = 0;
    return (is_section(file, length) ? read_pcapng : read_classic)(file, length, offset);
}

// Whether the capture that is read is cut, and where.
static int is_cut;
static size_t cut_place;

// The same, but with the front a capture is taken up to a frame or a block that is cut.
static const char *read_capture(const struct bytes *capture, int with_front, size_t *offset) {
    const char *fault = read_file(capture->at, capture->length, offset);
    is_cut = with_front && fault && (!strcmp(fault, "cut frame") || !strcmp(fault, "cut block"));
    cut_place = *offset;
    return is_cut ? 0 : fault;
}
