// How `fuzz.c` makes a pcapng capture of a classic one, and changes it. `mutations.h` reads this, and has the changes of
// any bytes and of classic captures.

// The section that is made: its byte order, and how many interfaces it has. The first of them is Ethernet.
static struct {
    int is_big;
    unsigned interfaces;
    unsigned char is_ethernet[4];
} made;

static void put_half(struct bytes *out, unsigned number) {
    append(out, (unsigned char[]){number >> (made.is_big ? 8 : 0), number >> (made.is_big ? 0 : 8)}, 2);
}

static void put_number_of_block(struct bytes *out, uint32_t number) {
    put_half(out, made.is_big ? number >> 16 : number & 0xffff);
    put_half(out, made.is_big ? number & 0xffff : number >> 16);
}

// Writes a number over another.
static void set_number(unsigned char *at, uint32_t number, int is_big) {
    for (int i = 0; i < 4; i++)
        at[i] = number >> 8 * (is_big ? 3 - i : i);
}

static void add_random_words(struct bytes *out, size_t words) {
    for (; words; words--)
        put_number_of_block(out, one_in(2) ? draw_below(8) : draw());
}

static size_t begin_block(struct bytes *out, uint32_t kind) {
    size_t begin = out->length;
    put_number_of_block(out, kind);
    put_number_of_block(out, 0);
    return begin;
}

// Ends a block, with words after its body now and then, as options are.
static void end_block(struct bytes *out, size_t begin) {
    while ((out->length - begin) % 4)
        append(out, "", 1);
    add_random_words(out, one_in(4) ? draw_below(6) : 0);
    uint32_t total = out->length - begin + 4;
    put_number_of_block(out, total);
    set_number(out->at + begin + 4, total, made.is_big);
}

static void put_interface(struct bytes *out, unsigned link) {
    size_t begin = begin_block(out, INTERFACE);
    put_half(out, link);
    put_half(out, one_in(8) ? draw() : 0);
    put_number_of_block(out, one_in(2) ? 262144 : draw());
    end_block(out, begin);
    made.is_ethernet[made.interfaces++] = link == 1;
}

static void put_section(struct bytes *out) {
    static const unsigned links[] = {1, 1, 0, 101, 113, 256, 276};
    made.is_big = one_in(2);
    made.interfaces = 0;
    size_t begin = begin_block(out, SECTION);
    put_number_of_block(out, 0x1a2b3c4d);
    put_half(out, 1);
    put_half(out, one_in(4) ? draw() : 0);
    put_number_of_block(out, one_in(2) ? 0xffffffff : draw());
    put_number_of_block(out, one_in(2) ? 0xffffffff : draw());
    end_block(out, begin);
    put_interface(out, 1);
    for (size_t more = draw_below(4); more; more--)
        put_interface(out, PICK(links));
}

static void put_packet(struct bytes *out, unsigned interface, const unsigned char *data, uint32_t captured, uint32_t wire) {
    size_t begin = begin_block(out, PACKET);
    put_number_of_block(out, interface);
    put_number_of_block(out, draw());
    put_number_of_block(out, draw());
    put_number_of_block(out, captured);
    put_number_of_block(out, wire);
    append(out, data, captured);
    end_block(out, begin);
}

// A block that is passed over: of another type, or a packet of an interface that isn't Ethernet.
static void put_passed_over(struct bytes *out) {
    static const uint32_t kinds[] = {0, 2, 3, 4, 5, 10, 0x0bad, 0x40000bad, 0x06000000, 0x01000000};
    static const unsigned char data[40];
    unsigned interface = draw_below(made.interfaces);
    if (!made.is_ethernet[interface]) {
        put_packet(out, interface, data, draw_below(sizeof data), draw());
        return;
    }
    size_t begin = begin_block(out, PICK(kinds));
    add_random_words(out, draw_below(10));
    end_block(out, begin);
}

static unsigned draw_ethernet_interface(void) {
    unsigned interface;
    do
        interface = draw_below(made.interfaces);
    while (!made.is_ethernet[interface]);
    return interface;
}

// Makes a pcapng capture with the frames of a classic one, as far as they can be followed.
static void turn_to_pcapng(struct bytes *file) {
    static struct bytes out;
    find_frames(file);
    out.length = 0;
    put_section(&out);
    for (size_t i = 0; i < found.count; i++) {
        const unsigned char *frame = file->at + found.at[i];
        if (one_in(12))
            put_section(&out);
        if (one_in(6))
            put_passed_over(&out);
        put_packet(&out, draw_ethernet_interface(), frame + 16, number_of(frame + 8, found.is_big),
            number_of(frame + 12, found.is_big));
    }
    copy_bytes(file, &out);
}

// Changes of blocks.

// Where the blocks begin, as far as they can be followed, and the byte order of each.
static struct {
    size_t at[30000], length[30000], count;
    unsigned char is_big[30000];
} blocks;

static void find_blocks(const struct bytes *file) {
    int is_big = 0;
    blocks.count = 0;
    for (size_t at = 0; at + 12 <= file->length && blocks.count < LENGTH_OF(blocks.at);) {
        const unsigned char *block = file->at + at;
        if (big(block) == SECTION)
            is_big = big(block + 8) == 0x1a2b3c4d;
        size_t length = number_of(block + 4, is_big);
        if (length < 12 || length > file->length - at)
            return;
        blocks.at[blocks.count] = at;
        blocks.length[blocks.count] = length;
        blocks.is_big[blocks.count++] = is_big;
        at += length;
    }
}

// Finds the blocks, and draws one, if there is one of this kind mostly of that. Answers whether there is one.
static int draw_block(const struct bytes *file, uint32_t kind, size_t *number) {
    find_blocks(file);
    for (int tries = 0; tries < 30 && blocks.count; tries++) {
        *number = draw_below(blocks.count);
        if (!kind || number_of(file->at + blocks.at[*number], blocks.is_big[*number]) == kind)
            return 1;
    }
    return blocks.count > 0;
}

// Sets a number of four bytes in a block, counted from its end where the place is below 0.
static void set_in_block(struct bytes *file, size_t number, long place, uint32_t value) {
    size_t at = blocks.at[number] + place + (place < 0 ? blocks.length[number] : 0);
    if (at + 4 <= file->length)
        set_number(file->at + at, value, blocks.is_big[number]);
}

static void set_length_of_block(struct bytes *file) {
    static const int steps[] = {-8, -4, -3, -1, 0, 1, 2, 4, 8, 12};
    size_t number;
    if (!draw_block(file, 0, &number))
        return;
    uint32_t length = one_in(2) ? blocks.length[number] + PICK(steps) : one_in(2) ? draw_telling() : draw_below(80);
    size_t which = draw_below(3);
    if (which != 0)
        set_in_block(file, number, 4, length);
    if (which != 1)
        set_in_block(file, number, -4, length);
}

static void set_kind_of_block(struct bytes *file) {
    static const uint32_t kinds[] = {SECTION, INTERFACE, INTERFACE, PACKET, PACKET, 0, 3, 5, 0x0d0a0a0d};
    size_t number;
    if (draw_block(file, 0, &number))
        set_in_block(file, number, 0, PICK(kinds));
}

static void set_magic_of_section(struct bytes *file) {
    static const uint32_t magics[] = {0x1a2b3c4d, 0x4d3c2b1a, 0x4d3c2b1b, 0, 0x3c4d1a2b};
    size_t number;
    if (draw_block(file, SECTION, &number))
        set_in_block(file, number, 8, PICK(magics));
}

static void set_version_of_section(struct bytes *file) {
    size_t number;
    if (draw_block(file, SECTION, &number))
        set_in_block(file, number, 12, draw_below(3) << 16 | draw_below(3));
}

static void set_link(struct bytes *file) {
    size_t number;
    if (draw_block(file, INTERFACE, &number))
        set_in_block(file, number, 8, draw_below(3) << 16 | draw_below(3));
}

static void set_interface(struct bytes *file) {
    size_t number;
    if (draw_block(file, PACKET, &number))
        set_in_block(file, number, 8, one_in(2) ? draw_below(5) : draw_telling());
}

static void set_captured(struct bytes *file) {
    size_t number;
    if (!draw_block(file, PACKET, &number))
        return;
    uint32_t most = blocks.length[number] - 32;
    set_in_block(file, number, 20, one_in(2) ? most + draw_below(7) - 3 : one_in(2) ? draw_telling() : draw_below(most));
}

static void set_wire(struct bytes *file) {
    size_t number;
    if (draw_block(file, PACKET, &number))
        set_in_block(file, number, 24, one_in(2) ? draw() : draw_telling());
}

static void remove_block(struct bytes *file) {
    size_t number;
    if (draw_block(file, 0, &number))
        replace(file, blocks.at[number], blocks.length[number], 0, 0);
}

// Copies a block, or some after one another, to another place.
static void repeat_block(struct bytes *file) {
    static struct bytes copied;
    size_t number, length = 0;
    if (!draw_block(file, 0, &number))
        return;
    for (size_t more = 1 + draw_below(4), i = number; more && i < blocks.count; more--, i++)
        length += blocks.length[i];
    copied.length = 0;
    append(&copied, file->at + blocks.at[number], length);
    size_t at = one_in(8) ? file->length : blocks.at[draw_below(blocks.count)];
    for (size_t times = one_in(8) ? 1 + draw_below(20) : 1; times; times--)
        replace(file, at, 0, copied.at, copied.length);
}

static void insert_passed_over(struct bytes *file) {
    static struct bytes block;
    size_t number;
    if (!draw_block(file, 0, &number))
        return;
    made.is_big = blocks.is_big[number];
    made.interfaces = 1;
    made.is_ethernet[0] = 1;
    block.length = 0;
    put_passed_over(&block);
    replace(file, blocks.at[number], 0, block.at, block.length);
}

// Another byte in a packet where its frame has a type, a version or an address.
static void set_byte_of_packet(struct bytes *file) {
    static const unsigned char telling[] = {0, 1, 8, 0x45, 0x46, 0x44, 0x81, 0x88, 0xa8, 0xff};
    size_t number;
    if (draw_block(file, PACKET, &number) && blocks.length[number] > 32 + 42)
        file->at[blocks.at[number] + 28 + 12 + draw_below(30)] = one_in(2) ? draw() : PICK(telling);
}

static void (*const mutations_of_pcapng[])(struct bytes *) = {
    flip_bit, flip_bit, set_byte, set_byte, cut, cut, remove_piece, repeat_piece, add_bytes, cut_early, set_magic,
    set_length_of_block, set_length_of_block, set_length_of_block, set_kind_of_block, set_magic_of_section,
    set_version_of_section, set_link, set_link, set_interface, set_interface, set_captured, set_captured, set_captured,
    set_wire, remove_block, remove_block, repeat_block, repeat_block, repeat_block, insert_passed_over,
    insert_passed_over, set_byte_of_packet, set_byte_of_packet, set_byte_of_packet, change_nothing, change_nothing,
};
