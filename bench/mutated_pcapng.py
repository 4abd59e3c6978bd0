#!/usr/bin/env python3
"""Changes pcapng captures, and runs the program over them: mutated_pcapng.py PROGRAM FILES SEED [PROCESSES]

Draws a pcapng capture: up to three sections of either byte order, each with up to four interfaces, some of which aren't
Ethernet, with enhanced packets of all paddings, with blocks of other types, options and comments. Then it makes up to
four changes: in the numbers of a block, its order, its type or what is around it, or in any bytes. Each file is read by
`weigh` or by `report`, once with `--front yes` and once without. Status, standard output and standard error must be
those that a plain reader (`capture_reader.py`) and plain sums (`plain_runs.py`) predict by docs/FORMATS.md. What is
drawn for a file depends on SEED and its number alone, so it is the same for any number of PROCESSES, 2 if none is
given. Prints each run that ends otherwise and keeps its capture in a folder, and at the end how many runs ended by each
fault. FILES of 100,000 took 9 minutes of processors on 1 December 2026.
"""

import multiprocessing
import random
import struct
import sys
import tempfile
from collections import Counter
from pathlib import Path

import capture_reader
import capture_writer
import session_text
import worked_captures
from capture_reader import ETHERNET, INTERFACE, LONGEST_FRAME, PACKET, PCAPNG, SECTION
from capture_writer import ARP, CUSTOMER, IPV4, SERVICE, ethernet, ipv4
from plain_runs import Settings, refusal_of, run, session_of, weighed

ADDRESSES = 0x0A010203, 0x0A010204, 0x0A010303, 0x0A020304, 0x14010203, 0x14020304, 0, 0xFFFFFFFF
LINKS = *[ETHERNET] * 8, 0, 101, 113, 256, 276
OTHER_KINDS = 0, 2, 3, 4, 5, 9, 10, 0x0BAD, 0x40000BAD, 0x01000000, 0x06000000, 0x0A0D0A0D
WEIGH_SIDES = "0.0.0.0/0", "10.0.0.0/8", "10.1.0.0/16", "10.1.2.0/24", "10.1.2.3/32", "20.1.2.3/32"
TELLING = (0, 1, 2, 3, 4, 8, 11, 12, 13, 16, 19, 20, 21, 24, 27, 28, 31, 32, 33, 34, 35, 36, 37, 48, 64, 68, 255, 256,
    65535, 65536, LONGEST_FRAME - 1, LONGEST_FRAME, LONGEST_FRAME + 1, LONGEST_FRAME + 32, 0x7FFFFFFC, 0x7FFFFFFF,
    0x80000000, 0xFFFFFFE0, 0xFFFFFFFC, 0xFFFFFFFF)
# What the tables of a run may be short of: the captures with more pairs of addresses than that aren't compared.
CAPACITY = 128
MOST_KEPT = 50


class Block:
    """A block of a capture, and the byte order of its section."""

    def __init__(self, order, kind, data):
        self.order, self.kind, self.data = order, kind, bytearray(data)

    def copy(self):
        return Block(self.order, self.kind, self.data)

    def put(self, place, number, form="I"):
        """Writes a number where the block has room for it."""
        packed = struct.pack(self.order + form, number)
        if place >= 0 and place + len(packed) <= len(self.data):
            self.data[place:place + len(packed)] = packed

    def put_length(self, length):
        self.put(4, length)
        self.put(len(self.data) - 4, length)


def draw_options(source):
    """Options of a block, now and then an end of them, or bytes that are none."""
    if source.random() < 0.6:
        return lambda order: b""
    options = [(source.randrange(1, 20), source.randbytes(source.randrange(10))) for _ in range(source.randrange(4))]
    ending = source.choice((b"", bytes(4), source.randbytes(4 * source.randrange(4))))
    return lambda order: b"".join(capture_writer.option(order, *option) for option in options) + ending


def draw_frame(source):
    """A frame, and its length on the wire."""
    types = source.choice((*[[IPV4]] * 8, [ARP], [CUSTOMER, IPV4], [SERVICE, CUSTOMER, IPV4], [CUSTOMER] * 4))
    header = ipv4(source.choice(ADDRESSES), source.choice(ADDRESSES), source.choice((*[0x45] * 12, 0x46, 0x44, 0x60)))
    frame = ethernet(*types, behind=header + bytes(source.randrange(8)))
    if source.random() < 0.08:
        frame = frame[:source.randrange(len(frame) + 1)]
    if source.random() < 0.002:
        frame += bytes(LONGEST_FRAME - len(frame))
    wire = source.choice((len(frame), 100, 200, 300, 1514, 0, source.getrandbits(source.choice((11, 32)))))
    return frame, wire


def draw_other_block(source, order):
    kind = source.choice(OTHER_KINDS)
    return Block(order, kind, capture_writer.block(order, kind, source.randbytes(4 * source.randrange(12))))


def draw_interface(source, order):
    return Block(order, INTERFACE, capture_writer.interface(order, source.choice(LINKS),
        source.choice((0, 34, LONGEST_FRAME)), draw_options(source)(order), source.choice((0, 0, 1, 65535))))


def draw_section(source):
    """The blocks of a section."""
    order = source.choice("<>")
    blocks = [Block(order, SECTION, capture_writer.section_header(order, 1, source.choice((0, 0, 2, 65535)),
        source.choice((capture_writer.UNKNOWN_LENGTH, 0, source.getrandbits(40))), draw_options(source)(order)))]
    interfaces = 0
    for _ in range(source.randrange(1, 16)):
        drawn = source.random()
        if drawn < 0.1 or interfaces == 0 and drawn < 0.9:
            blocks.append(draw_interface(source, order))
            interfaces += 1
        elif drawn < 0.85 and interfaces:
            number, time = source.randrange(interfaces), source.getrandbits(64)
            blocks.append(Block(order, PACKET, capture_writer.packet(order, number, *draw_frame(source), time,
                draw_options(source)(order))))
        else:
            blocks.append(draw_other_block(source, order))
    return blocks


def draw_capture(source):
    return [block for _ in range(source.choice((1, 1, 1, 2, 3))) for block in draw_section(source)]


# Changes of blocks. Each is given the blocks and the place of one of them.

def change_length(source, blocks, at):
    block = blocks[at]
    length = source.choice((len(block.data) + source.choice((-8, -4, -1, 1, 4, 8)), source.choice(TELLING)))
    source.choice((block.put_length, lambda it: block.put(4, it), lambda it: block.put(len(block.data) - 4, it)))(
        length & 0xFFFFFFFF)


def change_kind(source, blocks, at):
    blocks[at].put(0, source.choice((INTERFACE, PACKET, SECTION, *OTHER_KINDS)))


def change_number(source, blocks, at):
    """Another number in the place of one that the block has, mostly of those that decide how it is read."""
    block = blocks[at]
    if block.kind == SECTION:
        place, form = source.choice(((8, "I"), (12, "H"), (12, "H"), (14, "H"), (16, "I"), (20, "I")))
    elif block.kind == INTERFACE:
        place, form = source.choice(((8, "H"), (8, "H"), (8, "H"), (10, "H"), (12, "I")))
    elif block.kind == PACKET:
        place, form = source.choice(((8, "I"), (8, "I"), (20, "I"), (20, "I"), (24, "I"), (12, "I")))
    else:
        place, form = 4 * source.randrange(max(1, len(block.data) // 4)), "I"
    number = source.choice((source.choice(TELLING), source.randrange(4), source.getrandbits(32)))
    block.put(place, number & (0xFFFF if form == "H" else 0xFFFFFFFF), form)


def change_captured(source, blocks, at):
    """A number of captured bytes near that which the block has room for."""
    packets = [block for block in blocks if block.kind == PACKET]
    if packets:
        block = source.choice(packets)
        block.put(20, max(0, len(block.data) - 32 + source.choice((-4, -3, -2, -1, 0, 0, 1, 2, 3, 4))))


def change_order(source, blocks, at):
    """The other byte order in one number of a block."""
    data, place = blocks[at].data, 4 * source.choice((0, 1, 2, 5, len(blocks[at].data) // 4 - 1))
    data[place:place + 4] = data[place:place + 4][::-1]


def remove_block(source, blocks, at):
    del blocks[at]


def repeat_block(source, blocks, at):
    blocks.insert(source.randrange(len(blocks) + 1), blocks[at].copy())


def repeat_blocks(source, blocks, at):
    end = min(len(blocks), at + source.randrange(1, 6))
    blocks[at:at] = [block.copy() for block in blocks[at:end]] * source.randrange(1, 4)


def move_block(source, blocks, at):
    blocks.insert(source.randrange(len(blocks)), blocks.pop(at))


def insert_block(source, blocks, at):
    draw = source.choice((draw_other_block, draw_interface))
    blocks.insert(at + 1, draw(source, blocks[at].order))


def insert_section(source, blocks, at):
    blocks[at:at] = draw_section(source)


def resize_body(source, blocks, at):
    """More or fewer bytes behind the body, and lengths that say so."""
    data, words = blocks[at].data, source.choice((-2, -1, 1, 2))
    if words > 0:
        data[-4:-4] = source.randbytes(4 * words)
    else:
        del data[4 * words - 4:-4]
    blocks[at].put_length(len(data))


def cut_in_block(source, blocks, at):
    """The end of the file behind the first bytes of a block, of which a number is changed now and then."""
    if source.random() < 0.7:
        source.choice((change_number, change_number, change_length, change_order))(source, blocks, at)
    del blocks[at].data[source.randrange(1, 36):]
    del blocks[at + 1:]


def nothing(source, blocks, at):
    pass


CHANGES_OF_BLOCKS = (change_length, change_length, change_length, change_kind, change_number, change_number, change_number,
    change_captured, change_captured, change_order, remove_block, repeat_block, repeat_blocks, move_block, insert_block,
    insert_section, resize_body, resize_body, cut_in_block, cut_in_block, nothing)


# Changes of bytes. Each answers the bytes that it makes of some.

def cut(source, data):
    return data[:source.randrange(len(data) + 1)]


def cut_early(source, data):
    return data[:source.randrange(80)]


def flip_bit(source, data):
    place, changed = source.randrange(len(data)), bytearray(data)
    changed[place] ^= 1 << source.randrange(8)
    return bytes(changed)


def set_byte(source, data):
    place, changed = source.randrange(len(data)), bytearray(data)
    changed[place] = source.choice((0, 1, 6, 0x7F, 0x80, 0xFF, source.getrandbits(8)))
    return bytes(changed)


def remove_piece(source, data):
    at = source.randrange(len(data))
    return data[:at] + data[at + source.choice((1, 2, 4, 16, source.randrange(64))):]


def insert_piece(source, data):
    at, length = source.randrange(len(data) + 1), source.choice((1, 2, 4, 16, source.randrange(64)))
    return data[:at] + source.choice((bytes(length), source.randbytes(length), data[:length])) + data[at:]


def set_magic(source, data):
    spelled = (PCAPNG, PCAPNG, b"\x0d\x0a\x0a\x0d", b"\x0a\x0d\x0a\x0d", b"\x1f\x8b\x08\x00", *capture_reader.ORDERS)
    return source.choice(spelled) + data[4:]


def put_classic_before(source, data):
    """A classic capture, whose second frame is the pcapng one."""
    order, magic = source.choice((("<", 0xA1B2C3D4), (">", 0xA1B2C3D4), ("<", 0xA1B23C4D)))
    return capture_writer.classic(order, magic, [draw_frame(source), (data[:LONGEST_FRAME], len(data))])


def put_classic_behind(source, data):
    return data + capture_writer.classic("<", 0xA1B2C3D4, [draw_frame(source)])


def put_behind_itself(source, data):
    return data + data


CHANGES_OF_BYTES = (cut, cut, cut, cut_early, flip_bit, flip_bit, set_byte, set_byte, remove_piece, insert_piece, set_magic,
    put_classic_before, put_classic_behind, put_behind_itself)


def draw_data(source):
    """The bytes of a changed capture."""
    blocks, changes = draw_capture(source), source.choice((0, 1, 1, 1, 1, 2, 2, 3, 4))
    of_bytes = sum(source.random() < 0.35 for _ in range(changes))
    for _ in range(changes - of_bytes):
        if blocks:
            source.choice(CHANGES_OF_BLOCKS)(source, blocks, source.randrange(len(blocks)))
    data = b"".join(bytes(block.data) for block in blocks)
    for _ in range(of_bytes):
        data = source.choice(CHANGES_OF_BYTES)(source, data) if data else data
    return data


def draw_settings(source):
    return Settings((source.choice(WEIGH_SIDES), source.choice(WEIGH_SIDES)), source.choice((1, 1, 1, 3)),
        source.choice((1_000_000, 500_000, 200_000)), source.choice(("bytes", "bytes", "packets")),
        source.choice(("round", "source", "free")), source.choice((8, 8, 8, 4)), CAPACITY)


class Trial:
    """One changed capture, its settings, and the words of its runs without an option of the front."""

    def __init__(self, seed, number):
        source = random.Random(f"{seed} {number}")
        self.number, self.data, self.settings = number, draw_data(source), draw_settings(source)
        self.is_weighed = source.random() < 0.3
        self.no_front = source.choice(([], ["--front", "no"]))
        frames, self.fault = capture_reader.read(self.data)
        self.capture = session_text.count_frames(frames)
        self.is_compared = len({record[:2] for record in self.capture.records}) <= (64 if self.is_weighed else CAPACITY)

    def words(self, front):
        settings = self.settings
        words = ["weigh", *settings.prefix, "--weigh", settings.weigh] if self.is_weighed else ["report", *settings.words()]
        return [*words, *(["--front", "yes"] if front else self.no_front)]

    def ending(self, front):
        """How a run must end, and the name of that."""
        if not capture_reader.is_taken(self.fault, front):
            return refusal_of(self.fault), self.fault.name
        cut = self.fault.place if self.fault else None
        name = "taken up to a cut" if self.fault else "taken"
        return (0, weighed(self.settings, self.capture) if self.is_weighed else
            session_of(self.settings, self.capture, cut), ""), name


def try_numbers(program, seed, numbers, kept):
    """The ends of the runs over these captures, counted by their names, and the differences."""
    ends, differences = Counter(), []
    for number in numbers:
        trial = Trial(seed, number)
        if not trial.is_compared:
            ends["of too many pairs, not compared"] += 1
            continue
        for front in (True, False):
            wanted, name = trial.ending(front)
            ends[name] += 1
            found = run(program, trial.words(front), trial.data)
            if found != wanted:
                place = Path(kept, f"{number}.pcapng")
                place.write_bytes(trial.data)
                differences.append(f"{' '.join(trial.words(front))} <{place}: {found} in place of {wanted}")
    return ends, differences


def try_piece(task):
    return try_numbers(*task)


def main():
    program, files, seed = sys.argv[1], int(sys.argv[2]), sys.argv[3]
    processes = int(sys.argv[4]) if len(sys.argv) > 4 else 2
    assert not worked_captures.wrong_readings(), "the plain reader is wrong"
    kept, ends, wrong = tempfile.mkdtemp(prefix="mutated_pcapng."), Counter(), 0
    tasks = [(program, seed, range(begin, min(files, begin + 100)), kept) for begin in range(0, files, 100)]
    with multiprocessing.Pool(processes) as pool:
        for more_ends, differences in pool.imap(try_piece, tasks):
            ends += more_ends
            wrong += len(differences)
            for difference in differences[:max(0, MOST_KEPT - wrong + len(differences))]:
                print(difference, flush=True)
    for name, count in sorted(ends.items()):
        print(f"{count} {name}")
    if not wrong:
        Path(kept).rmdir()
    print(f"{files} changed captures, {ends.total()} runs, {wrong} wrong")
    sys.exit(wrong > 0)


if __name__ == "__main__":
    main()
