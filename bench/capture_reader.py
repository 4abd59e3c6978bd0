"""Reads captures of both formats, for the trials: a plain reader beside the program's own.

A frame is its captured bytes and its length on the wire. A fault is its name on standard error and its place in bytes.
Classic captures are those of libpcap's file format, pcapng ones those of the Internet draft draft-ietf-opsawg-pcapng, by the
profile of docs/FORMATS.md.
"""

import struct
from pathlib import Path
from typing import NamedTuple

ORDERS = {b"\xa1\xb2\xc3\xd4": ">", b"\xd4\xc3\xb2\xa1": "<", b"\xa1\xb2\x3c\x4d": ">", b"\x4d\x3c\xb2\xa1": "<"}
LONGEST_FRAME = 262_144
MOST_FRAMES = MOST_BLOCKS = 1 << 24
ETHERNET = 1
PCAPNG = b"\x0a\x0d\x0d\x0a"
SECTION, INTERFACE, PACKET = 0x0A0D0D0A, 1, 6
SECTION_ORDERS = {b"\x1a\x2b\x3c\x4d": ">", b"\x4d\x3c\x2b\x1a": "<"}
LEAST_LENGTHS = {SECTION: 28, INTERFACE: 20, PACKET: 32}
LEAST_LENGTH = 12
CUTS = "cut frame", "cut block"


class Fault(NamedTuple):
    name: str
    place: int


class Reading(NamedTuple):
    """The frames before the first fault of a capture, and that fault, or none."""

    frames: list
    fault: Fault | None


class Refused(Exception):
    def __init__(self, name, place):
        super().__init__(name, place)
        self.fault = Fault(name, place)


def classic_order(data):
    """The byte order of a classic capture with a good header."""
    if len(data) >= 4 and data[:4] not in ORDERS:
        raise Refused("not a capture", 0)
    order = ORDERS.get(data[:4])
    if len(data) >= 8 and struct.unpack_from(order + "HH", data, 4) != (2, 4):
        raise Refused("version", 4)
    if len(data) >= 24 and struct.unpack_from(order + "I", data, 20) != (ETHERNET,):
        raise Refused("link", 20)
    if len(data) < 24:
        raise Refused("short header", len(data))
    return order


def classic_frames(data):
    """The frames of a classic capture."""
    lengths, at, count = struct.Struct(classic_order(data) + "II"), 24, 0
    while at < len(data):
        if count == MOST_FRAMES:
            raise Refused("too many frames", at)
        if len(data) - at < 16:
            raise Refused("cut frame", at)
        captured, wire = lengths.unpack_from(data, at + 8)
        if captured > LONGEST_FRAME:
            raise Refused("long frame", at)
        if len(data) - at - 16 < captured:
            raise Refused("cut frame", at)
        yield data[at + 16:at + 16 + captured], wire
        at += 16 + captured
        count += 1


class Section:
    """The byte order of a section of a pcapng capture, and the links of its interfaces."""

    def __init__(self, order):
        self.order = order
        self.links = []

    def numbers(self, data, place, count=1):
        """So many numbers of four bytes, or fewer where the capture ends."""
        piece = data[place:place + 4 * count]
        whole = len(piece) // 4
        return struct.unpack(f"{self.order}{whole}I", piece[:4 * whole])


def read_section_header(data, at):
    """The section that a header begins, and the length of the block, as far as the capture goes."""
    if len(data) - at < 12:
        raise Refused("cut block", at)
    order = SECTION_ORDERS.get(data[at + 8:at + 12])
    if order is None:
        raise Refused("byte order", at)
    section = Section(order)
    (length,) = section.numbers(data, at + 4)
    if length < LEAST_LENGTHS[SECTION] or length % 4:
        raise Refused("block", at)
    if len(data) - at >= 14 and struct.unpack_from(order + "H", data, at + 12) != (1,):
        raise Refused("version", at)
    return section, length


def test_packet(section, data, at, length):
    """Refuses an enhanced packet for its fixed numbers, as far as they are there."""
    for interface in section.numbers(data, at + 8):
        if interface >= len(section.links):
            raise Refused("interface", at)
    for captured in section.numbers(data, at + 20):
        if captured > LONGEST_FRAME:
            raise Refused("long frame", at)
        if captured + LEAST_LENGTHS[PACKET] > length:
            raise Refused("block", at)


def read_other_block(section, data, at):
    """The kind and the length of a block that is no section header, as far as the capture goes."""
    if len(data) - at < 8:
        raise Refused("cut block", at)
    kind, length = section.numbers(data, at, 2)
    if length < LEAST_LENGTHS.get(kind, LEAST_LENGTH) or length % 4:
        raise Refused("block", at)
    if kind == PACKET:
        test_packet(section, data, at, length)
    return kind, length


def pcapng_frames(data):
    """The frames of a pcapng capture, whose first four bytes are there."""
    section, at, count = None, 0, 0
    while at < len(data):
        if count == MOST_BLOCKS:
            raise Refused("too many blocks", at)
        if data[at:at + 4] == PCAPNG:
            section, length = read_section_header(data, at)
            kind = SECTION
        else:
            kind, length = read_other_block(section, data, at)
        if len(data) - at < length:
            raise Refused("cut block", at)
        if section.numbers(data, at + length - 4) != (length,):
            raise Refused("block tail", at)
        if kind == INTERFACE:
            section.links.append(struct.unpack_from(section.order + "H", data, at + 8)[0])
        if kind == PACKET:
            interface, _, _, captured, wire = section.numbers(data, at + 8, 5)
            if section.links[interface] == ETHERNET:
                yield data[at + 28:at + 28 + captured], wire
        at += length
        count += 1


def read(data):
    """The frames of a capture of either format, up to its first fault."""
    frames = []
    try:
        for frame in pcapng_frames(data) if data[:4] == PCAPNG else classic_frames(data):
            frames.append(frame)
    except Refused as refused:
        return Reading(frames, refused.fault)
    return Reading(frames, None)


def read_file(path):
    return read(Path(path).read_bytes())


def is_taken(fault, front):
    """Whether a run takes a capture with this first fault, or none: with `--front yes` up to a cut."""
    return fault is None or front and fault.name in CUTS
