#!/usr/bin/env python3
"""Writes captures of both formats, for the trials.

usage: capture_writer.py < CLASSIC > PCAPNG    writes the frames of a classic capture as a pcapng one, as `dumpcap` does:
                                               little-endian, one section, one interface, no options of packets
"""

import struct
import sys

import capture_reader
from capture_reader import ETHERNET, INTERFACE, LONGEST_FRAME, PACKET, SECTION

CUSTOMER, SERVICE, IPV4, ARP = 0x8100, 0x88A8, 0x0800, 0x0806
UNKNOWN_LENGTH = (1 << 64) - 1


def ipv4(source, destination, first=0x45):
    """An IPv4 header between two addresses."""
    return struct.pack(">BBHHHBBHII", first, 0, 20, 0, 0, 64, 17, 0, source, destination)


def ethernet(*types, behind=b""):
    """An Ethernet frame: its types, the last of which isn't a tag's, and what is behind them."""
    tags = b"".join(struct.pack(">HH", tag, 7) for tag in types[:-1])
    return bytes(range(12)) + tags + struct.pack(">H", types[-1]) + behind


def classic(order, magic, frames):
    """A classic capture of frames, each with its captured bytes and its length on the wire."""
    pieces = [struct.pack(order + "IHHIIII", magic, 2, 4, 0, 0, LONGEST_FRAME, ETHERNET)]
    for time, (captured, wire) in enumerate(frames):
        pieces.append(struct.pack(order + "IIII", time, 0, len(captured), wire) + captured)
    return b"".join(pieces)


def padded(data):
    return data + bytes(-len(data) % 4)


def block(order, kind, body):
    """A block of a pcapng capture with a body of whole words."""
    length = struct.pack(order + "I", 12 + len(body))
    return struct.pack(order + "I", kind) + length + body + length


def option(order, code, value):
    return struct.pack(order + "HH", code, len(value)) + padded(value)


def section_header(order, major=1, minor=0, length=UNKNOWN_LENGTH, options=b""):
    return block(order, SECTION, struct.pack(order + "IHHQ", 0x1A2B3C4D, major, minor, length) + options)


def interface(order, link=ETHERNET, snaplen=LONGEST_FRAME, options=b"", reserved=0):
    return block(order, INTERFACE, struct.pack(order + "HHI", link, reserved, snaplen) + options)


def packet(order, number, captured, wire, time=0, options=b""):
    """An enhanced packet on the interface of this number in its section."""
    lengths = struct.pack(order + "IIIII", number, time >> 32, time & 0xFFFFFFFF, len(captured), wire)
    return block(order, PACKET, lengths + padded(captured) + options)


def section(order, frames, links=(ETHERNET,)):
    """A section with an interface of each link, whose frames go round its interfaces, one each second."""
    pieces = [section_header(order), *(interface(order, link) for link in links)]
    for place, (captured, wire) in enumerate(frames):
        pieces.append(packet(order, place % len(links), captured, wire, 1_000_000 * place))
    return b"".join(pieces)


def main():
    frames, fault = capture_reader.read(sys.stdin.buffer.read())
    if fault:
        sys.exit(f"{sys.argv[0]}: {fault.name} at {fault.place}")
    sys.stdout.buffer.write(section("<", frames))


if __name__ == "__main__":
    main()
