"""Reads and writes captures for the tools beside it: the four spellings of libpcap's file format 2.4."""

import os
import signal
import struct
import sys

SPELLINGS = {b"\xa1\xb2\xc3\xd4": ">", b"\xd4\xc3\xb2\xa1": "<", b"\xa1\xb2\x3c\x4d": ">", b"\x4d\x3c\xb2\xa1": "<"}
ETHERNET = 1
MOST_CAPTURED = 262_144
TAGS = (b"\x81\x00", b"\x88\xa8")


def rewrite(change, links, refusal):
    """Passes the capture on standard input on to standard output as one of Ethernet frames.

    `change` takes the link type, a frame's captured bytes and its length on the wire, and returns the two that it gets.
    Its time stamps stay. The end of a pipe ends the tool. A link type that isn't in `links` ends it with a line and 1
    before it writes anything, as a standard input does that doesn't block, and a frame that is cut off after the frames
    before it.
    """
    signal.signal(signal.SIGPIPE, signal.SIG_DFL)
    # Unlike a standard output that isn't buffered, this one writes all that it is given.
    source, sink = sys.stdin.buffer, open(1, "wb", closefd=False)
    if not os.get_blocking(source.fileno()):
        sys.exit(f"{sys.argv[0]}: standard input doesn't block; </dev/stdin opens a pipe anew")
    header = source.read(24)
    order = SPELLINGS.get(header[:4])
    if order is None or len(header) < 24:
        sys.exit(f"{sys.argv[0]}: not a capture; of pcapng, editcap -F pcap makes one")
    # The upper bits say whether a frame ends with a checksum.
    link = struct.unpack(order + "I", header[20:])[0] & 0xFFFF
    if link not in links:
        sys.exit(f"{sys.argv[0]}: link type {link} {refusal}")
    sink.write(header[:16] + struct.pack(order + "II", MOST_CAPTURED, ETHERNET))
    lengths = struct.Struct(order + "II")
    while head := source.read(16):
        captured, wire = lengths.unpack(head[8:]) if len(head) == 16 else (0, 0)
        frame = source.read(min(captured, MOST_CAPTURED))
        if len(head) < 16 or len(frame) < captured:
            sink.flush()
            sys.exit(f"{sys.argv[0]}: the last frame is cut off or too long, and is left out")
        frame, wire = change(link, frame, wire)
        sink.write(head[:8] + lengths.pack(len(frame), wire) + frame)
    sink.flush()


def type_offset(frame):
    """Where an Ethernet frame has its type, after up to two VLAN tags."""
    offset = 12
    for _ in range(2):
        if frame[offset : offset + 2] in TAGS:
            offset += 4
    return offset
