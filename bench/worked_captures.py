#!/usr/bin/env python3
"""Tests the plain reader and the program on a pcapng capture that was worked out by hand: worked_captures.py [PROGRAM]

The capture has one frame of 100 bytes from 10.1.2.3 to 20.1.2.3. Each case changes it, and names the frames and the
first fault that must come of it. Without PROGRAM only the reader is tested. Ends with 1 where a case is wrong.
"""

import sys

import capture_reader
from capture_reader import Fault
from plain_runs import refusal_of, run

WORKED = bytes.fromhex("""
    0a0d0d0a 1c000000 4d3c2b1a 01000000 ffffffff ffffffff 1c000000
    01000000 14000000 01000000 00000400 14000000
    06000000 44000000 00000000 00000000 00000000 22000000 64000000
    020000000002 020000000001 0800
    4500 0056 0000 0000 40 11 0000 0a010203 14010203
    0000 44000000""")
HEADER, INTERFACE, PACKET = WORKED[:28], WORKED[28:48], WORKED[48:]
OTHER_BLOCK = bytes.fromhex("05000000 10000000 00000000 10000000")


def changed(data, place, text):
    """Bytes with others from a place on."""
    other = bytes.fromhex(text)
    return data[:place] + other + data[place + len(other):]


def with_bytes(place, text):
    """The capture with other bytes from a place on."""
    return changed(WORKED, place, text)


# Each a name, the bytes, how many frames they have, and the first fault, or none.
CASES = [
    ("the capture", WORKED, 1, None),
    ("its first 100 bytes", WORKED[:100], 0, Fault("cut block", 48)),
    ("interface 1 in the packet", with_bytes(56, "01000000"), 0, Fault("interface", 48)),
    ("another last length", with_bytes(112, "48000000"), 0, Fault("block tail", 48)),
    ("captured bytes past the block", with_bytes(68, "25000000"), 0, Fault("block", 48)),
    ("another link", with_bytes(36, "6500"), 0, None),
    ("a block of another type before the packet", HEADER + INTERFACE + OTHER_BLOCK + PACKET, 1, None),
    ("no byte order", with_bytes(8, "00000000"), 0, Fault("byte order", 0)),
    ("another major version", with_bytes(12, "0200"), 0, Fault("version", 0)),
    ("another minor version", with_bytes(14, "0200"), 1, None),
    ("the first four bytes", WORKED[:4], 0, Fault("cut block", 0)),
    ("the first three bytes", WORKED[:3], 0, Fault("short header", 3)),
    ("the capture twice", WORKED + WORKED, 2, None),
    ("a second section without an interface", WORKED + HEADER + PACKET, 1, Fault("interface", 144)),
    ("a section header of 24 bytes", with_bytes(4, "18000000"), 0, Fault("block", 0)),
    ("a packet that is too long", with_bytes(68, "01000400"), 0, Fault("long frame", 48)),
    ("a length that is no multiple of 4", with_bytes(52, "45000000"), 0, Fault("block", 48)),
    ("seven bytes of a second block", WORKED + INTERFACE[:7], 1, Fault("cut block", 116)),
]


def wrong_readings():
    """The names of the cases that the plain reader reads otherwise."""
    readings = [(name, frames, fault, capture_reader.read(data)) for name, data, frames, fault in CASES]
    return [name for name, frames, fault, reading in readings if (frames, fault) != (len(reading.frames), reading.fault)]


def ending_of(frames, fault, front):
    """How `weigh 0.0.0.0/0 0.0.0.0/0` must end."""
    if capture_reader.is_taken(fault, front):
        return 0, f"low {100 * frames}\nhigh {100 * frames}\ntotal {100 * frames}\n", ""
    return refusal_of(fault)


def wrong_runs(program):
    for name, data, frames, fault in CASES:
        for front in (False, True):
            words = ["weigh", "0.0.0.0/0", "0.0.0.0/0", *(["--front", "yes"] if front else [])]
            wanted, found = ending_of(frames, fault, front), run(program, words, data)
            if found != wanted:
                yield f"{name}: {' '.join(words)}: {found} in place of {wanted}"


def main():
    wrong = wrong_readings() + [difference for program in sys.argv[1:2] for difference in wrong_runs(program)]
    for difference in wrong:
        print(difference)
    print(f"{len(CASES)} worked captures, {len(wrong)} wrong")
    sys.exit(bool(wrong))


if __name__ == "__main__":
    main()
