#!/usr/bin/env python3
"""Runs over each beginning of small captures, with `--front yes` and without: cut_captures.py PROGRAM

Makes five captures: a plain one, one with VLAN tags, one in the other byte order, and two pcapng ones, of which the
second has two sections of different byte orders. Over each beginning of them, from no byte to the whole capture, runs
`weigh`, `report` and `audit` under `--front yes`, under `--front no` and without the option. Status, standard output
and standard error must be what docs/FORMATS.md says. All of it is worked out by plain readers and sums, and nothing by
the program: where the capture is cut, which frames stand before that, and the report on them, since there are fewer
pairs of addresses than a table has entries. The session that `audit` reads is that of the frames before the cut. So
under `--front yes` it is good, and otherwise the capture is refused, whatever the session. Prints each run that ends
otherwise, and at the end the counts.
"""

import sys
import tempfile
from collections import Counter
from dataclasses import dataclass
from pathlib import Path

import capture_reader
import capture_writer
import session_text
from capture_writer import ARP, CUSTOMER, IPV4, SERVICE, ethernet, section
from plain_runs import Settings, refusal_of, run, session_of, weighed

YES = ["--front", "yes"]
FRONTS = YES, ["--front", "no"], []
SOURCES, DESTINATIONS = [0x0A010203, 0x0A010204, 0x0A020304], [0x14010203, 0x14020304]

program = sys.argv[1]


def ipv4(source, destination, first=0x45):
    """An IPv4 header between two of the addresses."""
    return capture_writer.ipv4(SOURCES[source], DESTINATIONS[destination], first)


def frames_of(*frames):
    """Frames, of each of which are given the captured bytes and how many more there were on the wire."""
    return [(captured, len(captured) + more) for captured, more in frames]


@dataclass
class Case:
    """A capture, and the settings of the runs over its beginnings."""

    name: str
    data: bytes
    settings: Settings


PLAIN = frames_of(
    (ethernet(IPV4, behind=ipv4(0, 0)), 66),
    (ethernet(ARP, behind=bytes(28)), 0),
    (b"", 60),
    (ethernet(IPV4, behind=ipv4(1, 0) + bytes(8)), 0),
    (ethernet(IPV4, behind=ipv4(0, 0)), 0),
)
TAGGED = frames_of(
    (ethernet(CUSTOMER, IPV4, behind=ipv4(0, 0)), 62),
    (ethernet(SERVICE, CUSTOMER, IPV4, behind=ipv4(1, 1)), 158),
    (ethernet(CUSTOMER, CUSTOMER, CUSTOMER, IPV4, behind=ipv4(0, 0)), 0),
    (ethernet(CUSTOMER, IPV4)[:15], 0),
    (ethernet(CUSTOMER, IPV4, behind=ipv4(2, 0)), 1000),
)
TURNED = frames_of(
    (ethernet(IPV4, behind=ipv4(2, 1)), 0),
    (ethernet(IPV4, behind=ipv4(1, 1)), 466),
    (ethernet(IPV4, behind=ipv4(1, 1, first=0x65)), 0),
    (ethernet(IPV4, behind=ipv4(1, 0)), 16),
    (ethernet(CUSTOMER, IPV4, behind=ipv4(0, 1)), 0),
)
COMMENT = capture_writer.option("<", 1, b"a comment")
SHORT_BLOCK = capture_writer.block("<", 5, b"")
ONE_SECTION = section("<", PLAIN) + SHORT_BLOCK + capture_writer.packet("<", 0, *TAGGED[0], options=COMMENT)
TWO_SECTIONS = section(">", TURNED, [1, 101]) + section("<", TAGGED, [1, 1, 1])
CASES = [
    Case("plain", capture_writer.classic("<", 0xA1B2C3D4, PLAIN),
        Settings(("10.1.2.3/32", "0.0.0.0/0"), 1, 1_000_000, "bytes", "round", 8)),
    Case("tagged", capture_writer.classic("<", 0xA1B2C3D4, TAGGED),
        Settings(("10.1.0.0/16", "20.0.0.0/8"), 4, 100_000, "bytes", "round", 8)),
    Case("turned", capture_writer.classic(">", 0xA1B23C4D, TURNED),
        Settings(("10.1.2.4/32", "20.2.3.4/32"), 3, 400_000, "packets", "free", 4)),
    Case("one section", ONE_SECTION, Settings(("10.1.2.3/32", "20.1.2.3/32"), 2, 300_000, "bytes", "source", 8)),
    Case("two sections", TWO_SECTIONS, Settings(("10.0.0.0/8", "20.2.0.0/16"), 1, 200_000, "bytes", "round", 4)),
]


def endings_of(fault, front, texts):
    """How `weigh`, `report` and `audit` must end: the status, and what is on standard output and standard error."""
    if capture_reader.is_taken(fault, front == YES):
        return [(0, text, "") for text in (*texts, "good 1\n")]
    return [refusal_of(fault)] * 3


def commands_of(case, front, path, session):
    """The command lines: the first reads standard input, the others a file."""
    settings = case.settings
    return [
        ["weigh", *settings.prefix, "--weigh", settings.weigh, *front],
        ["report", "--capture", path, *settings.words(), *front],
        ["audit", "--capture", path, *settings.words(), "--report", session, *front],
    ]


def endings_over(case, length, folder):
    """For each run over a beginning of a capture its words, how it must end and how it ends."""
    path, session, data = f"{folder}/capture", f"{folder}/session", case.data[:length]
    frames, fault = capture_reader.read(data)
    capture = session_text.count_frames(frames)
    cut = fault.place if capture_reader.is_taken(fault, True) and fault else None
    texts = weighed(case.settings, capture), session_of(case.settings, capture, cut)
    Path(path).write_bytes(data)
    Path(session).write_text(texts[1])
    for front in FRONTS:
        for words, wanted in zip(commands_of(case, front, path, session), endings_of(fault, front, texts)):
            yield words, wanted, run(program, words, data)


def main():
    ends, wrong, beginnings = Counter(), 0, [(case, length) for case in CASES for length in range(len(case.data) + 1)]
    with tempfile.TemporaryDirectory() as folder:
        for case, length in beginnings:
            for words, wanted, found in endings_over(case, length, folder):
                ends["refused" if wanted[0] else "ended well"] += 1
                ends["with a line cut"] += "\ncut " in wanted[1]
                if found != wanted:
                    wrong += 1
                    print(f"{case.name}, {length} bytes: {' '.join(words)}: {found} in place of {wanted}", flush=True)
    names = ("refused", "ended well", "with a line cut")
    print(f"{len(beginnings)} beginnings of {len(CASES)} captures", *(f"{ends[name]} {name}" for name in names),
        f"{wrong} wrong", sep=", ")
    sys.exit(wrong > 0)


main()
