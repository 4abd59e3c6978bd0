"""Reads captures and the texts of sessions, for the trials: a plain reader beside the program's own.

A prefix is a source, how many of its bits are kept, a destination, and how many of its bits are kept.
"""

import struct
from dataclasses import dataclass, field

import capture_reader


@dataclass
class Report:
    positions: list
    total: int
    threshold: int
    lines: list = field(default_factory=list)  # each a prefix, its low and its high


@dataclass
class Session:
    opened: list
    reports: list
    saved: dict  # the positions of the lines `saved`, by the number of the report before them
    frames: int
    skipped: list
    cut: int | None  # the place of the frame inside which the capture ended


@dataclass
class Capture:
    records: list  # each a source, a destination and a length on the wire
    frames: int
    skipped: list  # not IPv4, short, bad header


def read_capture(path):
    """The records and counts of a capture of either format that is not refused."""
    return count_frames(capture_reader.read_file(path).frames)


def count_frames(frames):
    """The records and counts of frames."""
    capture = Capture([], len(frames), [0, 0, 0])
    for captured, wire in frames:
        found = read_frame(captured[:42])
        if isinstance(found, int):
            capture.skipped[found] += 1
        else:
            capture.records.append((*found, max(len(captured), wire)))
    return capture


def read_frame(frame):
    """The addresses of a frame, or for which reason it is skipped."""
    place = 12
    for _ in range(2):
        if frame[place:place + 2] in (b"\x81\x00", b"\x88\xa8"):
            place += 4
    if len(frame) < place + 2:
        return 1
    if frame[place:place + 2] != b"\x08\x00":
        return 0
    header = frame[place + 2:]
    if len(header) < 20:
        return 1
    if header[0] >> 4 != 4 or header[0] & 15 < 5:
        return 2
    return struct.unpack_from(">II", header, 12)


def deal(capture, shards, dealing, weighing):
    """The lists of the shards."""
    lists = [[] for _ in range(shards)]
    for place, (source, destination, wire) in enumerate(capture.records):
        number = {"round": place, "source": source, "free": source ^ destination}[dealing]
        lists[number % shards].append((source, destination, wire if weighing == "bytes" else 1))
    return lists


def numbers(line):
    """The numbers of a line, after its first word."""
    return [int(word) for word in line.split()[1:]]


def read_side(text):
    address, length = text.split("/")
    bytes_of = [int(part) for part in address.split(".")]
    return int.from_bytes(bytes(bytes_of), "big"), int(length)


def read_session(text):
    """A session that isn't refused. Its frame is tested strictly, its lines are not."""
    lines = text.split("\n")
    assert lines[-1] == "" and lines[-2] == "end" and lines[0].startswith("opened "), "no whole session"
    session = Session(numbers(lines[0]), [], {}, 0, [], None)
    for line in lines[1:-2]:
        word = line.split(" ")[0]
        if word == "at":
            session.reports.append(Report(numbers(line), 0, 0))
        elif word == "total":
            session.reports[-1].total = numbers(line)[0]
        elif word == "threshold":
            session.reports[-1].threshold = numbers(line)[0]
        elif word == "line":
            _, source, destination, low, high = line.split(" ")
            prefix = (*read_side(source), *read_side(destination))
            session.reports[-1].lines.append((prefix, int(low), int(high)))
        elif word == "saved":
            session.saved[len(session.reports) - 1] = numbers(line)
        elif word == "frames":
            session.frames = numbers(line)[0]
        elif word == "skipped":
            session.skipped = numbers(line)
        elif word == "cut":
            session.cut = numbers(line)[0]
        else:
            assert line in ("report", "done"), line
    return session


def last_report(text):
    """The last report of a session's text, from its line `report` to its line `done`."""
    begin = text.rindex("report\n")
    return text[begin:text.index("done\n", begin)]


def whole_reports(text):
    """The whole reports of the beginning of a session, as a session's text, or none where there is no such report."""
    done = text.rfind("done\n")
    return None if done < 0 else text[:done] + "done\nframes 0\nskipped 0 0 0\nend\n"


def last_saved(text):
    """The positions of the last whole line `saved`, or of `opened` where there is none, or none."""
    found = None
    for line in text.split("\n")[:-1]:
        if line.startswith(("opened", "saved")):
            found = numbers(line)
    return found


# What may follow a line with this word. A line `saved` has the positions of the report before it.
NEXT_WORDS = {
    None: ["opened"],
    "opened": ["report"],
    "report": ["at"],
    "at": ["total"],
    "total": ["threshold"],
    "threshold": ["line", "done"],
    "line": ["line", "done"],
    "done": ["saved", "report", "frames"],
    "saved": ["report", "frames"],
    "frames": ["skipped"],
    "skipped": ["cut", "end"],
    "cut": ["end"],
    "end": [],
}


def fault_of_beginning(text):
    """The first line that can't be there in a session of which this is the beginning, or none."""
    *whole, rest = text.split("\n")
    last, positions = None, None
    for line in whole:
        word = line.split(" ")[0]
        if word not in NEXT_WORDS[last] or (word == "saved" and numbers(line) != positions):
            return line
        positions = numbers(line) if word == "at" else positions
        last = word
    word, space, _ = rest.partition(" ")
    fits = [next_word for next_word in NEXT_WORDS[last] if (next_word == word if space else next_word.startswith(word))]
    return None if rest == "" or fits else rest
