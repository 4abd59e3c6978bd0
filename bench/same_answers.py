#!/usr/bin/env python3
"""Compares two builds of the program, as before and after a change of which no byte of any output should tell:
same_answers.py OLD NEW LINES SEED CAPTURE...

Draws command lines of `weigh`, `report`, `audit`, `format`, `make` and `demo` with any of the options that the first release
had: most words are good, and in some lines one is left out, comes twice, or has a value that is refused. A capture may be cut
or changed in one byte; the text for `audit` may be that of other settings, or lack a line; a store is missing, formatted or
saved, by the same settings or by others. Both programs run each line with a store of their own of the same bytes. Status,
standard output and standard error must be the same, and the bytes of the stores then, but for the version in a header and
the bits that the second version has there. A session whose rounds vary must have the same last report and as many reports.

Prints each line whose ends differ, and at the end the counts by command and status. What is drawn depends on the seed.
"""

import random
import subprocess
import sys
import tempfile
from collections import Counter
from pathlib import Path

import session_text
from stored_capture import least_share

SECONDS = 120
COMMON = ("capacity", "shards", "deal", "weigh", "phi")
OPTIONS = {
    "weigh": ("capture", "weigh"),
    "report": ("capture", "store", *COMMON, "workers", "block", "callers", "rounds"),
    "audit": ("capture", "report", *COMMON),
    "format": ("store", "capacity", "shards", "deal", "weigh"),
    "make": (),
    "demo": ("capacity", "shards", "deal", "phi", "workers", "block"),
}
GOOD = {
    "weigh": ("bytes", "packets"),
    "deal": ("round", "source", "free"),
    "shards": range(1, 17),
    "capacity": (2, 3, 64, 500, 512, 1000, 4096),
    "phi": (489, 3000, 4000, 10000, 31250, 50000, 400000, 1000000),
    "workers": range(1, 17),
    "block": (1, 7, 64, 1024, 65536),
    "callers": range(0, 9),
    "rounds": range(0, 5),
}
BAD = ("", "0", "00", "1e3", "-1", "+1", "17", "4097", "1000001", "65537", "99999999999999999999", "hash", "Bytes", "bytes ")
PREFIXES = ("0.0.0.0/0", "10.0.0.0/8", "10.64.0.0/16", "10.64.88.0/24", "10.64.88.105/32")
BAD_PREFIXES = ("10.0.0.1/8", "10.0.0.0/9", "10.0.0.0", "256.0.0.0/8", "10.0.0/24", "01.0.0.0/8", "10.0.0.0/08", "")
VERSION_PLACE, BITS_PLACE = 6, 12

old, new, lines, seed, captures = sys.argv[1], sys.argv[2], int(sys.argv[3]), int(sys.argv[4]), sys.argv[5:]
source = random.Random(seed)
ends, differences = Counter(), 0


def run(program, words, folder, given):
    """Status and both outputs of a run in a folder, as bytes."""
    try:
        ended = subprocess.run([program, *words], cwd=folder, input=given, capture_output=True, timeout=SECONDS)
    except subprocess.TimeoutExpired:
        return "hang", b"", b""
    return ended.returncode, ended.stdout, ended.stderr


def changed(data):
    """The bytes of a capture or a text, or with one chance in four cut somewhere, or with another byte."""
    kind = source.randrange(8)
    place = source.randrange(len(data)) if data else 0
    if kind == 0:
        return data[:place]
    if kind == 1 and data:
        return data[:place] + bytes([source.randrange(256)]) + data[place + 1:]
    return data


def without_a_line(text):
    """A session's text, or with one chance in four without one of the lines of its prefixes."""
    lines = text.splitlines(True)
    places = [place for place, line in enumerate(lines) if line.startswith(b"line")]
    if places and source.random() < 0.25:
        del lines[source.choice(places)]
    return b"".join(lines)


def draw_options(command):
    """The words of options, most of them good, in any order."""
    given = {name: str(source.choice(GOOD[name])) for name in OPTIONS[command] if name in GOOD and source.random() < 0.4}
    if "phi" in OPTIONS[command] and source.random() < 0.9:
        given["phi"] = str(max(int(given.get("phi", "10000")), least_share(int(given.get("capacity", "512")))))
    given |= {name: name for name in ("capture", "store", "report") if name in OPTIONS[command] and source.random() < 0.9}
    kind = source.randrange(12)
    if kind == 0 and given:
        given[source.choice(list(given))] = source.choice(BAD)
    words = [[f"--{name}", value] for name, value in given.items()]
    source.shuffle(words)
    if kind == 1 and words:
        words.append(source.choice(words))
    if kind == 2:
        words.append([source.choice(("--none", "-w", "--", "word", "--phi", "--store"))])
    return [word for pair in words for word in pair], given


def draw_line():
    """The words of a command line, and the values of its options."""
    command = source.choice(("weigh", "report", "report", "report", "audit", "audit", "format", "make", "demo"))
    options, given = draw_options(command)
    operands = []
    if command == "weigh":
        operands = [source.choice(BAD_PREFIXES if source.random() < 0.1 else PREFIXES) for _ in range(2)]
    elif command in ("make", "demo"):
        operands = [str(source.choice((0, 1, 7, 2**32, 2**64 - 1))), str(source.choice((0, 1, 2, 100, 3000)))]
        operands = [source.choice(BAD) if source.random() < 0.05 else word for word in operands]
    if source.random() < 0.05:
        operands = operands[:-1] if operands else ["more"]
    return command, [command, *operands, *options], given


def words_of(given, names):
    return [word for name in names if name in given for word in (f"--{name}", given[name])]


def prepare(folder, command, given):
    """Makes the files of a line: the capture, the text of a session, the store. Answers standard input."""
    data = changed(Path(source.choice(captures)).read_bytes())
    Path(folder, "capture").write_bytes(data)
    if command == "audit":
        fewer = {name: value for name, value in given.items() if source.random() < 0.97}
        text = run(old, ["report", "--capture", "capture", *words_of(fewer, COMMON)], folder, b"")[1]
        Path(folder, "report").write_bytes(changed(without_a_line(text)))
    if command in ("report", "format") and source.random() < 0.9:
        fewer = {name: value for name, value in given.items() if source.random() < 0.97}
        settings = words_of(fewer, ("capacity", "shards", "deal", "weigh"))
        run(old, ["format", "--store", "store", *settings], folder, b"")
        if source.random() < 0.5:
            run(old, ["report", "--capture", "capture", "--store", "store", "--workers", "1", *settings], folder, b"")
        if Path(folder, "store").exists():
            Path(folder, "store").write_bytes(changed(Path(folder, "store").read_bytes()))
    return data


def store_in(folder):
    """The bytes of the store, without the version and the bits in its header."""
    path = Path(folder, "store")
    data = bytearray(path.read_bytes()) if path.exists() else None
    for place in (VERSION_PLACE, BITS_PLACE) if data else ():
        data[place:place + 1] = b"?"
    return data


def answer(program, words, folder, given_input, varies):
    """What is compared of a run: its ends and its store, of a session whose rounds vary its last report and its length."""
    status, text, line = run(program, words, folder, given_input)
    if varies and status == 0:
        whole = text.decode()
        return status, session_text.last_report(whole), whole.count("\nreport\n"), line
    return status, text, line, store_in(folder)


def compare(words, command, given):
    with tempfile.TemporaryDirectory() as folder, tempfile.TemporaryDirectory() as other:
        given_input = prepare(folder, command, given)
        for path in Path(folder).iterdir():
            Path(other, path.name).write_bytes(path.read_bytes())
        varies = given.get("rounds", "0") != "0"
        one, two = (answer(program, words, place, given_input, varies) for program, place in ((old, folder), (new, other)))
        ends[command, two[0]] += 1
        if one != two:
            print(" ".join(map(repr, words)), one[:3], two[:3], sep="\n  ", flush=True)
            return 1
    return 0


for _ in range(lines):
    command, words, given = draw_line()
    differences += compare(words, command, given)
print(*(f"{command} {status}: {count}" for (command, status), count in sorted(ends.items(), key=str)), sep=", ")
print(f"{lines} command lines, {differences} with other ends")
sys.exit(differences > 0)
