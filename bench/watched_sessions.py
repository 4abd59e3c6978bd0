#!/usr/bin/env python3
"""Watches sessions, and compares the alarms with plain ones: watched_sessions.py PROGRAM SESSIONS SEED
                                                            watched_sessions.py PROGRAM largest FOLDER

Makes captures by `make`, and sessions over them by `report`, by 8 and by 4 bits, with callers and rounds. Half of the
sessions are put together from the reports of several others, in any order, some of them twice, with other lows and
highs. Each session is watched with six limits and prefixes. Status and both outputs must be what docs/FORMATS.md says:
there is an alarm where a line is under the prefix, its low reaches the limit, and no earlier report has such a line of
the same prefix. Beginnings of sessions, sessions of the other bits and bad words must be refused. Prints each run that
ends otherwise, and at the end the counts.

`largest` makes the longest sessions that may be read, of 268,435,456 bytes, in FOLDER, where they need 1 GB of disk, and
sessions of half their length: of reports of many lines or of one, each of which raises an alarm, of reports that repeat
their lines, and of reports without a line. Prints the processor time and the peak memory of `watch` over each, and how many times that of half the
length they are. One byte more must be refused. Needs the Debian package `time`.
"""

import random
import re
import subprocess
import sys
import tempfile
from collections import Counter
from pathlib import Path

import session_text
from plain_audit import NODES, is_under, kept, prefix_text, side_text
from plain_runs import run
from sizes import peak_of, times_of

MOST_SEVERITY = 7
GREATEST = (1 << 64) - 1
LONGEST_TEXT = 268_435_456
WATCHES = 6
BAD_WORDS = (
    (["--limit", "0"], "limits"),
    (["--limit", "5x"], "number"),
    (["--limit", str(GREATEST + 1)], "number"),
    ([], "refused"),
    (["--limit", "5", "--src", "10.0.0.1/8"], "prefix"),
    (["--limit", "5", "--dst", "10.0.0.0/12"], "prefix"),
    (["--limit", "5", "--bits", "4", "--dst", "10.0.0.0/18"], "prefix"),
    (["--limit", "5", "--bits", "5"], "limits"),
    (["--limit", "5", "--shards", "1"], "refused"),
)

program = sys.argv[1]


def alarms_of(reports, prefix, limit):
    """The alarms of a rule over reports: the number of the report, the prefix of the line, its low, the severity."""
    first = {}
    for number, report in enumerate(reports, 1):
        for line, low, _ in report.lines:
            if low >= limit:
                first.setdefault(line, number)
    return [(number, line, low, min(MOST_SEVERITY, low // limit)) for number, report in enumerate(reports, 1)
        for line, low, _ in report.lines if low >= limit and is_under(line, prefix) and first[line] == number]


def watch_text(alarms):
    lines = [f"alarm {number} {prefix_text(line)} {low} {severity}\n" for number, line, low, severity in alarms]
    return "".join(lines) + f"alarms {len(alarms)}\nend\n"


class Parts:
    """The text of a session as its first line, its reports and its last lines."""

    def __init__(self, text):
        begin, end = text.index("\n") + 1, text.rindex("frames ")
        self.first, self.last = text[:begin], text[end:]
        self.reports = re.split(r"(?<=\n)(?=report\n)", text[begin:end])

    def text(self):
        return self.first + "".join(self.reports) + self.last


def change_line(source, line):
    """Another low and high, of which the low is at most the high."""
    low, high = sorted(source.choice((int(line[3]), int(line[4]), source.getrandbits(source.choice((4, 20, 64)))))
        for _ in range(2))
    return f"line {line[1]} {line[2]} {low} {high}"


def mix(source, sessions):
    """A session of reports of others, with other lows and highs in some lines."""
    mixed = Parts(sessions[0])
    reports = [report for session in sessions for report in Parts(session).reports]
    reports = [source.choice(reports) for _ in range(source.randrange(1, 2 * len(reports) + 1))][:60]
    mixed.reports = [re.sub(r"line (\S+) (\S+) (\d+) (\d+)",
        lambda line: line[0] if source.random() < 0.7 else change_line(source, line), report) for report in reports]
    return mixed.text()


class Sessions:
    """The captures of a trial, and the sessions that `report` writes over them."""

    def __init__(self, source, folder):
        self.source, self.captures = source, []
        for number in range(5):
            self.captures.append(f"{folder}/capture{number}")
            frames = source.choice((1, 50, 2000, 20_000))
            with open(self.captures[-1], "wb") as out:
                subprocess.run([program, "make", str(number), str(frames)], stdout=out, check=True)

    def report(self, shards, bits):
        words = ["--shards", shards, "--bits", bits, "--phi", self.source.choice((4000, 20_000, 200_000)), "--callers",
            self.source.randrange(4), "--rounds", self.source.randrange(6), "--block", self.source.choice((1, 64, 1024))]
        ended = run(program, ["report", "--capture", self.source.choice(self.captures), *map(str, words)], b"")
        assert ended[0] == 0, ended
        return ended[1]

    def draw(self, bits):
        shards = self.source.choice((1, 2, 4))
        if self.source.random() < 0.5:
            return self.report(shards, bits)
        return mix(self.source, [self.report(shards, bits) for _ in range(self.source.randrange(1, 4))])


def draw_side(source, address, length, bits):
    """A shorter beginning of one side of a prefix, or that side, or now and then anything."""
    address = address if source.random() < 0.9 else source.getrandbits(32)
    length = source.choice([kept_bits for kept_bits, other in NODES[bits] if other == 0 and kept_bits <= length])
    return kept(address, length), length


def draw_rule(source, session, bits):
    """A prefix and a limit, mostly such that some lines are under it and reach the limit."""
    lines = [line for report in session.reports for line in report.lines]
    (one, one_bits, other, other_bits), low, _ = source.choice(lines) if lines else ((0, 32, 0, 32), 5, 5)
    if source.random() < 0.4:
        one_bits = other_bits = 0
    prefix = *draw_side(source, one, one_bits, bits), *draw_side(source, other, other_bits, bits)
    limit = source.choice((low, low, low + 1, low // 2, low // 7, low // 8, 1, GREATEST, source.getrandbits(40)))
    return prefix, min(GREATEST, max(1, limit))


def words_of(path, prefix, limit, bits):
    sides = ("--src", side_text(*prefix[:2])), ("--dst", side_text(*prefix[2:]))
    options = [word for side in sides if side[1] != "0.0.0.0/0" for word in side]
    return ["watch", "--report", path, "--limit", str(limit), *options, *(["--bits", "4"] if bits == 4 else [])]


def refused(text):
    return 12, "", f"hhh: bad report: {text}\n"


def bad_line_of(text):
    """The number of the first line of a session whose lengths aren't of whole bytes, or none."""
    for number, line in enumerate(text.split("\n"), 1):
        if any(int(length) % 8 for length in re.findall(r"/(\d+)", line)):
            return number
    return None


def watches_of(source, text, path, bits):
    """Words of watches over a session, what is in the file, and how each must end."""
    session = session_text.read_session(text)
    for _ in range(WATCHES):
        prefix, limit = draw_rule(source, session, bits)
        yield words_of(path, prefix, limit, bits), text, (0, watch_text(alarms_of(session.reports, prefix, limit)), "")
    part = text[:source.randrange(len(text))]
    yield words_of(path, (0, 0, 0, 0), 1, bits), part, refused(f"no end at line {part.count(chr(10)) + 1}")
    if bits == 4 and bad_line_of(text):
        yield words_of(path, (0, 0, 0, 0), 1, 8), text, refused(f"line {bad_line_of(text)}")
    words, fault = source.choice(BAD_WORDS)
    yield ["watch", "--report", path, *words], text, (2, "", f"hhh: bad words: {fault}\n")


def compare(sessions, seed):
    counts = Counter()
    source = random.Random(seed)
    with tempfile.TemporaryDirectory() as folder:
        drawn, path = Sessions(source, folder), f"{folder}/session"
        for _ in range(sessions):
            bits = source.choice((8, 4))
            for words, text, wanted in watches_of(source, drawn.draw(bits), path, bits):
                Path(path).write_text(text)
                found = run(program, words, b"")
                counts["refused" if wanted[0] else "watched"] += 1
                counts["alarms"] += wanted[1].count("alarm ")
                counts["without an alarm"] += wanted[1] == "alarms 0\nend\n"
                if found != wanted:
                    counts["wrong"] += 1
                    print(f"{' '.join(words)}: {found} in place of {wanted}", flush=True)
    print(f"{sessions} sessions", *(f"{counts[name]} {name}" for name in ("watched", "without an alarm", "alarms",
        "refused", "wrong")), sep=", ")
    return counts["wrong"]


# The longest sessions, of one shard. Each is a first line, reports, and last lines.

FIRST, LAST = "opened 0\n", "frames 0\nskipped 0 0 0\nend\n"
LINES_OF_REPORT = 1000


def report_with(lines):
    return f"report\nat 0\ntotal 0\nthreshold 1\n{lines}done\n"


SHORTEST = len(report_with(""))
MOST_DIGITS = (("at 0", 7), ("total 0", 19), ("threshold 1", 19))


def report_of_length(length):
    """A report without a line that has this length, by longer numbers. They reach 45 bytes further."""
    text, more = report_with(""), length - SHORTEST
    for line, most in MOST_DIGITS:
        zeros = min(more, most)
        text = text.replace(f"{line}\n", f"{line[:-1]}1{'0' * zeros}\n" if zeros else f"{line}\n")
        more -= zeros
    return text


def reports_of_length(length):
    """Reports without a line that have this length together."""
    longest = SHORTEST + sum(most for _, most in MOST_DIGITS)
    while length > longest:
        part = min(longest, length - SHORTEST)
        yield report_of_length(part)
        length -= part
    yield report_of_length(length)


def distinct_lines(number, count=LINES_OF_REPORT):
    """The lines of a report, other ones for each number, and the alarms of them."""
    lines, alarms = [], []
    for place in range((number - 1) * count, number * count):
        prefix = f"10.{place >> 16}.{place >> 8 & 255}.{place & 255}/32 20.0.0.1/32"
        lines.append(f"line {prefix} 100 100\n")
        alarms.append(f"alarm {number} {prefix} 100 {MOST_SEVERITY}\n")
    return "".join(lines), "".join(alarms)


def repeated_lines(number):
    lines, alarms = distinct_lines(1)
    return lines, alarms if number == 1 else ""


def distinct_line(number):
    return distinct_lines(number, 1)


def no_lines(number):
    return "", ""


def write_longest(path, wanted, make_lines, length):
    """Writes a session of this length, and the text of its watch with the limit 1."""
    left, number, alarms = length - len(FIRST) - len(LAST), 0, 0
    with open(path, "w") as text, open(wanted, "w") as watched:
        text.write(FIRST)
        while True:
            lines, raised = make_lines(number + 1)
            report = report_with(lines)
            if left < len(report) + SHORTEST:
                break
            text.write(report)
            watched.write(raised)
            left, number, alarms = left - len(report), number + 1, alarms + raised.count("\n")
        for report in reports_of_length(left):
            text.write(report)
        text.write(LAST)
        watched.write(f"alarms {alarms}\nend\n")
    assert Path(path).stat().st_size == length


def writes(words, wanted, folder):
    """Whether a run ends well and writes what is in a file."""
    with open(f"{folder}/found", "w") as out:
        ended = subprocess.run([program, *words], stdout=out)
    return ended.returncode == 0 and subprocess.run(["cmp", f"{folder}/found", wanted]).returncode == 0


def measure_longest(place):
    wrong = 0
    kinds = ("1,000 lines a report, each with an alarm", distinct_lines), ("1,000 lines, repeated", repeated_lines), \
        ("one line a report, each with an alarm", distinct_line), ("no line", no_lines)
    print("| Reports | Bytes | Alarms | Processor time | Peak memory | times that of half the length |\n|---|---|---|---|---|---|")
    with tempfile.TemporaryDirectory(dir=place) as folder:
        path, wanted = f"{folder}/session", f"{folder}/wanted"
        words = ["watch", "--report", path, "--limit", "1"]
        for name, make_lines in kinds:
            before = None
            for length in (LONGEST_TEXT // 2, LONGEST_TEXT):
                write_longest(path, wanted, make_lines, length)
                if not writes(words, wanted, folder):
                    wrong += 1
                    print(f"wrong: {name}, {length} bytes")
                alarms = int(Path(wanted).read_text()[-20:].split("alarms ")[1].split("\n")[0])
                measured = min(times_of([program, *words])[1] for _ in range(3)), peak_of([program, *words])
                ratios = ", ".join(f"{now / half:.2f}" for now, half in zip(measured, before)) if before else ""
                print(f"| {name} | {length:,} | {alarms:,} | {measured[0] / 1000:.2f} s | {measured[1]:.0f} MB | {ratios} |",
                    flush=True)
                before = measured
        with open(path, "a") as text:
            text.write("\n")
        found = run(program, words, b"")
        if found != refused("too long"):
            wrong += 1
            print(f"one byte more: {found}")
    print(f"{2 * len(kinds) + 1} runs, {wrong} wrong")
    return wrong


def main():
    if sys.argv[2] == "largest":
        wrong = measure_longest(sys.argv[3])
    else:
        wrong = compare(int(sys.argv[2]), sys.argv[3])
    sys.exit(wrong > 0)


if __name__ == "__main__":
    main()
