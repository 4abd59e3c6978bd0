#!/usr/bin/env python3
"""Makes what a stop of the machine leaves of stores, and runs over it: stopped_machines.py PROGRAM [--runs N] [--images N]
[--failing N] [--seed N] [--wrong FOLDER]

Each run is a `format` or a `report --store` over a made capture, with random settings, rounds, callers, workers and
block. Stores are of both versions; `format` writes version 2, so the script writes the first bytes of one of version
1. strace records what a run wrote to its store and to standard output, and when it synced. It begins on no file, on
bytes that are no store, on a store that was formatted only, on what an earlier run left at its end or when it was
killed, or on an image of a stop of an earlier run. From the record are made images of stops (`stop_images.py`): after
any of the run's steps, with what wasn't synced kept, dropped, torn or replaced by other bytes. Of each image is tested

- that its bytes open, by `store_bytes.py`, to the cut of the last whole line `saved`, or where there is none to the one at
  which the run opened, or else to the next cut that the run saves; each under its sequence, which counts the saves. Before
  the run's first sync and its line `opened` they open as the store did, and after the line `formatted` to no cut;
- that a report over it ends as these bytes say, goes on from there, and has the last report of a run without a store; where
  they are refused, that it does so once the store is formatted anew.

Of some runs (10 unless `--failing` says otherwise) each call of the system fails in turn, from the first on that names the
capture or the store: with EIO, those that may fill a disk also with ENOSPC, and those that a signal may interrupt with EINTR.
Where a thread beside the first makes as many calls of this name, that call fails there too. A run must go on after
EINTR, and where its store's folder can't be opened, since the first sync tries that again. Else a call on the store or
its folder must end it with 6, one on the capture with 4, a write to standard output with 5; any other call with one of
these, with 13 or with 0. It must have written the beginning of a session, whose whole reports have a good audit. What it
leaves, and an image of a stop in it, are tested as above.

Prints each wrong case with what to run to see it again; its files are put into FOLDER. Ends with a line of counts, and with 1
if anything was wrong. What is drawn depends on the seed; what the threads did doesn't. Needs strace.
"""

import argparse
import random
import shlex
import shutil
import signal
import subprocess
import sys
import tempfile
from collections import Counter
from dataclasses import dataclass
from functools import cached_property
from pathlib import Path

import session_text
import store_bytes
import stop_images
import system_calls
from stored_capture import LINES, StoredCapture, least_share, test

PER_CASE = 10
MOST_SPAN = 320_000  # bytes of a body, for the time that reading it in Python takes
STATUSES = {0, 4, 5, 6, 13}
# The system's C library aborts where it can't give back the stack of a thread. That is an end by a signal, as by a kill.
ABORTED = -signal.SIGABRT
# How the store of a run begins: as no store, formatted only, as an earlier run left it, as an image of a stop, or as a run
# left it that was killed, without a stop of the machine.
FORMAT_STARTS = ("nothing", "nothing", "left", "image", "killed")
REPORT_STARTS = ("nothing", "formatted", "left", "image", "image", "image", "killed", "killed", "killed")
REFUSED = (7, None)  # what a file opens to that is missing or no store


def up_to(source, least, most):
    """A number from least to most, small ones as often as great ones."""
    return min(most, int(least * ((most + 1) / least) ** source.random()))


def draw_settings(source):
    bits = source.choice((8, 8, 4))
    while True:
        settings = store_bytes.Settings(up_to(source, 1, 16), up_to(source, 2, 512),
            source.choice(store_bytes.WEIGHINGS), source.choice(store_bytes.DEALINGS), bits)
        if store_bytes.span_of(settings) <= MOST_SPAN:
            return settings


@dataclass
class Record:
    """A run that was recorded."""

    command: list
    kind: str  # how the store began
    start: stop_images.Stop
    before: list  # what the store may open to before the first sync of the run, or none for anything
    opened: tuple  # what its bytes opened to as the run read them
    traced: system_calls.Traced
    steps: list

    def stop_after(self, count):
        return stop_images.stop_after(self.start, self.steps[:count])

    def last_stop(self):
        return self.stop_after(len(self.steps))

    @cached_property
    def moments(self):
        """After how many steps the run may stop, and after how many of these more than one image may be left."""
        stop, unsafe = self.stop_after(0), []
        for count, step in enumerate([("begin",), *self.steps]):
            stop.take(step)
            if stop.is_open():
                unsafe.append(count)
        return range(len(self.steps) + 1), unsafe

    def draw_stop(self, source):
        """The stop after some steps, most times after those with which some writes aren't synced."""
        moments, unsafe = self.moments
        return self.stop_after(source.choice(unsafe if unsafe and source.random() < 0.7 else moments))

    def cut_after(self, saves):
        """What the store opens to after so many saves, or none where the run had no cut for as many."""
        if not saves:
            return self.opened
        cuts = positions_of(self.traced.text, "saved")
        # A save that isn't told may be that of the last report.
        cuts = cuts if len(cuts) >= saves else cuts + positions_of(self.traced.text, "at")[-1:]
        return (0, self.opened[1] + saves, cuts[saves - 1]) if len(cuts) >= saves else None

    def openings_at(self, stop):
        """What the store may open to after a stop, or none for anything."""
        missing = [] if stop.is_named or stop.text else [REFUSED]
        if self.command[1] == "format":
            if stop.text == "formatted\n" or stop.was_synced:
                return [empty_cut(self.command), *missing]
            return self.before if stop.pending == self.start.pending else None
        if not stop.was_synced and "\n" not in stop.text:
            return self.before
        if self.opened[0]:
            return [self.opened, *missing]
        saves = len(positions_of(stop.text, "saved"))
        return [self.cut_after(saves), self.cut_after(saves + 1), *missing]


def positions_of(text, word):
    """The positions of the whole lines with this word."""
    return [session_text.numbers(line) for line in text.split("\n")[:-1] if line.split(" ")[0] == word]


def empty_cut(command):
    return 0, 0, [0] * int(command[command.index("--shards") + 1])


class Case(StoredCapture):
    """A made capture and settings, with the records of the runs over them."""

    def __init__(self, program, folder, source):
        path, settings = f"{folder}/capture", draw_settings(source)
        with open(path, "wb") as capture:
            made = [str(source.randrange(1 << 64)), str(up_to(source, 1, 4000))]
            subprocess.run([program, "make", *made], stdout=capture, check=True)
        super().__init__(program, path, settings, up_to(source, least_share(settings.capacity), 1_000_000))
        self.store, self.part, self.records = f"{folder}/disk/store", f"{folder}/part", []
        Path(self.store).parent.mkdir()

    def opening_of(self, image):
        status, where = self.opening(image or b"")
        return (status, where) if status else (0, store_bytes.newest_sequence(image, self.settings), where)

    def put(self, image):
        """Makes the file of the store hold an image, or removes it."""
        if image is None:
            Path(self.store).unlink(missing_ok=True)
        else:
            Path(self.store).write_bytes(image)

    def taken(self):
        return Path(self.store).read_bytes() if Path(self.store).exists() else None

    def draw_words(self, source, most_rounds=32):
        rounds = source.choice((0, 1, 2, 3, up_to(source, 1, most_rounds)))
        words = ["--rounds", rounds, "--callers", source.choice((0, 0, 1, up_to(source, 1, 8))), "--block",
            up_to(source, 1, 4096), "--workers", up_to(source, 1, 16)]
        return [str(word) for word in words]

    def draw_start(self, is_format, source):
        """How the store begins in a run, its state, and what it may open to."""
        kind = source.choice(FORMAT_STARTS if is_format else REPORT_STARTS)
        if kind == "nothing":
            return kind, *self.at_rest(source.choice((None, None, b"", source.randbytes(source.randint(1, 4000)))))
        if kind == "formatted" or not self.records:
            self.put(self.records[-1].last_stop().kept() if self.records else source.randbytes(5000))
            self.format_store(self.store, source.choice(store_bytes.versions_of(self.settings.bits)))
            return "formatted", *self.at_rest(self.taken())
        record = source.choice(self.records)
        if kind == "left":
            return kind, *self.at_rest(record.last_stop().kept())
        stop = record.draw_stop(source)
        if kind == "image":
            return kind, *self.at_rest(stop_images.image_of(stop, source))
        return kind, stop, record.openings_at(stop)

    def at_rest(self, image):
        return stop_images.Stop(image or b"", has_file=image is not None), [self.opening_of(image)]

    def record(self, command, kind, start, before, *options):
        """Runs a command on the store as a stop left it."""
        image = start.image()
        self.put(image)
        traced = system_calls.trace(command, *options)
        steps = stop_images.steps_of(traced, self.store)
        return Record(command, kind, start, before, self.opening_of(image), traced, steps)

    def test_whole(self, record):
        """Tests a run in which nothing failed."""
        traced, stop = record.traced, record.last_stop()
        test(stop.text == traced.text, "other output than recorded")
        test(stop.kept() == (self.taken() or b""), "another store than recorded")
        if record.command[1] == "format":
            test((traced.status, traced.text) == (0, "formatted\n"), f"format: {traced.status} {traced.line}")
        elif record.opened[0]:
            test((traced.status, traced.text) == (record.opened[0], ""), f"{traced.status} {traced.line}")
        else:
            self.test_session(record)
        self.test_opening(record, stop, self.taken())

    def test_session(self, record):
        traced = record.traced
        test((traced.status, traced.line) == (0, ""), f"status {traced.status} {traced.line}")
        session = session_text.read_session(traced.text)
        test(session.opened == record.opened[2], "opened elsewhere")
        test(session_text.last_report(traced.text) == self.last_report, "another last report")
        test(list(session.saved.values())[-1] == self.ends, "the last cut isn't at the ends")
        headers = [store_bytes.header_in(image) for image in (record.start.kept(), self.taken())]
        test(headers[0] == headers[1], "another header")

    def test_opening(self, record, stop, image):
        found, openings = self.opening_of(image), record.openings_at(stop)
        test(openings is None or found in openings, f"opens to {found} in place of {openings}")

    def test_image(self, record, stop, image, words):
        self.test_opening(record, stop, image)
        self.put(image)
        ended = self.go_on(self.store, *words)
        if ended.returncode:
            self.format_store(self.store)
            ended = self.go_on(self.store, *words)
        test(session_text.last_report(ended.stdout) == self.last_report, "another last report")

    def statuses_after(self, call, fault):
        """With which statuses a run may end in which this call failed; 0 is that of one in which none did."""
        paths, folder = call.paths(), str(Path(self.store).parent)
        if call.name == "close" or call.descriptor() == 2:
            return {0}
        if call.name == "munmap":
            return {0, ABORTED}
        if fault == "EINTR" and call.name in system_calls.INTERRUPTED:
            return {0}
        if (self.store in paths or folder in paths) and system_calls.looks_for_folder(call, folder):
            return {0}
        if self.store in paths or folder in paths:
            return {6}
        if self.path in paths:
            return {4} if call.name in system_calls.INTERRUPTED else {0, 4}
        return {5} if call.descriptor() == 1 else STATUSES

    def test_failed(self, record, fault):
        """Tests a run in which a call failed. Answers whether one did."""
        traced = record.traced
        is_format = record.command[1] == "format"
        unfailed = 0 if is_format else record.opened[0]
        failed = [call for calls in traced.threads for call in calls if not call.was_made]
        after = [self.statuses_after(call, fault) for call in failed] or [{0}]
        allowed = {status or unfailed for status in set.union(*after)}
        test(traced.status in allowed, f"status {traced.status} {traced.line} in place of {allowed}")
        line = LINES.get(traced.status, "").format(record.opened[1])
        may_lack_line = traced.status == 13 or any(call.descriptor() == 2 for call in failed)
        test(traced.line == line or (may_lack_line and traced.line == ""), f"line {traced.line}")
        test(traced.status not in (4, 7, 8, 9, 10) or traced.text == "", "a text after a refusal")
        if is_format:
            test("formatted\n".startswith(traced.text) and (traced.status or traced.text), f"output {traced.text}")
        elif traced.status:
            self.test_beginning(traced.text, self.part)
        else:
            self.test_session(record)
        self.test_opening(record, record.last_stop(), self.taken())
        return bool(failed)


class Trial:
    """The runs, what is made of them, and the counts."""

    def __init__(self, words):
        self.words, self.counts, self.wrong = words, Counter(), words.wrong
        self.every = max(1, words.runs // words.failing) if words.failing else 0

    def tell(self, case, command, start, fault):
        """Prints a wrong case, and keeps its files."""
        self.counts["wrong"] += 1
        self.wrong = self.wrong or tempfile.mkdtemp(prefix="wrong_stores_")
        folder = Path(self.wrong, str(self.counts["wrong"]))
        folder.mkdir(parents=True, exist_ok=True)
        shutil.copyfile(case.path, folder / "capture")
        again = [word.replace(case.path, f"{folder}/capture").replace(case.store, f"{folder}/store") for word in command]
        if start is not None:
            (folder / "start").write_bytes(start)
        begin = f"rm -f {folder}/store" if start is None else f"cp {folder}/start {folder}/store"
        print(" ".join(str(fault).split()), f"\n  {begin}; {shlex.join(again)}", flush=True)

    def guard(self, case, command, start, action):
        """What an action gives, or none where it finds something wrong."""
        try:
            return action()
        except (AssertionError, ValueError, IndexError, subprocess.TimeoutExpired) as fault:
            self.tell(case, command, start, f"{type(fault).__name__}: {fault}")
            return None

    def run(self, case, source, number):
        is_format = number % 7 == 3
        kind, start, before = case.draw_start(is_format, source)
        has_failing = bool(self.every) and number % self.every == self.every - 1
        words = ["--store", case.store, *case.draw_words(source, 3 if has_failing else 32)]
        command = case.format(case.store) if is_format else case.report(*words)
        image = start.image()
        record = self.guard(case, command, image, lambda: case.record(command, kind, start, before))
        self.counts["runs"] += 1
        if record is None:
            return
        self.guard(case, command, image, lambda: case.test_whole(record))
        if record.traced.status == 0:
            case.records.append(record)
        for _ in range(self.words.images * (number + 1) // self.words.runs - self.counts["images"]):
            self.image(case, record, source, "images")
        if has_failing:
            self.failing(case, record, source)
        record.traced.threads.clear()

    def image(self, case, record, source, counted):
        """Tests an image of a stop in a recorded run."""
        stop = record.draw_stop(source)
        image, words = stop_images.image_of(stop, source), case.draw_words(source)
        self.counts[counted] += 1
        if counted == "images":
            self.counts["of second stops"] += record.kind in ("image", "killed")
            header = store_bytes.header_in(image or b"")
            self.counts["of version 1"] += header is not None and header.version == 1
            self.counts["by 4 bits"] += header is not None and header.settings.bits == 4
        self.guard(case, case.report("--store", case.store, *words), image, lambda: case.test_image(record, stop, image, words))

    def failing(self, case, record, source):
        """Lets each call of a recorded run fail."""
        for call, fault in system_calls.faults_of(record.traced.threads, (case.path, case.store)):
            options = system_calls.failing(call, fault)
            image, command = record.start.image(), system_calls.command_of(record.command, *options)
            failed = self.guard(case, command, image,
                lambda: case.record(record.command, record.kind, record.start, record.before, *options))
            if failed is None:
                continue
            self.counts["failing calls"] += bool(self.guard(case, command, image, lambda: case.test_failed(failed, fault)))
            left, words = case.taken(), case.draw_words(source, 3)
            again = case.report("--store", case.store, *words)
            self.guard(case, again, left, lambda: case.test_image(failed, failed.last_stop(), left, words))
            self.image(case, failed, source, "images after them")


def parse():
    parser = argparse.ArgumentParser()
    parser.add_argument("program", type=lambda path: str(Path(path).resolve()))
    for name, number in (("runs", 300), ("images", 5000), ("failing", 10), ("seed", 1)):
        parser.add_argument(f"--{name}", type=int, default=number)
    parser.add_argument("--wrong")
    return parser.parse_args()


def main():
    words = parse()
    trial = Trial(words)
    for first in range(0, words.runs, PER_CASE):
        with tempfile.TemporaryDirectory() as folder:
            case = Case(words.program, folder, random.Random(f"{words.seed} {first}"))
            for number in range(first, min(first + PER_CASE, words.runs)):
                trial.run(case, random.Random(f"{words.seed} {number} run"), number)
    names = ("runs", "images", "of second stops", "of version 1", "by 4 bits", "failing calls", "images after them",
        "wrong")
    print(*(f"{trial.counts[name]} {name}" for name in names), sep=", ")
    sys.exit(trial.counts["wrong"] > 0)


main()
