#!/usr/bin/env python3
"""Runs over stores on a full disk, over those that can't be written, and two at once: store_places.py PROGRAM CAPTURE [PAIRS]

A small file system in memory holds the store, and other files leave it no page, one page, and so on, until a report with two
rounds ends well. Until then `format` and the report must end with 0 or with 6, disk fault: `format` then without a line, the
report with the beginning of a session, whose whole reports are true. Once there is room and the store is formatted anew, a
report must end well.

A store that can't be written must end with 6 and be as it was: one on a file system that is mounted to be read alone, and one
whose mode forbids it to another user.

Two reports are begun at once on one store, PAIRS times (50 unless given). Nothing prevents that, so only what was seen is
printed. Then they are begun under `flock`, and under `flock --nonblock`: the first must end well, and the second must go on
from its last save, or be refused with flock's own 1. Needs root, for the mounts and the other user. Prints the counts, and
ends with 1 if anything was wrong.
"""

import os
import subprocess
import sys
import tempfile
from collections import Counter
from pathlib import Path

import session_text
import store_bytes
from stored_capture import StoredCapture

program, capture = sys.argv[1:3]
pairs = int(sys.argv[3]) if sys.argv[3:] else 50
PAGE = 4096
NOBODY = 65534
runs, faults = Counter(), []


def run(*words, **options):
    ended = subprocess.run(words, capture_output=True, text=True, timeout=120, **options)
    return ended.returncode, ended.stdout, ended.stderr


def format_store(store):
    return run(*counted.format(store))


def test(holds, what):
    if not holds:
        faults.append(what)
        print(what, flush=True)


def opens_to(store):
    return counted.opening(Path(store).read_bytes())


def has_true_end(ended):
    return ended[0] == 0 and session_text.last_report(ended[1]) == counted.last_report


def begins_session(text):
    """Whether a text is that of a session, or its beginning, and its whole reports have a good audit."""
    try:
        counted.test_beginning(text, part)
    except AssertionError:
        return False
    return "opened 0 0\n".startswith(text[:11])


def full_disk(mounted):
    store, filler = f"{mounted}/store", f"{mounted}/filler"
    size = os.statvfs(mounted).f_blocks
    for free in range(size):
        Path(store).unlink(missing_ok=True)
        Path(filler).write_bytes(bytes(PAGE * (size - free)))
        status, text, line = format_store(store)
        runs[f"format on a full disk ended with {status}"] += 1
        ends_well = (status, text, line) == (0, "formatted\n", "")
        failed = (status, text, line) == (6, "", "hhh: disk fault\n")
        test(ends_well or failed, f"format, {free} pages free: {status} {text}{line}")
        if not ends_well:
            continue
        status, text, line = run(*counted.report("--store", store, "--rounds", "2"))
        runs[f"report on a full disk ended with {status}"] += 1
        if status == 0:
            test(has_true_end((status, text)), "another last report")
            print(f"a report with two rounds ends well with {free} pages free")
            break
        test((status, line) == (6, "hhh: disk fault\n") and begins_session(text), f"report, {free} pages free: {status} {line}")
        runs[f"after a disk fault the bytes of the store open to {opens_to(store)[0]}"] += 1
        Path(filler).unlink()
        formatted = format_store(store)[0] == 0
        test(formatted and has_true_end(run(*counted.report("--store", store))), "no report after formatting anew")
    Path(filler).unlink(missing_ok=True)


def unwritable(mounted, folder):
    store = f"{mounted}/store"
    format_store(store)
    before = Path(store).read_bytes()
    own = f"{folder}/own"
    Path(own).write_bytes(before)
    os.chmod(own, 0o444)
    os.chmod(folder, 0o755)
    subprocess.run(["mount", "-o", "remount,ro", mounted], check=True)
    for path, options in ((store, {}), (own, {"user": NOBODY, "group": NOBODY, "extra_groups": []})):
        for command in (counted.format(path), counted.report("--store", path)):
            ended = run(*command, **options)
            runs[f"{command[1]} over a store that can't be written ended with {ended[0]}"] += 1
            test(ended == (6, "", "hhh: disk fault\n") and Path(path).read_bytes() == before, f"{command[1]} {path}: {ended}")
    subprocess.run(["mount", "-o", "remount,rw", mounted], check=True)


def begin_two(words, store):
    """Begins two runs at once. Answers how each ended."""
    command = [*words, *counted.report("--store", store, "--rounds", "8", "--block", "64")]
    both = [subprocess.Popen(command, stdout=subprocess.PIPE, stderr=subprocess.PIPE, text=True) for _ in range(2)]
    texts = [process.communicate(timeout=120) for process in both]
    return [(process.returncode, *text) for process, text in zip(both, texts)]


def two_at_once(store):
    for _ in range(pairs):
        format_store(store)
        ends = begin_two([], store)
        good = sum(has_true_end(end) for end in ends)
        opens = opens_to(store)[0]
        later = run(*counted.report("--store", store))
        ended = " and ".join(sorted(str(end[0]) for end in ends))
        true = "true" if has_true_end(later) else "not true" if later[0] == 0 else later[2][:-1]
        runs[f"two at once ended with {ended}, {good} true last reports; the store opens to {opens}, later {true}"] += 1
    for words in (["flock", store], ["flock", "--nonblock", store]):
        for _ in range(pairs):
            format_store(store)
            ends = begin_two(words, store)
            statuses = sorted(end[0] for end in ends)
            runs[f"two under {' '.join(words[:-1])} ended with {statuses[0]} and {statuses[1]}"] += 1
            well = [end for end in ends if end[0] == 0]
            refused = [end for end in ends if end == (1, "", "")]
            opened = sorted(end[1].split("\n")[0] for end in well)
            starts = ["opened 0 0", "opened " + " ".join(map(str, counted.ends))][:len(well)]
            test(all(map(has_true_end, well)) and opened == sorted(starts), f"under flock: {statuses} {opened}")
            test(len(well) + len(refused) == 2 and (not refused or "--nonblock" in words), f"under flock: {statuses}")
            test(opens_to(store) == (0, counted.ends), "the store doesn't open to the ends")


counted = StoredCapture(program, capture, store_bytes.Settings(2, 64, "bytes", "round"), 50_000)
with tempfile.TemporaryDirectory() as folder:
    part, mounted = f"{folder}/part", f"{folder}/mounted"
    os.mkdir(mounted)
    subprocess.run(["mount", "-t", "tmpfs", "-o", "size=1m", "none", mounted], check=True)
    try:
        full_disk(mounted)
        unwritable(mounted, folder)
    finally:
        subprocess.run(["umount", mounted], check=True)
    two_at_once(f"{folder}/store")
for what, count in sorted(runs.items()):
    print(f"{count}: {what}")
print(f"{sum(runs.values())} cases, {len(faults)} wrong")
sys.exit(bool(faults))
