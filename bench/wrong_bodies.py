#!/usr/bin/env python3
"""Tries the wrong bodies that the gate leaves out: wrong_bodies.py [CRATE...] [--only WORD] [--jobs N]

They are the edits in `more-wrong-bodies/` of these crates, of all crates where none is named; with --only those whose name
has WORD. `rt must-fail` tries them, one crate after the other, on N processors (2 unless given), in a copy of the repository
in which they stand in `must-fail/`. There it begins with what `rt check` kept in the checkout, and tries nothing again that
it tried of the same files before. The copy lies in a temporary folder, and is removed at the end. Prints what is said of
each, how many of each crate were refused and in how many seconds, and at the end the counts. Ends with 1 where one isn't
refused, or a crate isn't proved as it stands. Needs `rt`.
"""

import argparse
import os
import random
import re
import shutil
import signal
import subprocess
import sys
import tempfile
import time
from collections import Counter
from pathlib import Path

TOP = Path(__file__).resolve().parent.parent
KINDS = ("refused", "NOT REFUSED", "BAD EDIT", "NOT TRIED")


def copy_into(folder):
    """Makes a copy of the repository in which the wrong bodies that the gate leaves out stand in must-fail/."""
    shutil.copytree(TOP / "crates", folder / "crates", ignore=shutil.ignore_patterns("out", "must-fail"))
    for name in ("crates.txt", "HANDLES"):
        shutil.copy(TOP / name, folder)
    for path in (folder / "crates").glob("*/more-wrong-bodies"):
        path.rename(path.with_name("must-fail"))


def must_fail(folder, crate):
    """How many wrong bodies of a crate ended in which way. Prints what is said of them."""
    ends = Counter()
    how = {"cwd": folder, "stdin": subprocess.DEVNULL, "stdout": subprocess.PIPE, "stderr": subprocess.STDOUT}
    room = {**os.environ, "TMPDIR": str(folder.parent)}
    process = subprocess.Popen(["rt", "must-fail", crate], env=room, text=True, errors="replace", **how)
    is_proved = True
    try:
        for line in process.stdout:
            print(line, end="", flush=True)
            end = re.match(r"rt: must-fail \S+: (%s)" % "|".join(KINDS), line)
            ends.update(end.groups() if end else ())
            is_proved = is_proved and "did not end well" not in line
        process.wait()
    except BaseException:
        process.terminate()
        process.wait()
        time.sleep(1)  # What it started ends right after it.
        raise
    # In a crate that isn't proved any body is refused.
    return ends if is_proved else Counter()


def stop(*_):
    sys.exit(1)


reader = argparse.ArgumentParser(description=__doc__, formatter_class=argparse.RawDescriptionHelpFormatter)
reader.add_argument("crates", nargs="*", metavar="CRATE")
reader.add_argument("--only", default="", metavar="WORD")
reader.add_argument("--jobs", type=int, default=2, metavar="N")
asked = reader.parse_args()
crates = sorted(path.name for path in (TOP / "crates").iterdir())
for crate in asked.crates:
    if crate not in crates:
        reader.error(f"there is no crate {crate}")
for number in (signal.SIGINT, signal.SIGTERM):
    signal.signal(number, stop)
processors = sorted(os.sched_getaffinity(0))
os.sched_setaffinity(0, random.sample(processors, min(asked.jobs, len(processors))))
with tempfile.TemporaryDirectory() as room:
    folder = Path(room, "repository")
    copy_into(folder)
    counts, wanted, first = Counter(), 0, time.monotonic()
    for crate in asked.crates or crates:
        edits = list((folder / "crates" / crate).glob("must-fail/*.edit"))
        others = [path for path in edits if asked.only not in path.stem]
        for path in others:
            path.unlink()
        number = len(edits) - len(others)
        if number:
            begun, ends = time.monotonic(), must_fail(folder, crate)
            print(f"{crate}: {ends['refused']} of {number} refused, {time.monotonic() - begun:.0f} s", flush=True)
            counts, wanted = counts + ends, wanted + number
print(f"{wanted} wrong bodies", *(f"{counts[kind]} {kind.lower()}" for kind in KINDS), f"{time.monotonic() - first:.0f} s", sep=", ")
sys.exit(counts["refused"] < wanted)
