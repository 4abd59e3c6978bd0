#!/usr/bin/env python3
"""Runs random sessions and audits each: live_sessions.py PROGRAM SESSIONS SEED CAPTURE...

Draws a capture, a number of shards, a capacity, a share, a way of weighing and one of dealing, and then runs twenty sessions
with these and with random workers, callers, rounds and blocks, until there are so many SESSIONS. About half of them use a
store: a fresh one, one that was formatted anew by the same settings, one that an earlier session left, or one of a run that
was killed after some of its saves. Of each session is tested

- that it ends with 0, and `audit` finds it good;
- that it has the reports that the words ask for, that the positions of each caller never fall, and each line `saved` has
  those of its report;
- that it begins where its store stands, and ends with all records counted, and with the right counts of frames;
- that its last report has the bytes of the first run with these settings, which had one worker and no store;
- that its store, if it isn't large, then opens at the ends of the lists, by `store_bytes.py`;
- for one in ten of the shorter ones that `bench/audit.c` finds it good, or `plain_audit.py` where that can't deal as it was.

A store by 8 bits is of version 1 or 2. Prints each session that fails, and at the end the counts. With 4 for BITS in
the environment prefixes go by four bits. Needs cc.
"""

import os
import random
import subprocess
import sys
import tempfile
from pathlib import Path

import plain_audit
import session_text
import store_bytes
from stored_capture import SECONDS, StoredCapture, least_share, test

HERE = Path(__file__).resolve().parent
PER_SETTINGS = 20
MOST_AUDITED = 60_000  # records of all reports of a session
MOST_READ = 50_000  # room for entries of a table in all cuts of a session
MOST_PLAIN = 100_000  # pairs of addresses that the plain audit sums in a session
MOST_STORED = 500_000  # bytes of a store that `store_bytes.py` reads

program, sessions, seed, captures = sys.argv[1], int(sys.argv[2]), int(sys.argv[3]), sys.argv[4:]
source = random.Random(seed)
BITS = int(os.environ.get("BITS") or "8")
MOST_CAPACITY = store_bytes.MOST_CAPACITY[BITS]
counts = dict.fromkeys(("sessions", "reports", "with a store", "gone on with", "past position 0", "by audit.c",
    "by plain_audit.py", "wrong"), 0)


def up_to(least, most):
    """A number from least to most, small ones as often as great ones."""
    return min(most, int(least * ((most + 1) / least) ** source.random()))


class Settings(StoredCapture):
    """A capture and the settings that decide its last report."""

    def __init__(self, capture):
        self.shards, self.capacity = source.randint(1, 16), up_to(2, MOST_CAPACITY)
        self.phi = up_to(least_share(self.capacity), 1_000_000)
        self.weigh = source.choice(store_bytes.WEIGHINGS)
        self.deal = source.choice(store_bytes.DEALINGS)
        super().__init__(program, capture,
            store_bytes.Settings(self.shards, self.capacity, self.weigh, self.deal, BITS), self.phi)

    def draw_words(self):
        """Workers, callers, rounds and block of a session that isn't too long to audit, and the number of its reports."""
        workers, callers, rounds, block = source.randint(1, 16), source.randint(0, 8), source.randint(0, 32), up_to(1, 65536)
        most = min(MOST_AUDITED // max(1, len(self.capture.records)), MOST_READ // (self.shards * self.capacity))
        rounds = max(0, min(rounds, most // (callers + 1)))
        words = ["--workers", workers, "--callers", callers, "--rounds", rounds, "--block", block]
        return [str(word) for word in words], callers, rounds


def format_anew(settings, store):
    settings.format_store(store, source.choice(store_bytes.versions_of(BITS)))


def stop_after_saves(settings, store):
    """Kills a run after some of its saves. Answers the positions of the last line `saved` that it wrote."""
    format_anew(settings, store)
    text = settings.stop_after_saves(store, source.randint(1, 4), up_to(1, 4096), "--workers", "2")
    return session_text.last_saved(text) or [0] * settings.shards


def prepare(settings, store):
    """Makes a store ready, and answers the least positions at which it must open, and whether it opens right there."""
    if not Path(store).exists():
        kind = "fresh"
    else:
        kind = source.choice(("fresh", "formatted", "left", "stopped"))
    if kind == "left":
        return settings.ends, True
    if kind == "stopped":
        return stop_after_saves(settings, store), False
    if kind == "fresh":
        Path(store).unlink(missing_ok=True)
    format_anew(settings, store)
    return [0] * settings.shards, True


def never_fall(reports, start):
    last = start
    for report in reports:
        test(all(one <= other for one, other in zip(last, report.positions)), "positions fall")
        last = report.positions


def test_session(settings, session, callers, rounds, floor, opens_there, has_store):
    test(len(session.reports) == rounds * (callers + 1) + 1, f"{len(session.reports)} reports")
    own = session.reports[:rounds] + session.reports[-1:]
    never_fall(own, session.opened)
    for caller in range(1, callers + 1):
        never_fall(session.reports[caller * rounds:(caller + 1) * rounds], session.opened)
    test(session.opened == floor if opens_there else all(a >= b for a, b in zip(session.opened, floor)), "opened elsewhere")
    test(session.reports[-1].positions == settings.ends, "records are left")
    saved = [*range(rounds), len(session.reports) - 1] if has_store else []
    test(session.saved == {number: session.reports[number].positions for number in saved}, "other lines saved")
    test(session.frames == settings.capture.frames and session.skipped == settings.capture.skipped, "other counts of frames")
    test(session.cut is None, "a whole capture is cut")


def independent(settings, session, text):
    """Audits by a program that shares nothing with the audited one, where it doesn't take too long."""
    if settings.deal == "round" and settings.weigh == "bytes":
        with open(settings.path, "rb") as capture:
            run = subprocess.run([audit_program, text, str(settings.capacity), str(settings.phi), str(BITS)],
                stdin=capture, capture_output=True, text=True, timeout=SECONDS)
        line, kind = run.stdout, "by audit.c"
    elif len(session.reports) * len(set(settings.capture.records)) <= MOST_PLAIN:
        line = plain_audit.audit(session, settings.lists, settings.capacity, settings.phi, BITS) + "\n"
        kind = "by plain_audit.py"
    else:
        return
    counts[kind] += 1
    test(line == f"good {len(session.reports)}\n", f"{kind}: {line}")


def run_session(settings, folder):
    store, text = f"{folder}/store", f"{folder}/session"
    words, callers, rounds = settings.draw_words()
    has_store = source.random() < 0.5
    floor, opens_there = prepare(settings, store) if has_store else ([0] * settings.shards, True)
    command = settings.report(*words, *(["--store", store] if has_store else []))
    try:
        run = settings.run(command)
        test(run.returncode == 0 and run.stderr == "", f"status {run.returncode} {run.stderr}")
        session = session_text.read_session(run.stdout)
        test_session(settings, session, callers, rounds, floor, opens_there, has_store)
        test(session_text.last_report(run.stdout) == settings.last_report, "another last report")
        audit = settings.audit(run.stdout, text)
        test((audit.returncode, audit.stdout) == (0, f"good {len(session.reports)}\n"), f"audit: {audit.stdout}{audit.stderr}")
        if has_store and Path(store).stat().st_size <= MOST_STORED:
            opened = settings.opening(Path(store).read_bytes())
            test(opened == (0, settings.ends), f"the store then opens to {opened}")
        counts["sessions"] += 1
        counts["reports"] += len(session.reports)
        counts["with a store"] += has_store
        counts["gone on with"] += not opens_there or any(floor)
        counts["past position 0"] += any(session.opened)
        if source.random() < 0.1:
            independent(settings, session, text)
    except (AssertionError, subprocess.TimeoutExpired) as fault:
        counts["sessions"] += 1
        counts["wrong"] += 1
        Path(store).unlink(missing_ok=True)
        print(" ".join(command), fault, flush=True)


with tempfile.TemporaryDirectory() as work:
    audit_program = f"{work}/audit"
    subprocess.run(["cc", "-O2", "-o", audit_program, HERE / "audit.c"], check=True)
    while counts["sessions"] < sessions:
        settings = Settings(captures[counts["sessions"] // PER_SETTINGS % len(captures)])
        with tempfile.TemporaryDirectory(dir=work) as folder:
            for _ in range(min(PER_SETTINGS, sessions - counts["sessions"])):
                run_session(settings, folder)
print(*(f"{count} {name}" for name, count in counts.items()), sep=", ")
sys.exit(counts["wrong"] > 0)
