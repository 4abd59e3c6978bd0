#!/usr/bin/env python3
"""Runs the program at its limits: limits.py PROGRAM FOLDER

Makes a capture of 16,777,216 frames in the folder by `traffic.c`, which takes 840 MB, and runs `report` over it with 16
shards: with tables of two entries, so that the lists of records are nearly all; with tables of 4,096; with eight callers
besides, of three rounds; and with a store too. Prints the time by the clock, the processor time and the peak memory of each
under `/usr/bin/time`; an MB is 1,000,000 bytes. Then it runs `audit` over the last session, a report that goes on from
the store, and `report` over the capture with one frame more, which must be refused with 3. At last it runs `weigh` over a
pcapng capture of 16,777,216 blocks, nearly all of them without a frame, and over one with a byte more, which must be
refused with 3. The files are removed. Needs cc and the Debian package `time`.
"""

import os
import subprocess
import sys
import tempfile
from pathlib import Path

import capture_writer
import session_text
from capture_reader import MOST_BLOCKS

HERE = Path(__file__).resolve().parent
FRAMES = 1 << 24
END = 24 + 50 * FRAMES

program, place = sys.argv[1:]
faults = []


def timed(name, words, text):
    """Runs a command line, whose output goes to a file. Answers its status and its line."""
    with open(text, "w") as out:
        ended = subprocess.run(["/usr/bin/time", "-q", "-f", "%e %U %S %M", program, *words], stdout=out,
            stderr=subprocess.PIPE, text=True)
    *line, times = ended.stderr.splitlines()
    wall, user, system, peak = times.split()
    processors = float(user) + float(system)
    print(f"| {name} | {float(wall):.1f} s | {processors:.1f} s | {int(peak) * 1024 / 1e6:.0f} MB |", flush=True)
    return ended.returncode, " ".join(line)


def test(holds, what):
    if not holds:
        faults.append(what)
        print(what)


def write_blocks(path):
    """A pcapng capture of as many blocks as there may be: a section, an interface, a frame, and blocks of another type."""
    frame = capture_writer.ethernet(capture_writer.IPV4, behind=capture_writer.ipv4(0x0A010203, 0x14010203))
    piece, pieces = capture_writer.block("<", 5, b"") * 65536, MOST_BLOCKS // 65536
    begin = capture_writer.section_header("<") + capture_writer.interface("<") + capture_writer.packet("<", 0, frame, 100)
    with open(path, "wb") as out:
        out.write(begin + piece[3 * 12:])
        for _ in range(pieces - 1):
            out.write(piece)
    return os.stat(path).st_size


def try_blocks(folder):
    path, text = f"{folder}/blocks", f"{folder}/weight"
    end = write_blocks(path)
    words = ["weigh", "0.0.0.0/0", "0.0.0.0/0", "--capture", path]
    test(timed("a pcapng capture of the most blocks", words, text) == (0, ""), "blocks: another status")
    test(Path(text).read_text() == "low 100\nhigh 100\ntotal 100\n", "blocks: another weight")
    with open(path, "ab") as out:
        out.write(b"\0")
    status, line = timed("the same with a byte more", words, text)
    test((status, line) == (3, f"hhh: bad capture: too many blocks at {end}"), f"{status} {line}")


with tempfile.TemporaryDirectory(dir=place) as folder:
    capture, store, text = f"{folder}/capture", f"{folder}/store", f"{folder}/session"
    subprocess.run(["cc", "-O2", "-o", f"{folder}/traffic", HERE / "traffic.c"], check=True)
    with open(capture, "wb") as out:
        subprocess.run([f"{folder}/traffic", "7", str(FRAMES)], stdout=out, check=True)
    test(os.stat(capture).st_size == END, "the capture has another length")
    small = ["--shards", "16", "--capacity", "2", "--phi", "1000000"]
    large = ["--shards", "16", "--capacity", "4096", "--phi", "1000"]
    callers = ["--callers", "8", "--rounds", "3", "--workers", "4"]
    report = ["report", "--capture", capture]
    subprocess.run([program, "format", "--store", store, *large[:4]], stdout=subprocess.DEVNULL, check=True)
    print("| Run | Time by the clock | Processor time | Peak memory |\n|---|---|---|---|")
    last_reports = []
    for name, words in (
        ("tables of 2", [*report, *small]),
        ("tables of 4,096", [*report, *large]),
        ("the same, one round", [*report, *large, "--rounds", "1"]),
        ("eight callers, three rounds", [*report, *large, *callers]),
        ("eight callers, three rounds, a store", [*report, *large, *callers, "--store", store]),
    ):
        test(timed(name, words, text) == (0, ""), f"{name}: another status")
        last_reports.append(session_text.last_report(Path(text).read_text()))
    test(len(set(last_reports[1:])) == 1, "the last reports differ")
    session = session_text.read_session(Path(text).read_text())
    test(len(session.reports) == 28 and sum(session.reports[-1].positions) == FRAMES, "records are left")
    audit = ["audit", "--capture", capture, *large, "--report", text]
    test(timed("audit of its 28 reports", audit, f"{folder}/verdict") == (0, ""), "audit: another status")
    test(Path(f"{folder}/verdict").read_text() == "good 28\n", Path(f"{folder}/verdict").read_text())
    again = f"{folder}/again"
    ended = timed("a report that goes on at the end", [*report, *large, "--store", store], again)
    test(ended == (0, ""), f"going on: {ended}")
    test(session_text.last_report(Path(again).read_text()) == last_reports[-1], "another last report from the store")
    with open(capture, "r+b") as file:
        file.seek(24)
        frame = file.read(50)
        file.seek(END)
        file.write(frame)
    status, line = timed("one frame more", report, text)
    test((status, line) == (3, f"hhh: bad capture: too many frames at {END}") and not os.stat(text).st_size, f"{status} {line}")
    print(f"one frame more: status {status}, {line}")
    os.remove(capture)
    try_blocks(folder)
print(f"10 runs, {len(faults)} wrong")
sys.exit(bool(faults))
