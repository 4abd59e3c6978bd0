#!/usr/bin/env python3
"""Measures `sites` over stores with the largest tables: site_sizes.py PROGRAM FOLDER [TURNS]

Makes eight captures of 1,000,000 frames by `traffic.c`, one after another, and a store of each with 16 shards of tables
of 4,096 entries in the folder, which takes 290 MB besides 50 MB for a capture; then eight of 200,000 `distinct` frames of
`make_capture.py`, which fill all tables that can be full. Prints a table of what `sites` takes over the first one, two,
four and eight of the former, and over eight of the latter: the least time by the clock and the least processor time of
three turns, or of TURNS, and the peak memory; an MB is 1,000,000 bytes. Beside it is what the sizes in docs/FORMATS.md
and docs/PERFORMANCE.md add up to:

- the site cut, 24 bytes for each entry of a table, its key, count and error;
- what the report takes over it: 24 bytes for each entry again, its key and interval, and 8 for each key that a node has;
- the longest body of a store.

The peak may be at most 1.1 times the sum, over eight stores, and the stores must stay as they are. What is written isn't
compared (`site_reports.py` does that). Then `gdb` shows where the time over eight stores goes (`parts.py`), if it is there.
Needs cc and the Debian package `time`.
"""

import hashlib
import os
import shutil
import struct
import subprocess
import sys
import tempfile
from pathlib import Path

import store_bytes
from sizes import peak_of, times_of

HERE = Path(__file__).resolve().parent
SITES = 8
COUNTS = {"made": (1, 2, 4, SITES), "distinct": (SITES,)}
SETTINGS = store_bytes.Settings(16, 4096, "bytes", "round", 8)
WORDS = ["--shards", "16", "--capacity", "4096"]
ENTRY = struct.Struct(">Q16x")
ENTRY_BYTES, KEY_BYTES = 24, 8
MOST_OF_SUM = 1.1


def tables_in(image):
    """The keys of the tables of the first slot, as bytes of entries, with their nodes."""
    at = store_bytes.FRONT + 48
    for _ in range(SETTINGS.shards):
        at += 8
        for node in range(store_bytes.nodes_of(SETTINGS.bits)):
            (count,) = struct.unpack_from(">I", image, at + 8)
            yield node, image[at + 12:at + 12 + ENTRY_BYTES * count]
            at += 12 + ENTRY_BYTES * count


def reckon(paths):
    """The bytes of the site cut, of what the report takes over it, and of the longest body, for one store more each time."""
    keys, entries, longest = [set() for _ in range(store_bytes.nodes_of(SETTINGS.bits))], 0, 0
    for path in paths:
        image = Path(path).read_bytes()
        longest = max(longest, struct.unpack_from(">Q", image, store_bytes.FRONT)[0])
        for node, table in tables_in(image):
            entries += len(table) // ENTRY_BYTES
            keys[node].update(key for key, in ENTRY.iter_unpack(table))
        yield ENTRY_BYTES * entries, ENTRY_BYTES * entries + KEY_BYTES * sum(map(len, keys)), longest


def makers_in(folder):
    """What makes a capture of each kind, but for its seed."""
    traffic = f"{folder}/traffic"
    subprocess.run(["cc", "-O2", "-o", traffic, HERE / "traffic.c"], check=True)
    return {"made": lambda seed: [traffic, seed, "1000000"],
        "distinct": lambda seed: [sys.executable, HERE / "make_capture.py", seed, "200000", "distinct"]}


def make_stores(program, folder, maker):
    capture, paths = f"{folder}/capture", [f"{folder}/store{number}" for number in range(SITES)]
    for seed, path in enumerate(paths, 1):
        with open(capture, "wb") as out:
            subprocess.run(maker(str(seed)), stdout=out, check=True)
        subprocess.run([program, "format", *WORDS, "--store", path], stdout=subprocess.DEVNULL, check=True)
        subprocess.run([program, "report", *WORDS, "--store", path, "--capture", capture], stdout=subprocess.DEVNULL, check=True)
    os.remove(capture)
    return paths


def sum_of(paths):
    return [hashlib.sha256(Path(path).read_bytes()).hexdigest() for path in paths]


def measure(program, paths, turns):
    """The least times in milliseconds of some turns, and the peak in MB of one."""
    command = [program, "sites", *WORDS, *paths]
    walls, processors = zip(*(times_of(command) for _ in range(turns)))
    return min(walls), min(processors), peak_of(command)


def show_parts(program, paths):
    if not shutil.which("gdb"):
        return
    parts = subprocess.run(["gdb", "-nx", "-batch", "-x", HERE / "parts.py", program], capture_output=True, text=True,
        env={**os.environ, "COMMAND": "sites", "WORDS": " ".join([*WORDS, *paths]), "INPUT": "/dev/null"})
    lines = [line.split() for line in parts.stdout.splitlines() if line.startswith("part ")]
    if not lines:
        print(parts.stderr[-500:])
    for _, name, milliseconds, peak in lines:
        print(f"{name}: {float(milliseconds):.0f} ms, {int(peak) * 1024 / 1e6:.0f} MB")


def measure_kind(program, folder, kind, maker, turns):
    """Prints the rows of the stores of one kind of captures. Answers how much is wrong."""
    paths, wrong = make_stores(program, folder, maker), 0
    before = sum_of(paths)
    for sites, sizes in enumerate(reckon(paths), 1):
        if sites not in COUNTS[kind]:
            continue
        wall, processor, peak = measure(program, paths[:sites], turns)
        size = sum(os.path.getsize(path) for path in paths[:sites])
        cut, report, body = (number / 1e6 for number in sizes)
        share = peak / (cut + report + body)
        wrong += sites == SITES and share > MOST_OF_SUM
        print(f"| {sites}, {kind} | {size:,} | {wall:.0f} ms | {processor:.0f} ms | {peak:.1f} MB | {cut:.1f} | {report:.1f} "
            f"| {body:.1f} | {share:.2f} |", flush=True)
    show_parts(program, paths)
    return wrong + (sum_of(paths) != before)


def main():
    program, place, turns = os.path.abspath(sys.argv[1]), sys.argv[2], int(sys.argv[3]) if sys.argv[3:] else 3
    print("| Stores | Bytes | Time by the clock | Processor time | Peak memory | site cut | report | body | of the sum |")
    print("|---|---|---|---|---|---|---|---|---|")
    with tempfile.TemporaryDirectory(dir=place) as folder:
        makers = makers_in(folder)
        wrong = sum(measure_kind(program, folder, kind, maker, turns) for kind, maker in makers.items())
    print(f"{SITES * len(makers)} stores, {wrong} wrong")
    sys.exit(wrong > 0)


if __name__ == "__main__":
    main()
