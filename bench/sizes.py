#!/usr/bin/env python3
"""Measures what a report needs by the size of the capture: sizes.py PROGRAM [RUNS]

Makes captures of 10,000, 100,000 and 1,000,000 short frames by `make_capture.py`, and runs `report` over each at the
default settings, at capacity 4,096, and with eight callers that make one report each, in turn. Prints a table of the
least time by the clock, the least processor time and the greatest peak memory of five runs, or of RUNS; an MB is
1,000,000 bytes. The system counts the memory of the process that starts a program as the program's, and Python has more
than a report on a short capture needs. So peaks are measured in runs of their own under `/usr/bin/time`, a small one.
"""

import os
import subprocess
import sys
import tempfile
import time
from pathlib import Path

SIZES = [10_000, 100_000, 1_000_000]
SETTINGS = {
    "defaults": [],
    "`--capacity 4096`": ["--capacity", "4096"],
    "`--callers 8 --rounds 1`": ["--callers", "8", "--rounds", "1"],
}


def times_of(command):
    """The time by the clock and the processor time of a run, in milliseconds. Its output is dropped."""
    drop = (os.POSIX_SPAWN_OPEN, 1, os.devnull, os.O_WRONLY, 0)
    start = time.monotonic()
    process = os.posix_spawn(command[0], command, os.environ, file_actions=[drop])
    _, status, usage = os.wait4(process, 0)
    wall = time.monotonic() - start
    if status:
        sys.exit(f"{' '.join(command)}: failed")
    return 1000 * wall, 1000 * (usage.ru_utime + usage.ru_stime)


def peak_of(command):
    """The peak memory of a run, in MB."""
    timed = ["/usr/bin/time", "-f", "%M", *command]
    run = subprocess.run(timed, stdout=subprocess.DEVNULL, stderr=subprocess.PIPE, text=True, check=True)
    return int(run.stderr) * 1024 / 1e6


def main():
    program, runs = os.path.abspath(sys.argv[1]), int(sys.argv[2]) if sys.argv[2:] else 5
    maker = Path(__file__).resolve().parent / "make_capture.py"
    with tempfile.TemporaryDirectory() as folder:
        rows = []
        for frames in SIZES:
            capture = f"{folder}/{frames}"
            with open(capture, "wb") as out:
                subprocess.run([sys.executable, maker, "7", str(frames), "short"], stdout=out, check=True)
            for name, options in SETTINGS.items():
                rows.append((frames, name, [program, "report", "--capture", capture, *options]))
        turns = [[(*times_of(command), peak_of(command)) for _, _, command in rows] for _ in range(runs)]
    print("| Frames | Settings | Time by the clock | Processor time | Peak memory |")
    print("|---|---|---|---|---|")
    for (frames, name, _), measured in zip(rows, zip(*turns)):
        walls, processors, peaks = zip(*measured)
        print(f"| {frames:,} | {name} | {min(walls):.0f} ms | {min(processors):.0f} ms | {max(peaks):.1f} MB |")


if __name__ == "__main__":
    main()
