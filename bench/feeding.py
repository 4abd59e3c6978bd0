#!/usr/bin/env python3
"""Measures what workers gain in `report`, whole and for the feeding alone.

usage: feeding.py PROGRAM CAPTURE [TURNS]

Feeding is the time from the line `opened`, which is written before the threads start, to the next bytes, which are
written after they have ended and the last report was made. Runs `report` over the capture with 1, 2 and 4 workers, at
both capacities and both blocks, in turn. Prints for each the least times in milliseconds of all turns, and the ratios
to one worker. Other work on the machine should be stopped meanwhile.
"""

import os
import sys
import time

WORKERS = (1, 2, 4)


def run(program, capture, words):
    """The time of a run by the clock, that of its feeding, and that of its processors, in milliseconds."""
    reader, writer = os.pipe()
    with open(capture, "rb") as source:
        actions = [(os.POSIX_SPAWN_DUP2, source.fileno(), 0), (os.POSIX_SPAWN_DUP2, writer, 1)]
        begun = time.monotonic()
        process = os.posix_spawn(program, [program, "report", *words], os.environ, file_actions=actions)
    os.close(writer)
    os.read(reader, 1 << 20)
    opened = time.monotonic()
    os.read(reader, 1 << 20)
    fed = time.monotonic()
    while os.read(reader, 1 << 20):
        pass
    os.close(reader)
    _, status, usage = os.wait4(process, 0)
    ended = time.monotonic()
    if status:
        sys.exit(f"report {' '.join(words)}: failed")
    return 1000 * (ended - begun), 1000 * (fed - opened), 1000 * (usage.ru_utime + usage.ru_stime)


def main():
    program, capture = sys.argv[1:3]
    turns = int(sys.argv[3]) if len(sys.argv) > 3 else 5
    print("capacity block workers whole feeding processors | ratios to one worker")
    for capacity in ("512", "4096"):
        for block in ("1024", "65536"):
            words = {number: ["--capacity", capacity, "--block", block, "--workers", str(number)] for number in WORKERS}
            runs = [{number: run(program, capture, words[number]) for number in WORKERS} for _ in range(turns)]
            least = {number: [min(times) for times in zip(*(turn[number] for turn in runs))] for number in WORKERS}
            for number in WORKERS:
                ratios = " ".join(f"{now / one:.2f}" for now, one in zip(least[number], least[1]))
                print(capacity, block, number, " ".join(f"{now:.0f}" for now in least[number]), "|", ratios)


main()
