#!/usr/bin/env python3
"""Lets each allocation of command lines fail in turn: failing_allocations.py PROGRAM CAPTURE [MOST] [SEED]

Compiles `failing_malloc.c`, which stands before the system's malloc, and counts the calls for memory of the fifteen command
lines of `command_lines.py`, one of them over the capture's frames in a pcapng one of many interfaces, and one over the stores
of two sites. Then it runs each once for each call with that call failing, and once with that one and all later ones failing;
where there are more than MOST calls (1,000 unless given), for so many of them that are drawn. A run must end

- as it does where nothing fails, with the same text and the same line or none; of a session whose rounds vary, with a good
  audit and its last report; or
- with 13, the line `hhh: out of memory` or none, and nothing or the beginning of the text. The whole reports of the beginning
  of a session must have a good audit.

A store must then be as it was before `format`, or be gone on with by a report that ends well, from the last line `saved` at
least. Both stores of `sites` must be as they were, and on 13 nothing may be written. Prints for each command line its calls
and how many runs ended with which status, each run that ended otherwise, and at the end the counts. Needs cc, and a program
that calls malloc of the system's library.
"""

import os
import random
import subprocess
import sys
import tempfile
from collections import Counter
from pathlib import Path

from command_lines import CommandLines

HERE = Path(__file__).resolve().parent

program, capture = sys.argv[1:3]
most, seed = int(sys.argv[3]) if sys.argv[3:] else 1000, int(sys.argv[4]) if sys.argv[4:] else 1
source = random.Random(seed)


def run(command, **failing):
    """How a command line ends over its store as it was before, with the words of `failing_malloc.c`."""
    command.prepare()
    return command.made.run(command.words, {**os.environ, "LD_PRELOAD": library, **failing})


def calls_of(command):
    """How many calls for memory a command line makes."""
    calls = Path(folder, "calls")
    calls.write_bytes(bytes(8))
    run(command, FAILING_COUNT=str(calls))
    return int.from_bytes(calls.read_bytes(), sys.byteorder)


def test(command):
    """Runs a command line once for each failing call. Answers how many runs were wrong, and how many there were."""
    number = calls_of(command)
    calls = range(1, number + 1) if number <= most else sorted(source.sample(range(1, number + 1), most))
    ends, wrong = Counter(), 0
    for call in calls:
        for later in ({}, {"FAILING_ALL": "1"}):
            status, text, line = run(command, FAILING_CALL=str(call), **later)
            fault = command.fault_of(status, text, line)
            ends[status] += 1
            if fault:
                wrong += 1
                if wrong <= 20:
                    which = f"call {call} and all later" if later else f"call {call}"
                    print(f"  {which}: {fault}: {status}, {text[-60:]!r}, {line!r}", flush=True)
    print(f"{command.shown()}: {number} calls, {ends.total()} runs",
        *(f"{count} ended with {status}" for status, count in sorted(ends.items(), key=str)), f"{wrong} wrong",
        sep=", ", flush=True)
    return wrong, ends.total()


with tempfile.TemporaryDirectory() as folder:
    library = f"{folder}/failing.so"
    subprocess.run(["cc", "-O2", "-shared", "-fPIC", "-o", library, HERE / "failing_malloc.c"], check=True)
    lines = CommandLines(program, capture, folder).lines
    results = [test(line) for line in lines]
wrong, runs = map(sum, zip(*results))
print(f"{runs} runs of {len(results)} command lines, {wrong} wrong")
sys.exit(wrong > 0)
