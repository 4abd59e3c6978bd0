#!/usr/bin/env python3
"""Lets each call of the system of command lines fail in turn: failing_calls.py PROGRAM CAPTURE [MOST] [SEED]

Runs the fifteen command lines of `command_lines.py` under strace, and then each once for each of its calls and each fault
that this call may have, with that call failing; where there are more than MOST of these (1,000 unless given), for so many
that are drawn. Calls are those of the program, which the system's loader has started by then. A call that waits or ends a
thread isn't let fail. The faults are EIO, and for memory ENOMEM, for a new thread EAGAIN; those
that may fill a disk also fail with ENOSPC, and those that a signal may interrupt with EINTR. Where a thread beside the first
makes as many calls of this name, that call fails there too. A run must

- end as it does where nothing fails after EINTR, or where closing a file or the line on standard error failed, or where
  the folder of a store can't be opened at first;
- end with 6 after a call on a store or its folder, over the stores of two sites with the number of the site; with 4 after
  one on the capture or the text of a session; with 5 after a write to standard output;
- after any other call end with 13 or as where nothing fails; where a thread's stack can't be given back, the system's C
  library may abort.

It must have written the line of its status, and the beginning of the text, or nothing where the status says so. The whole
reports of the beginning of a session must have a good audit. A store must be as `failing_allocations.py` says; on 5 `format`
must have made it, and after 6 be able to. Prints for each command line its calls and how many runs ended with which status,
each run that ended otherwise, and at the end the counts. Needs strace.
"""

import os
import random
import signal
import sys
import tempfile
from collections import Counter
from pathlib import Path

import system_calls
from command_lines import CommandLines

ABORTED = -signal.SIGABRT

program, capture = sys.argv[1], os.path.abspath(sys.argv[2])  # strace shows whole paths.
most, seed = int(sys.argv[3]) if sys.argv[3:] else 1000, int(sys.argv[4]) if sys.argv[4:] else 1
source = random.Random(seed)


def trace(command, *options):
    command.prepare()
    return system_calls.trace([program, *command.words], *options)


def statuses_after(made, call, fault):
    """With which statuses a run may end in which this call failed, but for its own; and whether with its own."""
    paths, folders = set(call.paths()), {str(Path(store).parent) for store in made.stores()}
    if call.name == "close" or call.descriptor() == 2 or fault == "EINTR" and call.name in system_calls.INTERRUPTED:
        return set(), True
    if paths & {*made.stores(), *folders}:
        looks = any(system_calls.looks_for_folder(call, folder) for folder in folders)
        return (set(), True) if looks else ({6}, False)
    if paths & set(made.inputs()):
        return {4}, call.name not in system_calls.INTERRUPTED
    if call.descriptor() == 1:
        return {5}, False
    return {13, *([ABORTED] if call.name == "munmap" else [])}, True


def fault_of(command, traced, fault):
    """What is wrong with how a traced run ended, or none."""
    made, failed = command.made, [call for calls in traced.threads for call in calls if not call.was_made]
    after = [statuses_after(made, call, fault) for call in failed]
    statuses = set().union(*(allowed for allowed, _ in after))
    if traced.status == command.status and not all(may_end_so for _, may_end_so in after) and command.status not in statuses:
        return "a fault that isn't told"
    if traced.status == ABORTED and ABORTED in statuses:
        return None if command.before is None or command.words[0] == "format" else command.fault_of_store(ABORTED, traced.text)
    may_lack_line = traced.status == 13 or any(call.descriptor() == 2 for call in failed)
    return command.fault_of(traced.status, traced.text, traced.line, statuses, may_lack_line)


def test(command):
    """Runs a command line once for each fault of a call. Answers how many runs were wrong, and how many there were."""
    whole = trace(command)
    calls = list(system_calls.faults_after_start(whole.threads))
    drawn = calls if len(calls) <= most else source.sample(calls, most)
    ends, failing, wrong = Counter(), 0, 0
    for call, error in drawn:
        traced = trace(command, *system_calls.failing(call, error))
        fault = fault_of(command, traced, error)
        ends[traced.status] += 1
        failing += any(not call.was_made for calls in traced.threads for call in calls)
        if fault:
            wrong += 1
            if wrong <= 20:
                print(f"  {call.name} {call.number} {call.paths()} {error}: {fault}: {traced.status}, {traced.text[-60:]!r}, "
                    f"{traced.line!r}", flush=True)
    print(f"{command.shown()}: {len(calls)} faults, {len(drawn)} runs, {failing} with a failing call",
        *(f"{count} ended with {status}" for status, count in sorted(ends.items())), f"{wrong} wrong", sep=", ", flush=True)
    return wrong, len(drawn), failing


with tempfile.TemporaryDirectory() as folder:
    lines = CommandLines(program, capture, folder).lines
    results = [test(line) for line in lines]
wrong, runs, failing = map(sum, zip(*results))
print(f"{runs} runs of {len(results)} command lines, {failing} with a failing call, {wrong} wrong")
sys.exit(wrong > 0)
