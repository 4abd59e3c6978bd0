#!/usr/bin/env python3
"""Runs programs in turn, and prints the least processor time of each in milliseconds: least_times.py TURNS < COMMANDS

Each line of the input is a command, or a number and a command that is run so many times at once. A turn runs each line
once, so that other work on the machine meets all of them. What the commands write is dropped. With a second argument,
`wall`, a line has the least time by the clock after the least processor time.
"""

import os
import sys
import time


def times_of(words):
    """The processor time of all processes of a line, and the time by the clock, in milliseconds."""
    copies, command = (int(words[0]), words[1:]) if words[0].isdigit() else (1, words)
    drop = (os.POSIX_SPAWN_OPEN, 1, os.devnull, os.O_WRONLY, 0)
    start = time.monotonic()
    processes = [os.posix_spawn(command[0], command, os.environ, file_actions=[drop]) for _ in range(copies)]
    ends = [os.wait4(process, 0) for process in processes]
    wall = time.monotonic() - start
    if any(status for _, status, _ in ends):
        sys.exit(f"{' '.join(words)}: failed")
    return 1000 * sum(usage.ru_utime + usage.ru_stime for _, _, usage in ends), 1000 * wall


def main():
    lines = [line.split() for line in sys.stdin]
    turns = [[times_of(words) for words in lines] for _ in range(int(sys.argv[1]))]
    shown = 2 if sys.argv[2:] == ["wall"] else 1
    for runs in zip(*turns):
        print(*(f"{min(times):.3f}" for times in list(zip(*runs))[:shown]))


main()
