#!/usr/bin/env python3
"""Says how long a first start of the program and the gate take, crate by crate, as rows of a table.

usage: minutes.py start [SECONDS]    of the first start whose file this is, crates/hhh/out/logs/seconds; else of the one in
                                     build/seconds, by which the launcher reckons
       minutes.py gate LOG [WORD..]  runs `rt ci` at the top of the repository, and keeps what it prints in LOG, each line
                                     after the minutes since its start. In kits that keep what passed, such as 13f, WORD
                                     is --anew, so that everything is proved and tried

A start's rows have the seconds that a crate took by the clock and of processors, and the memory of its largest process.
The gate's rows have seconds of processors: of a crate's proof, of its tests and the proof of the crate with them, and of
its wrong bodies with the check that they begin with; then the minute at which the crate was proved. They are summed up
from what the system says of the prover's processes twice a second, so each process loses up to half a second.
"""

import os
import re
import subprocess
import sys
import threading
import time
from collections import defaultdict
from pathlib import Path

top = Path(__file__).resolve().parent.parent
TICKS = os.sysconf("SC_CLK_TCK")


def start(path):
    total = 0
    print("| Crate | Seconds by the clock | of processors | Memory |\n|---|---|---|---|")
    for line in path.read_text().splitlines():
        crate, clock, used, memory = line.split()
        total += float(used)
        print(f"| `{crate}` | {float(clock):.0f} | {float(used):.0f} | {int(memory) / 1e6:.1f} GB |")
    print(f"| all | | {total:.0f} | |")


def kind_of(words):
    """What a call of the prover does, by its words."""
    if "--test" in words:
        return "tests"
    return "proof" if words[1] == "build" or "--incremental" not in words and "-o" in words else "bodies"


def sample(used):
    """Notes how many seconds each process of the prover has used so far, under its crate and what it does."""
    for process in filter(str.isdigit, os.listdir("/proc")):
        try:
            words = Path("/proc", process, "cmdline").read_text(errors="replace").split("\0")
            if not words[0].endswith("/rattle") or "--crate-name" not in words:
                continue
            ticks = Path("/proc", process, "stat").read_text().rsplit(")", 1)[1].split()[11:13]
        except OSError:
            continue
        key = words[words.index("--crate-name") + 1], kind_of(words)
        used[key][process] = sum(map(int, ticks)) / TICKS


def sample_until(ended, used):
    while not ended.wait(0.5):
        sample(used)


def gate(log, *words):
    used, ended = defaultdict(dict), threading.Event()
    sampling = threading.Thread(target=sample_until, args=(ended, used))
    sampling.start()
    begun, proved = time.monotonic(), {}
    ran = subprocess.Popen(["rt", "ci", *words], cwd=top, stdin=subprocess.DEVNULL, stdout=subprocess.PIPE,
                           stderr=subprocess.STDOUT, text=True, errors="replace")
    with open(log, "w") as kept:
        for line in ran.stdout:
            minutes = (time.monotonic() - begun) / 60
            kept.write(f"{minutes:6.1f} {line}")
            kept.flush()
            if found := re.match(r"(?:rt: )?(\w+) proved$", line):
                proved[found[1]] = minutes
    ended.set()
    sampling.join()
    seconds = {key: sum(processes.values()) for key, processes in used.items()}
    print("| Crate | Proof | Tests | Wrong bodies | Proved after |\n|---|---|---|---|---|")
    for crate in sorted({crate for crate, _ in seconds}, key=lambda it: proved.get(it, 0)):
        cells = [f"{seconds[crate, kind]:.0f} s" if (crate, kind) in seconds else "" for kind in ("proof", "tests", "bodies")]
        print(f"| `{crate}` | {' | '.join(cells)} | {proved.get(crate, 0):.1f} min |")
    sums = [f"{sum(it for (_, of), it in seconds.items() if of == kind):.0f} s" for kind in ("proof", "tests", "bodies")]
    print(f"| all | {' | '.join(sums)} | |\n\n{line.strip()}, after {(time.monotonic() - begun) / 60:.1f} minutes")
    return ran.wait()


if sys.argv[1:2] == ["gate"] and len(sys.argv) >= 3:
    sys.exit(gate(*sys.argv[2:]))
elif sys.argv[1:2] == ["start"] and len(sys.argv) <= 3:
    start(Path(sys.argv[2]) if sys.argv[2:] else top / "build/seconds")
else:
    sys.exit(__doc__)
