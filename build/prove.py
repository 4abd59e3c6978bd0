#!/usr/bin/env python3
"""Proves the crates of the program for the Makefile, builds the program, and says on standard error how far it is.

usage: prove.py --begin    finds the crates that have to be proved: those of which a source, a definition or a crate
                           below has changed since. Other proofs don't change what was proved
       prove.py CRATE      proves a crate if it has to be
       prove.py --link     makes the program of what was proved
       prove.py --check CRATE [FLAG..]
                           checks a crate as it is, over the libraries of those below and what earlier such checks
                           kept. It makes nothing. The flags are those of `rattle check`

Nothing is made of a crate unless it is proved: then a library, which holds what other crates may cite and no proofs, or
of `hhh` an object file. What the prover says goes to crates/hhh/out/logs/CRATE.log. The file `seconds` there gets a line
for each crate that is proved: its name, the seconds that it took by the clock and of processors, and the memory of its
largest process in kilobytes. build/seconds has these lines of a build that was measured: by it the minutes that are
left are reckoned, and which crates go first. The environment has KIT, the folder of the toolchain, and JOBS, how many
crates are proved at a time.
"""

import hashlib
import os
import resource
import shutil
import signal
import subprocess
import sys
import time
from pathlib import Path

kit, jobs = Path(os.environ["KIT"]), int(os.environ["JOBS"])
processors = min(jobs, len(os.sched_getaffinity(0)))
top = Path(__file__).resolve().parent.parent
out = top / "crates/hhh/out"
logs = out / "logs"
# The one folder of out/ in which `rt` lets stand what it didn't make.
libraries = out / "rlib"

# Little or nothing is left to be proved beside these, so they get more processors than one.
JOBS_OF = {"gate_workers": 2, "report_session": processors, "hhh_engine": processors, "hhh": processors}


def crates_of_the_program():
    """The crates of the program, lowest first, each with what it stands on."""
    return crates_under("hhh")


def crates_under(highest):
    """A crate and all that it needs, lowest first, each with what it stands on."""
    lines = [line.split(":") for line in (top / "crates.txt").read_text().splitlines() if not line.startswith("#")]
    needed, found = {highest}, {}
    for head, below in reversed(lines):
        crate = head.split()[0]
        if crate in needed:
            found[crate] = below.split()
            needed.update(below.split())
    return dict(reversed(found.items()))


def sums_of(crates):
    """The sum of all that a crate's library is made of, for each crate."""
    sums = {}
    for crate, below in crates.items():
        made_of = hashlib.sha256((kit / "KIT-ID").read_bytes())
        made_of.update(repr([(name, sums.get(name)) for name in below]).encode())
        folder = top / "crates" / crate
        for path in sorted([*folder.glob("src/**/*.rt"), *folder.glob("specs/**/*.antt")]):
            made_of.update(repr((str(path.relative_to(folder)), path.read_bytes())).encode())
        sums[crate] = made_of.hexdigest()
    return sums


def begin():
    crates = crates_of_the_program()
    stale = {crate: sum for crate, sum in sums_of(crates).items() if text_of(libraries / f"{crate}.sum") != sum}
    libraries.mkdir(parents=True, exist_ok=True)
    logs.mkdir(exist_ok=True)
    for log in logs.iterdir():
        if log.name != "stale":
            log.unlink()
    (logs / "seconds").touch()
    # It is never missing: another build that reads it meanwhile would find nothing to prove.
    (logs / "stale.new").write_text("".join(f"{crate} {sum}\n" for crate, sum in stale.items()))
    (logs / "stale.new").replace(logs / "stale")
    if stale and "CHECKED" not in os.environ:
        number = f"{len(stale)} crate{'s' if len(stale) > 1 else ''}"
        say(f"proving {number} and building the program, {about(minutes_left())} on {processors} processors; logs: {shown(logs)}")


def prove(crate):
    stale = words_by_crate(logs / "stale")
    if crate not in stale:
        return
    # What an interrupted build left of it would not be replaced.
    (libraries / f"{crate}.sum").unlink(missing_ok=True)
    shutil.rmtree(libraries / f"{crate}.rlib", ignore_errors=True)
    begun = time.monotonic()
    run_in(crate, ["nice", "-n", str(niceness(crate)), kit / "bin/rattle", "build", *words_of(crate)])
    clock, used = time.monotonic() - begun, resource.getrusage(resource.RUSAGE_CHILDREN)
    if sums_of(crates_of_the_program())[crate] != stale[crate][0]:
        say(f"{crate}, or a crate below it, was changed while it was proved: start again")
        sys.exit(1)
    (libraries / f"{crate}.sum").write_text(stale[crate][0])
    with open(logs / "seconds", "a") as seconds:
        seconds.write(f"{crate} {clock:.1f} {used.ru_utime + used.ru_stime:.1f} {used.ru_maxrss}\n")
    proved = len(words_by_crate(logs / "seconds"))
    left = f"; {about(minutes_left())} left" if proved < len(stale) else ""
    say(f"proved {proved} of {len(stale)}: {crate}{left}")


def check(crate, flags):
    kept = libraries / "kept" / crate
    kept.mkdir(parents=True, exist_ok=True)
    words = [*common_words(crate), "--incremental", kept, *flags, "src/main.rt" if crate == "hhh" else "src/lib.rt"]
    sys.exit(subprocess.run([kit / "bin/rattle", "check", *words], cwd=top / "crates" / crate, stdin=subprocess.DEVNULL).returncode)


def common_words(crate):
    """What the prover is called with to check or to build a crate."""
    crates = crates_under(crate)
    words = ["--crate-name", crate]
    for name in ["std", *crates[crate]]:
        words += ["--extern", f"{name}={(libraries if name in crates else kit / 'rlibs') / name}.rlib"]
    words += ["-L", f"dependency={kit}/rlibs", "-L", f"dependency={libraries}"]
    words += ["--antt-project", f"{kit}/rattle/logic/antt-project.json", "--logic-built", f"{kit}/logic_built"]
    return [*words, "--jobs", str(min(processors, JOBS_OF.get(crate, 1)))]


def words_of(crate):
    """What the prover is called with to build a crate's library, or the program."""
    words = common_words(crate)
    if crate == "hhh":
        return [*words, "--backend", "llvm", "--toolchain", f"{kit}/toolchain", "-o", libraries / "hhh.o", "src/main.rt"]
    return [*words, "--statements", "-o", libraries / f"{crate}.rlib", "src/lib.rt"]


def link():
    words = ["--target", "x86_64-unknown-linux-gnu", "--toolchain", kit / "toolchain", "-o", out / "hhh.new"]
    run_in("hhh", [kit / "bin/rattle-link", *words, libraries / "hhh.o", kit / "c/libos_c.a", kit / "c/liblibc_c.a"])
    # The launcher writes it anew. Until then nothing says of which sources the program is.
    (out / "built").unlink(missing_ok=True)
    (out / "hhh.new").replace(out / "hhh")


def run_in(crate, command):
    """Runs a command in a crate's folder."""
    log = logs / f"{crate}.log"
    with open(log, "a") as said:
        ran = subprocess.run(command, cwd=top / "crates" / crate, stdin=subprocess.DEVNULL, stdout=said, stderr=said)
    if ran.returncode:
        say(f"{crate} can't be proved or built, as {shown(log)} says")
        sys.exit(1)


def minutes_left():
    """About how many minutes the crates take that aren't proved yet: as many as the longest chain of them, or as all of
    them side by side, if that is more, at the pace of those that are proved."""
    stale, proved = words_by_crate(logs / "stale"), words_by_crate(logs / "seconds")
    used, alone = measured_seconds(1), seconds_alone()
    expected = sum(used[crate] for crate in proved)
    pace = sum(float(words[1]) for words in proved.values()) / expected if proved else 1
    left = {crate: alone[crate] if crate in stale and crate not in proved else 0 for crate in used}
    return pace * max(sum(used[crate] for crate in left if left[crate]) / processors, *until_end(left).values()) / 60


def measured_seconds(column):
    """How long each crate took in the measured build, by the clock (0) or of processors (1). One that is newer counts as a
    common one."""
    measured = words_by_crate(top / "build/seconds")
    return {crate: float(measured.get(crate, ["60", "60"])[column]) for crate in crates_of_the_program()}


def seconds_alone():
    """How long each crate takes with nothing beside it. By the clock, one that has a processor may have waited for it."""
    clock, used = measured_seconds(0), measured_seconds(1)
    return {crate: min(clock[crate], used[crate]) for crate in clock}


def until_end(seconds):
    """How long the longest chain of crates takes that begins with a crate, for each crate: each waits for the one before."""
    crates, found = crates_of_the_program(), {}
    for crate in reversed(crates):
        found[crate] = seconds[crate] + max((found[above] for above in found if crate in crates[above]), default=0)
    return found


def niceness(crate):
    """From 0 for the crate after which the program waits longest on: so processors go first to what others wait for."""
    left = until_end(seconds_alone())
    return 20 * sorted(left, key=left.get, reverse=True).index(crate) // len(left)


def about(minutes):
    whole = max(1, round(minutes))
    return f"about {whole} minute{'s' if whole > 1 else ''}"


def words_by_crate(path):
    """The lines of a file, each as the words after its first one, which is a crate."""
    return {line.split()[0]: line.split()[1:] for line in (text_of(path) or "").splitlines()}


def text_of(path):
    return path.read_text() if path.exists() else None


def shown(path):
    return path.relative_to(top)


def say(text):
    print(f"hhh: {text}", file=sys.stderr, flush=True)


if __name__ == "__main__":
    # Ends the prover too.
    for number in (signal.SIGINT, signal.SIGTERM):
        signal.signal(number, lambda *_: sys.exit(1))
    if sys.argv[1] == "--check":
        check(sys.argv[2], sys.argv[3:])
    {"--begin": begin, "--link": link}.get(sys.argv[1], lambda: prove(sys.argv[1]))()
