"""The calls of the system that a run makes, as strace shows them, for the trials. Needs strace."""

import re
import subprocess
import tempfile
from collections import Counter
from dataclasses import dataclass
from pathlib import Path

SECONDS = 600
CALL = re.compile(r"(\w+)\((.*)\) += (-?\d+|-?0x[0-9a-f]+|\?)(.*)")
WORD = re.compile(r'<((?:\\x..)*)>|"((?:\\x..)*)"')
# What one call writes at most, more than any body of these trials.
MOST_BYTES = 4_000_000
MOVES_BYTES = ("read", "write", "pread64", "pwrite64")
# Calls that a signal may interrupt, and those that may find a disk full.
INTERRUPTED = ("openat", "read", "pread64", "write", "pwrite64", "fsync")
FILLING = ("openat", "write", "pwrite64", "fsync")
# The faults of calls for memory and for a thread. All others may fail as a disk does.
OWN_FAULTS = {**dict.fromkeys(("mmap", "mremap", "mprotect", "munmap"), "ENOMEM"), "clone": "EAGAIN", "clone3": "EAGAIN"}
# Waiting, and ends of threads: so many that they only cost time, and no system lets them fail as a disk does.
UNSEEN = "!futex,sched_yield,exit,exit_group"


@dataclass
class Call:
    """A call: which one of this name in its thread it is, from 1, the paths that it names, and its arguments."""

    name: str
    number: int
    words: str
    answer: int
    was_made: bool  # and not only shown as failing

    def paths(self):
        words = self.words.split(", ", 1)[0] if self.name in MOVES_BYTES else self.words
        return [decoded(path or string).decode("utf-8", "replace") for path, string in WORD.findall(words)]

    def descriptor(self):
        found = re.match(r"\d+(?=<)", self.words)
        return int(found[0]) if found else None

    def piece(self):
        """The bytes that a write is given."""
        return decoded(re.search(r'"((?:\\x..)*)"', self.words)[1])

    def last_number(self):
        return int(self.words.rsplit(", ", 1)[-1])


@dataclass
class Traced:
    """How a run ended, what it wrote, and the calls of each of its threads. The first thread is the one that began."""

    status: int
    text: str
    line: str
    threads: list


def decoded(hexadecimal):
    return bytes.fromhex(hexadecimal.replace("\\x", ""))


def calls_of(trace):
    counts, calls = {}, []
    for line in Path(trace).read_text().splitlines():
        found = CALL.match(line)
        if found:
            name, words, answer, rest = found.groups()
            counts[name] = counts.get(name, 0) + 1
            answer = 0 if answer == "?" else int(answer, 0)
            # The start of the program names files as its arguments alone.
            words = "" if name == "execve" else words
            calls.append(Call(name, counts[name], words, answer, "INJECTED" not in rest))
    return calls


def command_of(command, *options):
    return ["strace", "-ff", "-qq", "-e", f"trace={UNSEEN}", *options, *command]


def trace(command, *options):
    """Runs a command under strace. With options of strace some of its calls may fail."""
    with tempfile.TemporaryDirectory() as folder:
        shown = ["-y", "-xx", "-s", str(MOST_BYTES), "-o", f"{folder}/calls"]
        run = subprocess.run(command_of(command, *shown, *options), capture_output=True, timeout=SECONDS)
        threads = [calls_of(path) for path in Path(folder).iterdir()]
    threads.sort(key=lambda calls: not calls or calls[0].name != "execve")
    return Traced(run.returncode, run.stdout.decode("latin-1"), run.stderr.decode("latin-1"), threads)


def looks_for_folder(call, folder):
    """Whether a call is one of those by which a store's folder is opened: it follows the store's name through links."""
    asks_for_link = call.name == "readlink" or (call.name == "statx" and "AT_SYMLINK_NOFOLLOW" in call.words)
    return asks_for_link or (call.name == "openat" and folder in call.paths())


def faults_of(threads, paths):
    """The calls that can fail in a run like this one, from the first on that names one of these paths, and their faults."""
    return faults_from(threads, next(place for place, call in enumerate(threads[0]) if set(paths) & set(call.paths())))


def faults_after_start(threads):
    """The calls that can fail once the system's loader has started the program: the program's first call is on a signal."""
    return faults_from(threads, next(place for place, call in enumerate(threads[0]) if call.name == "rt_sigaction"))


def faults_from(threads, begun):
    first, *others = threads
    before = Counter(call.name for call in first[:begun])
    calls = {}
    for call in [*first[begun:], *(call for thread in others for call in thread)]:
        if call.number > before[call.name]:
            calls.setdefault((call.name, call.number), call)
    for call in calls.values():
        yield call, OWN_FAULTS.get(call.name, "EIO")
        if call.name in FILLING:
            yield call, "ENOSPC"
        if call.name in INTERRUPTED:
            yield call, "EINTR"


def failing(call, fault):
    """The option of strace that lets this call fail. The break of memory has no error: it stays where it is."""
    what = "retval=0" if call.name == "brk" else f"error={fault}"
    return ["-e", f"inject={call.name}:{what}:when={call.number}"]
