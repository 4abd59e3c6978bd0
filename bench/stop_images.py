"""What a stop of the machine may leave of a store, by the calls that a run made on it, for the trials.

A stop comes after some of a run's steps. What was synced by then stands. Of each write since, all, nothing, a part or other
bytes may be there, whatever became of the others; where it went past the end, the file may have any length up to its end.
A file that the run created may be missing until its folder was synced.
"""

from dataclasses import dataclass, field
from pathlib import Path

from stored_capture import test

SECTOR = 512
# Calls on a store that change nothing of it.
READS = ("openat", "pread64", "read", "lseek", "statx", "fstat", "newfstatat", "readlink", "fcntl", "close")


@dataclass
class Stop:
    """What stands of a store, and what was written to standard output, by some moment of a run."""

    safe: bytes  # what the last sync left
    pending: list = field(default_factory=list)  # the writes since, each its offset and its bytes
    is_named: bool = True  # whether the name of the file is safe
    has_file: bool = True
    was_synced: bool = False  # by this run
    text: str = ""

    def kept(self):
        """The bytes that a read gives."""
        image = bytearray(self.safe)
        for place, piece in self.pending:
            if piece:
                put(image, place, piece)
        return bytes(image)

    def image(self):
        """The same, or none where there is no file."""
        return self.kept() if self.has_file else None

    def take(self, step):
        kind, *what = step
        if kind == "create":
            self.is_named, self.has_file = self.has_file and self.is_named, True
        elif kind == "write":
            self.pending.append(what)
        elif kind == "sync":
            self.safe, self.pending, self.was_synced = self.kept(), [], True
        elif kind == "name":
            self.is_named = True
        elif kind == "say":
            self.text += what[0]

    def is_open(self):
        """Whether more than one image may be left."""
        return not self.is_named or any(piece for _, piece in self.pending)


def stop_after(start, steps):
    """The stop after these steps of a run that began as this stop of an earlier one."""
    stop = Stop(start.safe, list(start.pending), start.is_named, start.has_file)
    for step in steps:
        stop.take(step)
    return stop


def put(image, place, piece):
    """Writes a piece at an offset. A gap before it is filled with zero bytes."""
    image.extend(bytes(max(0, place - len(image))))
    image[place:place + len(piece)] = piece


def some_of(piece, size, source):
    """Some of the ranges of this size in a piece."""
    return [(at, piece[at:at + size]) for at in range(0, len(piece), size) if source.random() < 0.5]


def parts_of(piece, source):
    """What a stop may leave of a write: the parts that are there, each with its offset in the range of the write."""
    size, cut = len(piece), source.randint(0, len(piece))
    return source.choice((
        lambda: [],
        lambda: [(0, piece)],
        lambda: [(0, piece[:cut])],
        lambda: [(cut, piece[cut:])],
        lambda: some_of(piece, SECTOR, source),
        lambda: some_of(piece, source.randint(1, 64), source),
        lambda: [(0, source.choice((source.randbytes(size), bytes(size), b"\xff" * size)))],
        lambda: [(0, piece), (cut, source.randbytes(source.randint(0, size - cut)))],
        lambda: [(cut, b"")],  # the file has grown, perhaps, and nothing else
    ))()


def image_of(stop, source):
    """One of the images that this stop may leave, or none where the file may be missing."""
    if not stop.has_file or (not stop.is_named and source.random() < 0.3):
        return None
    image = bytearray(stop.safe)
    for place, piece in stop.pending:
        if piece:
            # The gap before a write past the end is of its range too.
            begin = min(place, len(image))
            for at, part in parts_of(bytes(place - begin) + piece, source):
                put(image, begin + at, part)
    return bytes(image)


def steps_of(traced, store):
    """The steps of a run: what it did to a store and wrote to standard output, in their order."""
    folder = str(Path(store).parent)
    threads = [[step for call in calls for step in steps_of_call(call, store, folder)] for calls in traced.threads]
    acting = [steps for steps in threads if steps]
    # The order of the steps of several threads wouldn't be known.
    test(len(acting) <= 1, "two threads write")
    return acting[0] if acting else []


def steps_of_call(call, store, folder):
    paths, failed = call.paths(), call.answer < 0
    if call.name == "write" and call.descriptor() == 1:
        return [] if failed else [("say", call.piece()[:call.answer].decode())]
    if store not in paths:
        return [("name",)] if call.name == "fsync" and folder in paths and not failed else []
    if call.name == "pwrite64":
        # One that failed may have left anything in its range.
        return [("write", call.last_number(), call.piece() if failed else call.piece()[:call.answer])]
    if call.name in ("fsync", "fdatasync"):
        return [] if failed else [("sync",)]
    if call.name == "openat" and "O_CREAT" in call.words and "O_TRUNC" not in call.words:
        return [] if failed else [("create",)]
    test(call.name in READS and "O_TRUNC" not in call.words, f"a call that isn't known: {call.name} {call.words[:200]}")
    return []
