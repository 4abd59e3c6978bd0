"""A capture under the settings of a store, for the trials: the words of its runs, and what must come of them."""

import subprocess
from pathlib import Path

import session_text
import store_bytes

SECONDS = 600
LINES = {
    4: "hhh: read fault\n",
    5: "hhh: write fault\n",
    6: "hhh: disk fault\n",
    7: "hhh: store not formatted\n",
    8: "hhh: store damaged: slot {}\n",
    9: "hhh: store has other settings\n",
    10: "hhh: store is of another capture\n",
    13: "hhh: out of memory\n",
}


def test(holds, what):
    if not holds:
        raise AssertionError(what)


def least_share(capacity):
    """The least `phi` that this capacity allows."""
    return -(-2_000_000 // capacity)


def write_front(store, front):
    """Writes the first bytes of a file and leaves the others, as `format` does."""
    behind = Path(store).read_bytes()[len(front):] if Path(store).exists() else b""
    Path(store).write_bytes(front + behind)


class StoredCapture:
    """A capture, and the settings of its stores."""

    def __init__(self, program, path, settings, phi=None):
        self.program, self.path, self.settings = program, path, settings
        shards, capacity, weigh, deal, bits = settings
        self.capture = session_text.read_capture(path)
        self.lists = session_text.deal(self.capture, shards, deal, weigh)
        self.ends = [len(records) for records in self.lists]
        self.spelled_lists = store_bytes.spell_lists(self.lists)
        self.store_words = ["--shards", str(shards), "--capacity", str(capacity), "--weigh", weigh, "--deal", deal]
        self.store_words += ["--bits", str(bits)] if bits != 8 else []
        self.words = ["--capture", path, *self.store_words, "--phi", str(phi or least_share(capacity))]
        self.last_report = session_text.last_report(self.run(self.report("--workers", "1")).stdout)

    def report(self, *words):
        return [self.program, "report", *self.words, *words]

    def format(self, store):
        return [self.program, "format", "--store", store, *self.store_words]

    def run(self, command):
        return subprocess.run(command, capture_output=True, text=True, timeout=SECONDS)

    def format_store(self, store, version=2):
        """Makes a store; one of version 1 as programs of that time did, since `format` writes version 2."""
        front = store_bytes.formatted(store_bytes.Header(version, self.settings))
        if version == 1:
            write_front(store, front)
        else:
            test(self.run(self.format(store)).stdout == "formatted\n", "format failed")
            test(Path(store).read_bytes()[:store_bytes.FRONT] == front, "another header")

    def stop_after_saves(self, store, saves, block, *words):
        """Begins a run of small blocks over a store and kills it after so many saves. Answers what it wrote."""
        command, text = self.report("--store", store, "--rounds", "8", "--block", str(block), *words), ""
        with subprocess.Popen(command, stdout=subprocess.PIPE, text=True) as run:
            for line in run.stdout:
                text += line
                saves -= line.startswith("saved")
                if not saves:
                    run.kill()
                    break
            return text + run.stdout.read()

    def opening(self, image):
        return store_bytes.opening(image, self.settings, self.lists, self.spelled_lists)

    def go_on(self, store, *words):
        """Runs a report over a store, and tests that it opens as docs/FORMATS.md says of its bytes. Answers how it ended."""
        image = Path(store).read_bytes() if Path(store).exists() else b""
        wanted, where = self.opening(image)
        ended = self.run(self.report("--store", store, *words))
        after = Path(store).read_bytes()
        test(ended.returncode == wanted, f"{ended.returncode} {ended.stderr} in place of {wanted}")
        if wanted:
            test(ended.stdout == "" and after == image, "something was written")
            test(ended.stderr == LINES[wanted].format(where), ended.stderr)
            return ended
        test(session_text.numbers(ended.stdout.split("\n")[0]) == where, "opened elsewhere")
        opened = self.opening(after)
        test(opened == (0, self.ends), f"the store then opens to {opened}")
        test(store_bytes.header_in(after) == store_bytes.header_in(image), "another header")
        return ended

    def audit(self, text, part):
        """How an audit of a text ends, which is written to the file `part`."""
        Path(part).write_text(text)
        return self.run([self.program, "audit", *self.words, "--report", part])

    def test_beginning(self, text, part):
        """Tests that a text is the beginning of a session, whose whole reports have a good audit."""
        fault = session_text.fault_of_beginning(text)
        test(fault is None, f"no beginning of a session: {fault!r}")
        whole = session_text.whole_reports(text)
        if whole is not None:
            audit = self.audit(whole, part)
            test(audit.returncode == 0, f"audit: {audit.returncode} {audit.stdout}{audit.stderr}")
