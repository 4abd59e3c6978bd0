"""Command lines of all commands over one capture, for the trials in which calls fail: how each ends where nothing fails,
and what is wrong with how it ended where something did."""

import subprocess
from pathlib import Path

import capture_reader
import capture_writer
import session_text
import store_bytes

SECONDS = 600
OUT_OF_MEMORY = 13
STORE = ["--shards", "2", "--capacity", "64"]
SETTINGS = store_bytes.Settings(2, 64, "bytes", "round")
SHARE = ["--phi", "50000"]
INTERFACES = 300
# The line on standard error by status, of which a run over sites names the site.
LINES = {4: "read fault", 5: "write fault", 6: "disk fault", 13: "out of memory"}
# On these statuses nothing is written to standard output.
SILENT = 2, 3, 4, 7, 8, 9, 10, 12


class CommandLines:
    """The files of the command lines in a folder, and the command lines."""

    def __init__(self, program, capture, folder):
        self.program, self.capture, self.folder = program, capture, folder
        for name in ("good", "bad", "pcapng", "made", "part"):
            setattr(self, name, f"{folder}/{name}")
        # Each store has a folder of its own, so that a call on the folder tells of the store alone.
        self.store, self.other = (self.in_own_folder(name) for name in ("store", "other"))
        Path(self.pcapng).write_bytes(capture_writer.section(">", capture_reader.read_file(capture).frames, [1] * INTERFACES))
        report = ["report", "--capture", capture, *SHARE]
        whole = self.run(report)[1]
        Path(self.good).write_text(whole)
        Path(self.bad).write_text("".join(line for line in whole.splitlines(True) if not line.startswith("line")))
        self.format_store()
        empty = Path(self.store).read_bytes()
        self.whole_report = session_text.last_report(self.run([*report, "--store", self.store, *STORE])[1])
        saved = Path(self.store).read_bytes()
        Path(self.other).write_bytes(empty)
        Path(self.made).write_bytes(self.run(["make", "9", "2000"])[1].encode("latin-1"))
        self.run(["report", "--capture", self.made, "--store", self.other, *STORE, *SHARE])
        self.saved_other = Path(self.other).read_bytes()
        live = ["--workers", "2", "--callers", "2", "--rounds", "2", "--block", "64"]
        self.lines = [
            Line(self, "weigh", "10.0.0.0/8", "0.0.0.0/0", "--capture", capture),
            Line(self, *report, "--workers", "1"),
            Line(self, *report, "--workers", "4"),
            Line(self, *report, *live, varies=True),
            Line(self, *report, *STORE, *live, "--store", self.store, settings=STORE, before=empty, varies=True),
            Line(self, *report, *STORE, "--workers", "1", "--store", self.store, settings=STORE, before=saved),
            Line(self, "format", "--store", self.store, *STORE, before=saved),
            Line(self, "audit", "--capture", capture, "--report", self.good, *SHARE),
            Line(self, "audit", "--capture", capture, "--report", self.bad, *SHARE),
            Line(self, "weigh", "10.0.0.0/8", "0.0.0.0/0", "--capture", self.pcapng),
            Line(self, "watch", "--report", self.good, "--limit", "1000"),
            Line(self, "sites", *STORE, *SHARE, self.store, self.other, before=saved),
            Line(self, "make", "7", "2000"),
            Line(self, "demo", "7", "2000", "--workers", "2"),
            Line(self, "report", "--shards", "17"),
        ]

    def in_own_folder(self, name):
        Path(self.folder, f"of_{name}").mkdir()
        return f"{self.folder}/of_{name}/{name}"

    def inputs(self):
        return [self.capture, self.good, self.bad, self.pcapng]

    def stores(self):
        return [self.store, self.other]

    def run(self, words, environment=None):
        """Status, output and line of a run; the status is `hang` where it doesn't end."""
        try:
            ended = subprocess.run([self.program, *words], capture_output=True, env=environment, timeout=SECONDS)
        except subprocess.TimeoutExpired:
            return "hang", "", ""
        return ended.returncode, ended.stdout.decode("latin-1"), ended.stderr.decode("latin-1")

    def format_store(self):
        return self.run(["format", "--store", self.store, *STORE])

    def audits_well(self, text, settings):
        """Whether the whole reports of a session's text, or of the beginning of one, have a good audit."""
        whole = session_text.whole_reports(text)
        if whole is None:
            return True
        Path(self.part).write_text(whole)
        return self.run(["audit", "--capture", self.capture, "--report", self.part, *settings, *SHARE])[0] == 0


class Line:
    """A command line, the state of its store before, and what it gives where nothing fails."""

    def __init__(self, made, *words, settings=(), before=None, varies=False):
        self.made, self.words, self.settings, self.before, self.varies = made, list(words), list(settings), before, varies
        self.prepare()
        self.status, self.text, self.line = made.run(self.words)

    def prepare(self):
        if self.before is not None:
            Path(self.made.store).write_bytes(self.before)

    def shown(self):
        """The words, without the names of this trial's files."""
        capture = self.made.capture
        return " ".join("CAPTURE" if word == capture else word.replace(self.made.folder, ".") for word in self.words)

    def line_of(self, status):
        """The line on standard error with which a status comes that isn't its own."""
        return f"hhh: {LINES.get(status)}\n"

    def fault_of(self, status, text, line, statuses=(OUT_OF_MEMORY,), may_lack_line=True):
        """What is wrong with how a run ended that may also end with these statuses, or none."""
        fault = self.fault_of_end(status, text, line, statuses, may_lack_line)
        if fault:
            return fault
        if self.words[0] == "report" and not self.made.audits_well(text, self.settings):
            return "an audit that finds fault"
        return None if self.before is None else self.fault_of_store(status, text)

    def fault_of_end(self, status, text, line, statuses, may_lack_line):
        if status == self.status and (line == self.line or may_lack_line and line == ""):
            if text == self.text:
                return None
            if not self.varies or not text.endswith("end\n"):
                return "another text"
            is_same = session_text.last_report(text) == session_text.last_report(self.text)
            return None if is_same else "another last report"
        if status not in statuses:
            return "another status"
        lines = [self.line_of(status)]
        if self.words[0] == "sites" and status == 6:
            lines = [f"hhh: site {site}: disk fault\n" for site in (1, 2)]
        if line not in lines and not (may_lack_line and line == ""):
            return "another line"
        if text and (status in SILENT or status == OUT_OF_MEMORY and self.words[0] in ("sites", "format")):
            return "a text after a refusal"
        if self.varies:
            return None if session_text.fault_of_beginning(text) is None else "no beginning of a session"
        return None if self.text.startswith(text) else "no beginning of the text"

    def fault_of_store(self, status, text):
        if self.words[0] == "format":
            return self.fault_of_format(status)
        if self.words[0] == "sites":
            stores = [Path(each).read_bytes() for each in self.made.stores()]
            return None if stores == [self.before, self.made.saved_other] else "another store"
        after, later, _ = self.made.run(["report", "--capture", self.made.capture, "--store", self.made.store, *STORE, *SHARE])
        if after != 0 or session_text.last_report(later) != self.made.whole_report:
            return f"a store that can't be gone on with: {after}"
        opened, saved = session_text.numbers(later.split("\n")[0]), session_text.last_saved(text)
        return "a store that opens before the last save" if saved and any(a < b for a, b in zip(opened, saved)) else None

    def fault_of_format(self, status):
        """On 0 and 5 the store is made, on 13 it is as it was, and on 6 it can be formatted again."""
        if status == 6 and self.made.format_store() != (0, "formatted\n", ""):
            return "a store that can't be formatted again"
        image = Path(self.made.store).read_bytes()
        if status == OUT_OF_MEMORY:
            return None if image == self.before else "another store"
        front = store_bytes.formatted(store_bytes.Header(2, SETTINGS))
        return None if image == front + self.before[len(front):] else "a store that isn't made"
