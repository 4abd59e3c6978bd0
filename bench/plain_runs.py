"""What `weigh` and `report` write over a capture, worked out by plain sums, and how the program ends: for the trials.

The sums are what the program writes where there are fewer pairs of addresses than a table has entries: then its tables
count each pair exactly.
"""

import subprocess
from collections import Counter
from dataclasses import dataclass

import plain_audit
import session_text

SECONDS = 600


@dataclass(frozen=True)
class Settings:
    """The settings of a run over a capture. The prefix is that of `weigh`."""

    prefix: tuple
    shards: int
    phi: int
    weigh: str
    deal: str
    bits: int
    capacity: int = 64

    def words(self):
        """The words of `report` and `audit`."""
        options = [("shards", self.shards), ("capacity", self.capacity), ("phi", self.phi), ("weigh", self.weigh),
            ("deal", self.deal), ("bits", self.bits)]
        return [word for name, value in options for word in (f"--{name}", str(value))]


def lines_of(candidates, interval, threshold):
    """The lines of a report, each with its low and high: of which the closest lines leave as much as the threshold, or may."""
    lines = {}
    for prefix in sorted((prefix for prefix in candidates if interval(prefix)[1] >= threshold), key=plain_audit.place_in_report):
        closest = plain_audit.closest_under(prefix, lines)
        left = interval(prefix)[1] - sum(lines[line][0] for line in closest)
        left += sum(interval(lowest)[1] for lowest in plain_audit.kept_meets(closest))
        if left >= threshold:
            lines[prefix] = interval(prefix)
    return lines


def exact_lines(weights, threshold, bits):
    """The lines of a report by exact weights."""
    whole, _ = plain_audit.sums_of(weights, [], bits)
    return lines_of(whole, lambda prefix: (whole.get(prefix, 0),) * 2, threshold)


def texts_of(lines):
    """The lines of a report as they are written."""
    return [f"line {plain_audit.prefix_text(prefix)} {low} {high}" for prefix, (low, high) in lines.items()]


def line_text(word, numbers):
    return " ".join([word, *map(str, numbers)])


def session_of(settings, capture, cut=None):
    """The text of the session over a capture, with the place of the cut that follows it, or none."""
    lists, weights = session_text.deal(capture, settings.shards, settings.deal, settings.weigh), Counter()
    for source, destination, weight in (record for records in lists for record in records):
        weights[source, destination] += weight
    total = weights.total()
    threshold = plain_audit.threshold_of(total, settings.phi)
    lines = texts_of(exact_lines(weights, threshold, settings.bits))
    texts = [
        line_text("opened", [0] * settings.shards), "report", line_text("at", map(len, lists)), f"total {total}",
        f"threshold {threshold}", *lines, "done", f"frames {capture.frames}", line_text("skipped", capture.skipped),
        *([f"cut {cut}"] if cut is not None else []), "end",
    ]
    return "".join(text + "\n" for text in texts)


def weighed(settings, capture):
    """What `weigh` writes: both ends are the weight."""
    (records,) = session_text.deal(capture, 1, settings.deal, settings.weigh)
    (source, bits), (destination, other_bits) = map(session_text.read_side, settings.prefix)
    weight = sum(record[2] for record in records
        if plain_audit.prefix_at((bits, other_bits), *record[:2]) == (source, bits, destination, other_bits))
    return f"low {weight}\nhigh {weight}\ntotal {sum(record[2] for record in records)}\n"


def refusal_of(fault):
    """How each command ends over a capture that is refused."""
    return 3, "", f"hhh: bad capture: {fault.name} at {fault.place}\n"


def run(program, words, data):
    """How a run ends that reads this: its status, standard output and standard error."""
    ended = subprocess.run([program, *words], input=data, capture_output=True, timeout=SECONDS)
    return ended.returncode, ended.stdout.decode(), ended.stderr.decode()
