"""What `sites` writes over the stores of several sites, worked out from their bytes, and how it ends: for the trials.

A plain reader of words, of stores (`store_bytes.py`) and of the definition of a report beside the program's own. A set
of stores is a list of images: the bytes of a store, or none where its file can't be opened.
"""

from itertools import combinations
from typing import NamedTuple

import plain_audit
import session_text
import store_bytes
from plain_runs import line_text, lines_of, texts_of

MOST_SITES = 8
TOO_HEAVY = 1 << 56
MOST_NUMBER = (1 << 64) - 1
SHARE_LIMIT = 2_000_000
# In the order in which their values are checked: the choices, or the least and the greatest number.
OPTIONS = {
    "weigh": store_bytes.WEIGHINGS,
    "shards": (1, 16),
    "capacity": (2, 4096),
    "phi": (1, 1_000_000),
    "deal": store_bytes.DEALINGS,
    "bits": (4, 8),
}
DEFAULTS = {"weigh": "bytes", "shards": "4", "capacity": "512", "phi": "10000", "deal": "round", "bits": "8"}
LINES = {
    2: "bad words",
    6: "site {}: disk fault",
    7: "site {}: not formatted",
    8: "site {}: damaged: slot {}",
    9: "site {}: other settings",
    14: "sites {} and {} are of one capture",
    15: "too heavy",
}


class Asked(NamedTuple):
    """What words ask for."""

    settings: store_bytes.Settings
    phi: int
    names: list


class BadWords(Exception):
    """The words are refused for this fault."""


class Refused(Exception):
    """A set of stores is refused: the status, and the numbers in its line."""

    def __init__(self, status, *numbers):
        super().__init__(status, *numbers)
        self.ended = status, "", f"hhh: {LINES[status].format(*numbers)}\n"


def need(holds, fault):
    if not holds:
        raise BadWords(fault)


def is_value(word):
    return word != "" and not word.startswith("-")


def part_words(words):
    """The values of the options at the beginning, and the names that follow them."""
    values, left = {}, list(words)
    while left and left[0].startswith("-"):
        name, has_value, value = left.pop(0).partition("=")
        if not has_value:
            need(left, "refused")
            value = left.pop(0)
        need(name[:2] == "--" and name[2:] in OPTIONS and name[2:] not in values and is_value(value), "refused")
        values[name[2:]] = value
    need(left and all(map(is_value, left)), "refused")
    return values, left


def read_number(word, limits):
    is_number = word.isascii() and word.isdigit() and (word == "0" or word[0] != "0")
    need(is_number and int(word) <= MOST_NUMBER, "number")
    need(limits[0] <= int(word) <= limits[1], "limits")
    return int(word)


def read_words(words):
    """What the words after `sites` ask for."""
    values, names = part_words(words)
    need(len(names) <= MOST_SITES, "too many")
    found = {}
    for name, limits in OPTIONS.items():
        word = values.get(name, DEFAULTS[name])
        if isinstance(limits, tuple):
            found[name] = read_number(word, limits)
        else:
            need(word in limits, "choice")
            found[name] = word
        if name == "bits":
            need(found["bits"] in store_bytes.MOST_CAPACITY, "limits")
            need(found["capacity"] <= store_bytes.MOST_CAPACITY[found["bits"]], "limits")
    need(found["phi"] * found["capacity"] >= SHARE_LIMIT, "bound")
    settings = store_bytes.Settings(found["shards"], found["capacity"], found["weigh"], found["deal"], found["bits"])
    return Asked(settings, found["phi"], names)


def read_store(site, image, settings):
    """The newest body of the store of a site, or none where no gate is open."""
    if image is None:
        raise Refused(6, site)
    stored = store_bytes.header_in(image)
    if stored is None:
        raise Refused(7, site)
    if stored.settings != settings:
        raise Refused(9, site)
    try:
        bodies = store_bytes.open_bodies(image, settings)
    except store_bytes.DamagedSlot as damaged:
        raise Refused(8, site, damaged.args[0]) from None
    return bodies[store_bytes.newest_of(bodies)] if bodies else None


def read_stores(images, settings):
    """The bodies of a set of stores, which isn't refused."""
    bodies = [read_store(site, image, settings) for site, image in enumerate(images, 1)]
    for (first, one), (second, other) in combinations(enumerate(bodies, 1), 2):
        if one and other and sum(one.totals) and sum(other.totals) and one.digest == other.digest:
            raise Refused(14, first, second)
    if sum(sum(body.totals) for body in bodies if body) >= TOO_HEAVY:
        raise Refused(15)
    return bodies


def prefix_of(node, key, bits):
    """The prefix of a key at a node."""
    source, destination = divmod(node, store_bytes.lengths_of(bits))
    return key >> 32, bits * source, key & 0xFFFFFFFF, bits * destination


def merge(tables, capacity):
    """The interval of each key in some of these tables of one node, and the high of any other key."""
    least = [entries[0].count if len(entries) == capacity else 0 for entries in tables]
    merged, missing = {}, sum(least)
    for entries, count_of_others in zip(tables, least):
        for key, count, error in entries:
            low, high = merged.get(key, (0, missing))
            merged[key] = low + count - error, high + count - count_of_others
    return merged, missing


def intervals_of(shards, settings):
    """The interval of each prefix that is in a table of these shards, and the high of any other by its lengths."""
    intervals, missing = {}, {}
    for node in range(store_bytes.nodes_of(settings.bits)):
        merged, others = merge([tables[node] for tables in shards], settings.capacity)
        _, *lengths = prefix_of(node, 0, settings.bits)[0::2], *prefix_of(node, 0, settings.bits)[1::2]
        missing[tuple(lengths)] = others
        for key, interval in merged.items():
            intervals[prefix_of(node, key, settings.bits)] = interval
    return intervals, missing


def report_of(bodies, settings, phi):
    """The one report over these bodies. Its lines are those of the shards of all of them."""
    intervals, missing = intervals_of([tables for body in bodies if body for tables in body.tables], settings)
    total = sum(sum(body.totals) for body in bodies if body)
    threshold = plain_audit.threshold_of(total, phi)
    lines = lines_of(intervals, lambda prefix: intervals.get(prefix) or (0, missing[prefix[1::2]]), threshold)
    positions = [position for body in bodies for position in (body.positions if body else [0] * settings.shards)]
    return session_text.Report(positions, total, threshold, [(prefix, *interval) for prefix, interval in lines.items()])


def text_of(report, sites):
    """What `sites` writes for a report over so many stores."""
    shards = len(report.positions) // sites
    own = [line_text(f"site {site + 1}", report.positions[site * shards:(site + 1) * shards]) for site in range(sites)]
    lines = texts_of({prefix: (low, high) for prefix, low, high in report.lines})
    texts = [f"sites {sites}", *own, f"total {report.total}", f"threshold {report.threshold}", *lines, "end"]
    return "".join(text + "\n" for text in texts)


def run_over(images, settings, phi):
    """How `sites` ends over a set of stores, its status and both outputs, and the report, or none."""
    try:
        report = report_of(read_stores(images, settings), settings, phi)
    except Refused as refused:
        return refused.ended, None
    return (0, text_of(report, len(images)), ""), report
