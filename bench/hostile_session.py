#!/usr/bin/env python3
"""Writes the text of a session that is made against `audit`.

    hostile_session.py lines NODES CAPTURE
    hostile_session.py repeat TIMES SESSION
    hostile_session.py unsound LINES

`lines` has one report, on all records of a capture, for one shard, packets, and a `phi` that makes the threshold two
packets. Each prefix that carries them has a line with its exact weight at the root, at the two nodes of one byte, and at as
many of the other nodes, the deepest first. Over a `paired` capture of 4,000 frames it is sound at capacity 4,000 and
`phi` 500: each pair of hosts is a line, so no other prefix has any weight left, and one line below a prefix makes up for
the threshold.

`repeat` has the last report of SESSION, TIMES times.

`unsound` has one report of LINES lines, of which none has a weight.
"""

import sys
from collections import Counter
from pathlib import Path

import session_text
from plain_audit import NODES, place_in_report, prefix_at, side_text

WIDE = [(0, 0), (0, 8), (8, 0)]
DEEPEST_FIRST = sorted((node for node in NODES[8] if node not in WIDE), key=sum, reverse=True)
THRESHOLD = 2


def report_of(total, threshold, lines):
    return f"report\nat {total}\ntotal {total}\nthreshold {threshold}\n{''.join(lines)}done\n"


def line_of(prefix, weight):
    return f"line {side_text(*prefix[:2])} {side_text(*prefix[2:])} {weight} {weight}\n"


def report_with_lines(nodes, capture):
    pairs = Counter((source, destination) for source, destination, _ in session_text.read_capture(capture).records)
    weights = Counter()
    for pair, weight in pairs.items():
        weights.update({prefix_at(node, *pair): weight for node in WIDE + DEEPEST_FIRST[:nodes]})
    prefixes = sorted((prefix for prefix, weight in weights.items() if weight >= THRESHOLD), key=place_in_report)
    return report_of(pairs.total(), THRESHOLD, [line_of(prefix, weights[prefix]) for prefix in prefixes])


def report_without_weights(lines):
    return report_of(0, 1, [line_of((number, 32, 0, 32), 0) for number in range(lines)])


def write_session(report, times):
    print("opened 0")
    for _ in range(times):
        print(report, end="")
    print("frames 0\nskipped 0 0 0\nend")


def main():
    kind, count, *rest = sys.argv[1:]
    if kind == "lines":
        write_session(report_with_lines(int(count), *rest), 1)
    elif kind == "repeat":
        write_session(session_text.last_report(Path(*rest).read_text()) + "done\n", int(count))
    else:
        write_session(report_without_weights(int(count)), 1)


main()
