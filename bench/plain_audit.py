#!/usr/bin/env python3
"""Audits a session by plain sums: plain_audit.py CAPTURE SESSION SHARDS CAPACITY PHI WEIGH DEAL [BITS]

Deals the records of the capture, and tests each report of the session: its positions, its total and its threshold, the
interval, the width and the height of each line, that each line is justified, and that no prefix is left out. Prints what
`audit` prints, and ends with 1 where a report isn't sound. Nothing here is shared with the program or with `audit.c`: each
pair of addresses is summed under each of its prefixes, 25 by BITS of 8, the default, and 81 by 4. A line whose lengths
aren't those of BITS is no line of such a session: then the end is 2, with `bad report`.
"""

import sys
from itertools import combinations
from pathlib import Path

import session_text

GRAINS = 8, 4


def nodes_of(grain):
    """How many bits of source and destination each node of a grain keeps."""
    lengths = range(0, 33, grain)
    return [(source, destination) for source in lengths for destination in lengths]


def nodes_below(nodes):
    """For each node the others that keep no fewer bits of either address."""
    return {node: [n for n in nodes if n != node and n[0] >= node[0] and n[1] >= node[1]] for node in nodes}


NODES = {grain: nodes_of(grain) for grain in GRAINS}
BELOW = {grain: nodes_below(nodes) for grain, nodes in NODES.items()}


def kept(address, bits):
    return address >> 32 - bits << 32 - bits


def prefix_at(node, source, destination):
    return kept(source, node[0]), node[0], kept(destination, node[1]), node[1]


def is_under(lower, upper):
    return lower[1] >= upper[1] and lower[3] >= upper[3] and prefix_at((upper[1], upper[3]), lower[0], lower[2]) == upper


def meet(one, other):
    """The greatest prefix under both, or none."""
    source, source_bits = max((one[0], one[1]), (other[0], other[1]), key=lambda side: side[1])
    destination, destination_bits = max((one[2], one[3]), (other[2], other[3]), key=lambda side: side[1])
    lowest = source, source_bits, destination, destination_bits
    return lowest if is_under(lowest, one) and is_under(lowest, other) else None


def closest_under(prefix, prefixes):
    """Those of the prefixes strictly under this one that are under no other of them."""
    below = [line for line in prefixes if line != prefix and is_under(line, prefix)]
    return [line for line in below if not any(line != other and is_under(line, other) for other in below)]


def kept_meets(closest):
    """The meets of two of these prefixes that are under no third."""
    for one, other in combinations(closest, 2):
        lowest = meet(one, other)
        if lowest and not any(is_under(lowest, third) for third in closest if third not in (one, other)):
            yield lowest


def is_justified(missing, total, prefix, prefixes):
    """Whether what a line misses to the threshold, times the capacity, is within the widths of the intervals that count."""
    if missing <= total:
        return True
    closest = closest_under(prefix, prefixes)
    if missing <= (1 + len(closest)) * total:
        return True
    return missing <= (1 + len(closest) + sum(1 for _ in kept_meets(closest))) * total


def side_text(address, bits):
    return ".".join(str(part) for part in address.to_bytes(4, "big")) + f"/{bits}"


def prefix_text(prefix):
    return f"{side_text(*prefix[:2])} {side_text(*prefix[2:])}"


def place_in_report(prefix):
    return -(prefix[1] + prefix[3]), prefix[0], prefix[1], prefix[2]


def sums_of(weights, prefixes, grain):
    """The weight of each prefix, and what no line strictly under it has of that."""
    lines, whole, left = set(prefixes), {}, {}
    for (source, destination), weight in weights.items():
        own = {node: prefix_at(node, source, destination) for node in NODES[grain]}
        covered = {node for node, prefix in own.items() if prefix in lines}
        for node, prefix in own.items():
            whole[prefix] = whole.get(prefix, 0) + weight
            if covered.isdisjoint(BELOW[grain][node]):
                left[prefix] = left.get(prefix, 0) + weight
    return whole, left


def threshold_of(total, phi):
    return max(1, -(-phi * total // 1_000_000))


def verdict_on(report, lists, capacity, phi, grain):
    """What is wrong with a report, or none."""
    if len(report.positions) != len(lists) or any(p > len(l) for p, l in zip(report.positions, lists)):
        return "bad positions"
    weights = {}
    for position, records in zip(report.positions, lists):
        for source, destination, weight in records[:position]:
            weights[source, destination] = weights.get((source, destination), 0) + weight
    total = sum(weights.values())
    if report.total != total:
        return "bad total"
    if report.threshold != threshold_of(total, phi):
        return "bad threshold"
    prefixes = [prefix for prefix, _, _ in report.lines]
    whole, left = sums_of(weights, prefixes, grain)
    tests = (
        ("bad interval", lambda prefix, low, high: low <= whole.get(prefix, 0) <= high),
        ("too wide", lambda prefix, low, high: (high - low) * capacity <= total),
        ("below threshold", lambda prefix, low, high: high >= report.threshold),
        ("not justified", lambda prefix, low, high: is_justified(
            capacity * (report.threshold - left.get(prefix, 0)), total, prefix, prefixes)),
    )
    for name, holds in tests:
        for number, line in enumerate(report.lines, 1):
            if not holds(*line):
                return f"{name} in line {number}"
    missing = [prefix for prefix, weight in left.items() if weight >= report.threshold and prefix not in set(prefixes)]
    if missing:
        first = min(missing, key=place_in_report)
        return f"left out {prefix_text(first)} {left[first]}"
    return None


def is_of(grain, session):
    """Whether each line of a session has lengths of a grain."""
    return all(prefix[1::2] in NODES[grain] for report in session.reports for prefix, _, _ in report.lines)


def audit(session, lists, capacity, phi, grain=8):
    """The line that `audit` prints."""
    for number, report in enumerate(session.reports, 1):
        verdict = verdict_on(report, lists, capacity, phi, grain)
        if verdict:
            return f"report {number}: {verdict}"
    return f"good {len(session.reports)}"


def main():
    capture, session, shards, capacity, phi, weigh, deal, *bits = sys.argv[1:]
    grain = int(*bits or "8")
    lists = session_text.deal(session_text.read_capture(capture), int(shards), deal, weigh)
    session = session_text.read_session(Path(session).read_text())
    if not is_of(grain, session):
        print(f"{sys.argv[0]}: bad report: a length isn't of {grain} bits", file=sys.stderr)
        sys.exit(2)
    line = audit(session, lists, int(capacity), int(phi), grain)
    print(line)
    sys.exit(not line.startswith("good"))


if __name__ == "__main__":
    main()
