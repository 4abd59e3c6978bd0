#!/usr/bin/env python3
"""Writes a capture of random IPv4 traffic: make_capture.py SEED FRAMES KIND > FILE

KIND is `short`, `whole`, `skewed`, `mixed`, `zipf`, `distinct`, `met`, `crossed`, `nested`, `paired`, `heavy`, `forged`
or `listed`. Addresses come from a linear congruential generator; of each side a quarter is one host, a quarter falls into
a /22, and the rest spreads over a /8. Lengths on the wire go 100, 200, 300, 400 in turn. `short` frames hold the 34 bytes
up to the end of the IPv4 header, `whole` frames all their bytes.

`skewed` frames are as short, and of each side three quarters fall to 255 hosts, which are strewn over the /8:
as often to host 1 as to 2 and 3 together, to 4 up to 7, and so on up to 128 to 255. So a host has about
half of what the host of half its number has. The last quarter spreads over the /8.

`mixed` frames are `skewed` ones, but for their lengths on the wire, each of which is any from 60 to 1,514.

`zipf` frames are as short, and each side has 1,048,576 hosts, which are strewn over all addresses: the host of number n
has a share of about 1 / n. So few hosts have much, many have little, and there is no end to new ones.

`distinct` frames are as short, have random pairs of addresses, and a length of 100 bytes on the wire each. Hardly a pair
comes twice, so nearly all tables take a new key with each frame.

`met` frames are as short, and made against the index of the tables at their default capacity: no two have one pair
of addresses, and all pairs share their first home in each of the nine tables that keep two bytes or more of
each side. There are some 2,000,000 such pairs.

`crossed` frames are as short, and made against the query. Of each side there are a tenth as many /16 networks as
frames. Each has ten frames, from ten /24 networks, and the order is random. So at a threshold of ten packets each
network has a line, none of its parts has one, and nearly each pair of a source and a destination network is kept.

`nested` frames are as short, and made against the query too. Of each side there are a tenth as many hosts as frames, all
of one /16. Each has five frames with each of two hosts of the other side, and the order is random. So at a threshold of
ten packets each host has a line, neither the /16 nor a prefix above it has one, and all nine of these keep each pair.

`paired` frames are as short, and made against the audit: each pair of hosts has two frames, and shares no network of a
/16 or longer with another pair, and no pair of /8 networks. So there may be a line of two packets for nearly each pair of
hosts at 22 nodes. There are at most 62,500 pairs.

`heavy` frames are as short, have random pairs of addresses, and claim lengths from 2^31 to 2^32 on the wire, so that
counts outgrow the ranks of a table.

`forged` frames are `skewed` ones, but for the middle one, which claims a length of 4,093,509,168 bytes on the wire.

`listed` frames are as short, and have the pairs of addresses that standard input lists: a source and a destination, as
numbers, in each line, and after them the length on the wire, or 100 bytes. The last line is repeated up to the number
of frames.
"""

import bisect
import itertools
import random
import struct
import sys

MULTIPLIER = 6364136223846793005
INCREMENT = 1442695040888963407
STATES = 1 << 64
STREWING = 0x9E3779
ZIPF_STREWING = 0x9E3779B1
# The multiplier of a search, and how many homes the index of a table of 512 entries has.
MULTIPLIER_OF_INDEX = 0x9E3779B97F4A7C15
HOMES = 4 * 512
FORGED_LENGTH = 4_093_509_168
FILE_HEADER = struct.pack("<IHHIIII", 0xA1B2C3D4, 2, 4, 0, 0, 262144, 1)
ETHERNET = bytes.fromhex("020000000002" "020000000001" "0800")


def address(first_byte, draw):
    """The address that 32 random bits pick in the /8 of this first byte."""
    top, low = draw >> 24, draw & 0xFFFFFF
    if top < 64:
        low = 1
    elif top < 128:
        low = ((draw >> 16) & 3) << 8 | (draw >> 8) & 0xFF
    return first_byte << 24 | low


def skewed_address(first_byte, draw):
    """The address in the /8 of this first byte, where few hosts have most addresses."""
    low = draw & 0xFFFFFF
    if draw >> 30 < 3:
        first_of_doubling = 1 << (draw >> 27 & 7)
        host = first_of_doubling + (draw & first_of_doubling - 1)
        low = host * STREWING & 0xFFFFFF
    return first_byte << 24 | low


def zipf_address(first_byte, draw):
    """The address of a host whose share falls with its number, from 1 to 2^20, whatever the first byte."""
    host = int(2 ** (20 * draw / 2**32))
    return (host * ZIPF_STREWING + (first_byte << 24)) & 0xFFFFFFFF


def random_pairs(seed, pick):
    """Pairs of addresses without end."""
    state = seed
    while True:
        state = (MULTIPLIER * state + INCREMENT) % STATES
        source = pick(10, state >> 32)
        state = (MULTIPLIER * state + INCREMENT) % STATES
        yield source, pick(20, state >> 32)


ADDRESSES = {"skewed": skewed_address, "mixed": skewed_address, "forged": skewed_address, "zipf": zipf_address}


def met_pairs():
    """Pairs of /16 networks whose key has the first home: folded, its product with the multiplier is below the second."""
    low = sorted(((folded << 16) * MULTIPLIER_OF_INDEX % STATES, folded) for folded in range(1 << 16))
    for first in range(1 << 16):
        missing = -(first << 48) * MULTIPLIER_OF_INDEX % STATES
        place = bisect.bisect_left(low, (missing, 0))
        for turn in range(len(low)):
            product, folded = low[(place + turn) % len(low)]
            if (product - missing) % STATES >= STATES // HOMES:
                break
            # A search folds the upper half of a key, its source, into the lower one first.
            yield first << 16, (folded ^ first) << 16


def crossed_addresses(source, count):
    """The addresses of one side: ten in each of a tenth as many /16 networks, in a random order."""
    addresses = [
        (net % 250 + 1) << 24 | net // 250 << 16 | part << 8 | source.randrange(1, 255)
        for net in range(count // 10)
        for part in range(10)
    ]
    source.shuffle(addresses)
    return addresses


def crossed_pairs(seed, count):
    """Pairs of addresses of both sides."""
    source = random.Random(seed)
    return zip(crossed_addresses(source, count), crossed_addresses(source, count))


def nested_pairs(seed, count):
    """Pairs of addresses of two /16 networks: of each host five with one host of the other side, and five with the next."""
    hosts = count // 10
    low = [1 << 16 | host % 250 << 8 | host // 250 + 1 for host in range(hosts)]
    pairs = [
        (10 << 24 | low[host], 20 << 24 | low[(host + step) % hosts])
        for host in range(hosts)
        for step in range(2)
        for _ in range(5)
    ]
    random.Random(seed).shuffle(pairs)
    return pairs


def paired_pairs(count):
    """Pairs of addresses, each twice: a /8 network of the one side meets each /8 network of the other once."""
    for pair in range((count + 1) // 2):
        turn, net = divmod(pair, 250)
        source = (net + 1) << 24 | turn << 16 | 1
        destination = ((net + turn) % 250 + 1) << 24 | turn << 16 | 2
        yield source, destination
        yield source, destination


def any_pairs(seed):
    """Pairs of any addresses, without end."""
    source = random.Random(seed)
    while True:
        yield source.getrandbits(32), source.getrandbits(32)


def listed():
    """The lengths and pairs that standard input lists, and the last of them without end."""
    for line in sys.stdin:
        source, destination, *length = map(int, line.split())
        wire = length[0] if length else 100
        yield wire, (source, destination)
    yield from itertools.repeat((wire, (source, destination)))


def pairs_of(seed, count, kind):
    if kind == "met":
        return met_pairs()
    if kind == "crossed":
        return crossed_pairs(seed, count)
    if kind == "nested":
        return nested_pairs(seed, count)
    if kind == "paired":
        return paired_pairs(count)
    if kind in ("heavy", "distinct"):
        return any_pairs(seed)
    return random_pairs(seed, ADDRESSES.get(kind, address))


def wire_lengths(seed, count, kind):
    if kind == "heavy":
        source = random.Random(seed + 1)
        return (source.randrange(1 << 31, 1 << 32) for _ in range(count))
    if kind == "mixed":
        source = random.Random(seed + 1)
        return (source.randrange(60, 1515) for _ in range(count))
    if kind == "distinct":
        return itertools.repeat(100, count)
    lengths = [100 * (1 + place % 4) for place in range(count)]
    if kind == "forged":
        lengths[count // 2] = FORGED_LENGTH
    return lengths


def frames(seed, count, kind):
    if kind == "listed":
        pairs = itertools.islice(listed(), count)
    else:
        pairs = zip(wire_lengths(seed, count, kind), pairs_of(seed, count, kind))
    for place, (wire, (source, destination)) in enumerate(pairs):
        captured = wire if kind == "whole" else 34
        yield struct.pack("<IIII", place, 0, captured, wire) + ETHERNET + struct.pack(
            ">BBHHHBBHII", 0x45, 0, wire - 14 & 0xFFFF, 0, 0, 64, 17, 0, source, destination
        ) + bytes(captured - 34)


def main():
    seed, count, kind = int(sys.argv[1]), int(sys.argv[2]), sys.argv[3]
    out = sys.stdout.buffer
    out.write(FILE_HEADER)
    for frame in frames(seed, count, kind):
        out.write(frame)


main()
