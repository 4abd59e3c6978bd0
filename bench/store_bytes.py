"""What the bytes of a store open to, by the rules of docs/FORMATS.md: a plain reader beside the program's own."""

import hashlib
import struct
from typing import NamedTuple

FRONT = 64
MOST_POSITION = 1 << 24
LAST_SEQUENCE = 1 << 62
WEIGHINGS, DEALINGS = ["bytes", "packets"], ["round", "source", "free"]
MOST_CAPACITY = {8: 4096, 4: 1024}
# What a version and byte 12 of a store tell of the bits. Version 1 means 8, and has nothing there.
TOLD_BITS = {(1, 0): 8, (2, 8): 8, (2, 4): 4}
# The kinds of stores: version and bits.
KINDS = [(version, bits) for (version, _), bits in TOLD_BITS.items()]


class Settings(NamedTuple):
    shards: int
    capacity: int
    weighing: str
    dealing: str
    bits: int = 8


class Header(NamedTuple):
    version: int
    settings: Settings


class Entry(NamedTuple):
    """A key of a table, its count, and by how much this may be too great."""

    key: int
    count: int
    error: int


class Body(NamedTuple):
    """What a body spells. The tables of a shard are lists of entries, counts rising, in the order of their nodes."""

    sequence: int
    digest: bytes
    positions: list
    totals: list
    tables: list  # of each shard


class Damaged(Exception):
    """The bytes are no body."""


class DamagedSlot(Exception):
    """Under the open gate of this slot is no body."""


def versions_of(bits):
    """The versions that a store by so many bits may have."""
    return [version for version, own in KINDS if own == bits]


def header_of(header):
    """The bytes that spell a header."""
    version, (shards, capacity, weighing, dealing, bits) = header
    choices = WEIGHINGS.index(weighing), DEALINGS.index(dealing), 0 if version == 1 else bits
    front = struct.pack(">4sBBHBBB", b"HHHS", version, shards, capacity, *choices)
    return front + bytes(FRONT - 2 - len(front))


def read_header(spelled):
    """The header that these bytes spell, or none."""
    _, version, shards, capacity, weighing, dealing, byte = struct.unpack_from(">4sBBHBBB", spelled)
    bits = TOLD_BITS.get((version, byte))
    if bits is None or weighing > 1 or dealing > 2 or not 1 <= shards <= 16 or not 2 <= capacity <= MOST_CAPACITY[bits]:
        return None
    header = Header(version, Settings(shards, capacity, WEIGHINGS[weighing], DEALINGS[dealing], bits))
    return header if spelled == header_of(header) else None


def formatted(header):
    """The first bytes of a store without a save: its gates and its header."""
    return bytes(2) + header_of(header)


def lengths_of(bits):
    """How many lengths an address may have."""
    return 32 // bits + 1


def nodes_of(bits):
    return lengths_of(bits) ** 2


def span_of(settings):
    return 48 + settings.shards * (8 + nodes_of(settings.bits) * (12 + 24 * settings.capacity))


def spell_lists(lists):
    """The lists of the shards as a digest has them, after the header."""
    pieces = []
    for records in lists:
        pieces.append(struct.pack(">I", len(records)))
        pieces.extend(struct.pack(">III", *record) for record in records)
    return b"".join(pieces)


def digest_of(header, spelled_lists):
    return hashlib.sha256(header_of(header) + spelled_lists).digest()


def need(holds):
    if not holds:
        raise Damaged


def take(body, at, form):
    need(at + struct.calcsize(form) <= len(body))
    return struct.unpack_from(form, body, at), at + struct.calcsize(form)


def kept_bits(node, bits):
    """The bits of a key that a node keeps."""
    source, destination = (bits * units for units in divmod(node, lengths_of(bits)))
    return (1 << 32) - (1 << 32 - source) << 32 | (1 << 32) - (1 << 32 - destination)


def read_table(body, at, settings, node):
    """The total of a table, its entries, and where it ends."""
    (total, count), at = take(body, at, ">QI")
    need(count <= settings.capacity)
    numbers, at = take(body, at, f">{3 * count}Q")
    keys, counts, errors = numbers[::3], numbers[1::3], numbers[2::3]
    kept = kept_bits(node, settings.bits)
    need(sum(counts) == total < 1 << 56)
    need(all(one <= other for one, other in zip(counts, counts[1:])))
    need(len(set(keys)) == count and not any(key & ~kept for key in keys))
    need(all(error < weight and error * settings.capacity <= total for weight, error in zip(counts, errors)))
    return total, list(map(Entry, keys, counts, errors)), at


def read_body(image, slot, settings):
    """What the body of a slot spells."""
    span = span_of(settings)
    place = FRONT + slot * span
    (length,), _ = take(image, place, ">Q")
    need(8 <= length <= span and place + length <= len(image))
    body = image[place:place + length]
    (_, sequence, digest), at = take(body, 0, ">QQ32s")
    need(1 <= sequence <= LAST_SEQUENCE)
    positions, totals, tables = [], [], []
    for _ in range(settings.shards):
        (position,), at = take(body, at, ">Q")
        need(position <= MOST_POSITION)
        found, own = set(), []
        for node in range(nodes_of(settings.bits)):
            total, entries, at = read_table(body, at, settings, node)
            found.add(total)
            own.append(entries)
        need(len(found) == 1)
        positions.append(position)
        totals += found
        tables.append(own)
    need(at == length)
    return Body(sequence, digest, positions, totals, tables)


def spell_body(body):
    """The bytes that spell a body."""
    pieces = [struct.pack(">Q32s", body.sequence, body.digest)]
    for position, total, tables in zip(body.positions, body.totals, body.tables):
        pieces.append(struct.pack(">Q", position))
        for entries in tables:
            pieces.append(struct.pack(">QI", total, len(entries)))
            pieces.extend(struct.pack(">QQQ", *entry) for entry in entries)
    spelled = b"".join(pieces)
    return struct.pack(">Q", 8 + len(spelled)) + spelled


def open_bodies(image, settings):
    """What the bodies under open gates spell, by their slots."""
    bodies = {}
    for slot in range(2):
        if image[slot] == 1:
            try:
                bodies[slot] = read_body(image, slot, settings)
            except Damaged:
                raise DamagedSlot(slot)
    return bodies


def newest_of(bodies):
    """The newest of the slots with these bodies."""
    return max(bodies, key=lambda number: (bodies[number].sequence, -number))


def newest_sequence(image, settings):
    """The sequence of the newest slot of a store that isn't damaged, or 0 where no gate is open."""
    bodies = open_bodies(image, settings)
    return bodies[newest_of(bodies)].sequence if bodies else 0


def header_in(image):
    """The header of a store, or none."""
    return read_header(image[2:FRONT]) if len(image) >= FRONT else None


def opening(image, settings, lists, spelled_lists):
    """The status with which a run over these lists ends, and the positions at which it opens or the damaged slot."""
    stored = header_in(image)
    if stored is None:
        return 7, None
    if stored.settings != settings:
        return 9, None
    try:
        bodies = open_bodies(image, settings)
    except DamagedSlot as damaged:
        return 8, damaged.args[0]
    if not bodies:
        return 0, [0] * settings.shards
    slot = newest_of(bodies)
    body = bodies[slot]
    if body.digest != digest_of(stored, spelled_lists):
        return 10, None
    for position, total, records in zip(body.positions, body.totals, lists):
        if position > len(records) or total != sum(weight for _, _, weight in records[:position]):
            return 8, slot
    return (8, slot) if body.sequence > LAST_SEQUENCE - 64 else (0, body.positions)


def structure_of(image, settings):
    """The offsets of the bytes of a store that aren't entries of tables: gates, header, and each body but its entries."""
    places = set(range(min(FRONT, len(image))))
    for slot in range(2):
        at = FRONT + slot * span_of(settings)
        if at + 48 > len(image):
            continue
        places.update(range(at, at + 48))
        at += 48
        for _ in range(settings.shards):
            places.update(range(at, at + 8))
            at += 8
            for _ in range(nodes_of(settings.bits)):
                if at + 12 > len(image):
                    break
                places.update(range(at, at + 12))
                at += 12 + 24 * struct.unpack_from(">I", image, at + 8)[0]
    return sorted(place for place in places if place < len(image))
