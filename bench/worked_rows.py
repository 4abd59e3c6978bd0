#!/usr/bin/env python3
"""Runs the program on small inputs whose outcome was worked out by hand: worked_rows.py PROGRAM

Each row of the table is one run in a new folder: a name, the words, how the run must end, and, where the row has them,
standard input and the files of the folder. Status, standard output and standard error must be those of the row. Each
file must then have the bytes that it had, or those that the row names. No expected byte was made by the program: texts
are written out, and stores are put together from their parts, as docs/FORMATS.md has them. Prints a line for each row
that ends otherwise, and at the end the counts.
"""

import re
import struct
import subprocess
import sys
import tempfile
from dataclasses import dataclass, field
from pathlib import Path

import capture_writer
import session_text
from capture_writer import ARP, CUSTOMER, IPV4, ethernet
from store_bytes import Header, Settings, digest_of, formatted, kept_bits, nodes_of, span_of, spell_lists
from worked_captures import HEADER, INTERFACE, OTHER_BLOCK, PACKET, WORKED, changed, with_bytes

SECONDS = 60


def text(lines):
    """Lines that are joined by `|`, each ended by a line feed."""
    return (lines.replace("|", "\n") + "\n").encode()


def done(lines):
    """A good end that wrote these lines."""
    return 0, text(lines), b""


def refused(status, line, lines=None):
    """An end with this status and line, and with these lines on standard output, or with none."""
    return status, text(lines) if lines else b"", text(f"hhh: {line}")


@dataclass(frozen=True)
class Row:
    """A run and how it must end. A standard output may be a pattern, and a file that is left an `Ending`."""

    name: str
    words: str
    end: tuple
    data: bytes = b""  # standard input
    files: dict = field(default_factory=dict)
    left: dict = field(default_factory=dict)  # the files that have other bytes afterwards
    out: str = ""  # a file to which standard output goes, and of which nothing is read
    slowly: bool = False  # standard input comes in pieces of one byte
    again: str = ""  # the words of a second run, which must end in the same way, byte for byte


class Ending(bytes):
    """The last bytes of a file."""


# Captures.
ONE_PACKET = bytes.fromhex("""
    d4c3b2a1 02000400 00000000 00000000 00000400 01000000
    00000000 00000000 22000000 64000000
    020000000002 020000000001 0800
    4500 0056 0000 0000 40 11 0000 0a010203 14010203""")
NO_PACKET, FRAME = ONE_PACKET[:24], ONE_PACKET[40:]
SPELLINGS = [(order, magic, capture_writer.classic(order, magic, [(FRAME, 100)]))
    for order, magic in [("<", 0xA1B2C3D4), (">", 0xA1B2C3D4), ("<", 0xA1B23C4D), (">", 0xA1B23C4D)]]
MADE_PACKET = bytes.fromhex("""
    d4c3b2a1 02000400 00000000 00000000 00000400 01000000
    00000000 00000000 22000000 64000000
    020000000002 020000000001 0800
    4500 0056 0000 0000 40 11 0000 0a000328 14a61a7f""")


def ipv4_frame(pair, *tags, first=0x45):
    """A frame of an IPv4 packet between two addresses, with these VLAN tags."""
    addresses = (session_text.read_side(f"{address}/32")[0] for address in pair.split())
    return ethernet(*tags, IPV4, behind=capture_writer.ipv4(*addresses, first))


def captured(*frames):
    """A capture of frames, all of which are captured whole."""
    return capture_writer.classic("<", 0xA1B2C3D4, [(frame, len(frame)) for frame in frames])


def between(*pairs):
    """A capture of one packet for each pair of addresses."""
    return captured(*map(ipv4_frame, pairs))


def number(letter):
    """The number of a flow: X goes from 1.0.0.1 to 101.0.0.1, U from 2.0.0.1 to 102.0.0.1, and so on."""
    return "XUYZWVABCDE".index(letter) + 1


def flows(letters):
    """A capture of one packet of a flow for each letter."""
    return between(*(f"{number(letter)}.0.0.1 {100 + number(letter)}.0.0.1" for letter in letters))


ORDINARY = "10.1.2.3 20.1.2.3"
EIGHT_FRAMES = captured(
    ipv4_frame(ORDINARY), ipv4_frame(ORDINARY, CUSTOMER), ipv4_frame(ORDINARY, CUSTOMER, CUSTOMER),
    ethernet(ARP, behind=bytes(28)), ethernet(0x86DD, behind=bytes(40)), ipv4_frame(ORDINARY, *[CUSTOMER] * 3),
    ipv4_frame(ORDINARY)[:33], ipv4_frame(ORDINARY, first=0x44))
LONGEST_FRAME = capture_writer.classic("<", 0xA1B2C3D4, [(FRAME + bytes(262_110), 100)])
TOO_LONG_FRAME = capture_writer.classic("<", 0xA1B2C3D4, [(FRAME + bytes(262_111), 100)])
TWO_SHARDS = flows("XXXYXZXWXVU")
FOUR_NEIGHBOURS = between(*(f"10.0.0.{host} 20.0.0.1" for host in range(1, 5)))
TWO_HALVES = between("10.16.0.1 20.0.0.1", "10.31.0.1 20.0.0.1")
CROSSING_LINES = between(
    "10.1.0.1 31.0.0.1", "10.2.0.1 32.0.0.1", "10.3.0.1 20.1.0.1", "33.0.0.1 20.2.0.1", "34.0.0.1 20.3.0.1",
    "41.0.0.1 51.0.0.1", "42.0.0.1 52.0.0.1", "43.0.0.1 53.0.0.1")

# Sessions.
REPORT = "report|at 1|total 100|threshold 1|line 10.1.2.3/32 20.1.2.3/32 100 100|done"
TAIL = "frames 1|skipped 0 0 0|end"
SESSION = f"opened 0|{REPORT}|{TAIL}"
NO_REPORT = "report|at 0|total 0|threshold 1|done"
NO_TAIL = "frames 0|skipped 0 0 0|end"
NO_SESSION = f"opened 0|{NO_REPORT}|{NO_TAIL}"
SAVED = f"{REPORT}|saved 1|{TAIL}"
TWO_SHARDS_REPORT = ("report|at 6 5|total 11|threshold 6|line 1.0.0.1/32 101.0.0.1/32 5 6"
    "|line 0.0.0.0/0 0.0.0.0/0 11 11|done|frames 11|skipped 0 0 0|end")
TWO_SHARDS_SESSION = f"opened 0 0|{TWO_SHARDS_REPORT}"
BOTH_LINES = SESSION.replace("|done", "|line 0.0.0.0/0 0.0.0.0/0 100 100|done")


def audited(session):
    return {"R": text(session)}


def pattern(*parts):
    """A pattern of texts, of which those in bytes stand for themselves."""
    return re.compile(b"".join(re.escape(part) if isinstance(part, bytes) else part.encode() for part in parts))


def rising_rounds(callers, rounds):
    """Sessions over one packet, each report of which is at 0 or at 1 and never falls within a caller; the last is at 1."""
    orders = (text("|".join([NO_REPORT] * at + [REPORT] * (rounds - at))) for at in range(rounds + 1))
    caller = b"|".join(map(re.escape, orders)).decode()
    return pattern(b"opened 0\n", f"(?:{caller}){{{callers}}}", text(f"{REPORT}|{TAIL}"))


FOUR_ROUNDS = pattern(b"opened 0 0\n", r"(?:report\n(?:(?!report\n|done\n).*\n)*done\n){4}", text(TWO_SHARDS_REPORT))


def demo_text(frames, total, threshold, count=r"\d+"):
    front = f"demo 7 {frames}|records {frames}|total {total}|threshold {threshold}|lines "
    return 0, pattern(text(front)[:-1], count, b"\naudit good\nend\n"), b""


# Stores.
BYTES = Header(2, Settings(1, 512, "bytes", "round"))
FIRST_VERSION = Header(1, BYTES.settings)
HALF_BYTES = Header(2, Settings(1, 512, "bytes", "round", 4))
TWO_ENTRIES = Header(2, Settings(1, 2, "bytes", "round"))
RECORD, OTHER_RECORD = (0x0A010203, 0x14010203, 100), (0x0A010203, 0x14010204, 100)


def body(header, sequence, record):
    """The body of a save over one record: one entry in each table."""
    source, destination, weight = record
    bits = header.settings.bits
    keys = ((source << 32 | destination) & kept_bits(node, bits) for node in range(nodes_of(bits)))
    tables = b"".join(struct.pack(">QIQQQ", weight, 1, key, weight, 0) for key in keys)
    rest = struct.pack(">Q32sQ", sequence, digest_of(header, spell_lists([[record]])), 1) + tables
    return struct.pack(">Q", 8 + len(rest)) + rest


def store(saves, header=BYTES, record=RECORD):
    """A store after none, one or two saves over one record."""
    bodies = [body(header, sequence, record) for sequence in range(1, saves + 1)]
    slots = bodies[:1] if saves < 2 else [bodies[0].ljust(span_of(header.settings), b"\0"), bodies[1]]
    gates = bytes(int(slot < saves) for slot in range(2))
    return gates + formatted(header)[2:] + b"".join(slots)


def table(total, *entries):
    """A table whose keys are flows, as the end of a store."""
    spelled = b"".join(struct.pack(">BHBBHBQQ", number(letter), 0, 1, 100 + number(letter), 0, 1, count, error)
        for letter, count, error in entries)
    return Ending(struct.pack(">QI", total, len(entries)) + spelled)


def counted(letters, capacity, *entries):
    """A run over a new store of small tables: how it ends, its input, its store, and the last table that is left there."""
    total = len(letters)
    lines = (f"opened 0|report|at {total}|total {total}|threshold {total}|line 0.0.0.0/0 0.0.0.0/0 {total} {total}|done"
        f"|saved {total}|frames {total}|skipped 0 0 0|end")
    empty = formatted(Header(2, Settings(1, capacity, "packets", "round")))
    return done(lines), flows(letters), {"S": empty}, {"S": table(total, *entries)}


STORE = store(1)
TWO_SHARDS_WORDS = "report --shards 2 --capacity 4 --phi 500000 --weigh packets"
THREE_CALLERS = "report --shards 1 --workers 2 --callers 2 --rounds 3"
ALL = "weigh 0.0.0.0/0 0.0.0.0/0"
PAIR = "weigh 10.0.0.0/8 20.0.0.0/8"
ALONE = "report --shards 1"
STORED = "report --shards 1 --store S"
AUDIT = "audit --shards 1 --report R"
CUT_AT_24, CUT_AT_48 = refused(3, "bad capture: cut frame at 24"), refused(3, "bad capture: cut block at 48")
HUNDRED = done("low 100|high 100|total 100")


def short(length):
    return refused(3, f"bad capture: short header at {length}")


def at_the_line(line):
    return refused(12, f"bad report: line {line}")


def unsound(verdict):
    return refused(11, "audit: no", f"report 1: {verdict}")


def capture_rows():
    yield Row("an empty capture", ALONE, short(0))
    yield Row("a capture without a packet", ALONE, done(NO_SESSION), NO_PACKET)
    yield Row("a capture of one packet", ALONE, done(SESSION), ONE_PACKET)
    for order, magic, data in SPELLINGS:
        yield Row(f"the packet in order {order} with magic {magic:x}", ALONE, done(SESSION), data)
        yield Row(f"weighed in order {order} with magic {magic:x}", ALL, HUNDRED, data)
    yield Row("cut inside a frame header", ALONE, CUT_AT_24, ONE_PACKET[:30])
    yield Row("cut inside a frame", ALONE, CUT_AT_24, ONE_PACKET[:60])
    yield Row("cut inside a frame header, weighed", ALL, CUT_AT_24, ONE_PACKET[:30])
    yield Row("cut inside a frame, weighed", ALL, CUT_AT_24, ONE_PACKET[:60])
    yield Row("the longest frame", ALONE, done(SESSION.replace("100", "262144").replace("threshold 1", "threshold 2622")),
        LONGEST_FRAME)
    yield Row("the longest frame, weighed", ALL, done("low 262144|high 262144|total 262144"), LONGEST_FRAME)
    yield Row("a longer frame", ALONE, refused(3, "bad capture: long frame at 24"), TOO_LONG_FRAME)
    yield Row("a longer frame, weighed", ALL, refused(3, "bad capture: long frame at 24"), TOO_LONG_FRAME)
    yield Row("the greatest length", ALL, refused(3, "bad capture: long frame at 24"), changed(ONE_PACKET, 32, "ffffffff"))
    yield Row("frames of eight kinds", f"{ALONE} --weigh packets",
        done("opened 0|report|at 3|total 3|threshold 1|line 10.1.2.3/32 20.1.2.3/32 3 3|done|frames 8|skipped 3 1 1|end"),
        EIGHT_FRAMES)
    yield Row("bytes of a compressed file", ALL, refused(3, "bad capture: not a capture at 0"), bytes.fromhex("1f8b0800"))
    yield Row("another version", ALL, refused(3, "bad capture: version at 4"), ONE_PACKET[:6] + b"\3\0")
    yield Row("another link", ALL, refused(3, "bad capture: link at 20"), changed(ONE_PACKET, 20, "65000000"))
    yield Row("a high bit of the link", ALL, refused(3, "bad capture: link at 20"), changed(ONE_PACKET, 20, "01000010"))
    for length in range(24):
        yield Row(f"the first {length} bytes", ALL, short(length), ONE_PACKET[:length])
    yield Row("the first 24 bytes", ALL, done("low 0|high 0|total 0"), ONE_PACKET[:24])
    for length in range(25, 74):
        yield Row(f"the first {length} bytes", ALL, CUT_AT_24, ONE_PACKET[:length])
    yield Row("all 74 bytes", ALL, HUNDRED, ONE_PACKET)
    yield Row("byte by byte", ALONE, done(SESSION), ONE_PACKET, slowly=True)


def front_rows():
    yield Row("the front of a capture that is cut inside its first frame", f"{ALONE} --front yes",
        done(NO_SESSION.replace("|end", "|cut 24|end")), ONE_PACKET[:60])
    yield Row("ten zeros behind the packet", ALONE, refused(3, "bad capture: cut frame at 74"), ONE_PACKET + bytes(10))
    yield Row("the front before ten zeros", f"{ALONE} --front yes", done(SESSION.replace("|end", "|cut 74|end")),
        ONE_PACKET + bytes(10))
    yield Row("the front of a cut file header", f"{ALONE} --front yes", short(20), ONE_PACKET[:20])


def pcapng_rows():
    yield Row("a pcapng capture of one packet", ALONE, done(SESSION), WORKED)
    yield Row("a pcapng capture byte by byte", ALONE, done(SESSION), WORKED, slowly=True)
    yield Row("cut inside a block", ALONE, CUT_AT_48, WORKED[:100])
    yield Row("the front of a capture that is cut inside its first packet", f"{ALONE} --front yes",
        done(NO_SESSION.replace("|end", "|cut 48|end")), WORKED[:100])
    yield Row("a packet of no interface", ALONE, refused(3, "bad capture: interface at 48"), with_bytes(56, "01000000"))
    yield Row("another last length", ALONE, refused(3, "bad capture: block tail at 48"), with_bytes(112, "48000000"))
    yield Row("more captured bytes", ALONE, refused(3, "bad capture: block at 48"), with_bytes(68, "25000000"))
    yield Row("an interface of another link", ALONE, done(NO_SESSION), with_bytes(36, "6500"))
    yield Row("a block of another type", ALONE, done(SESSION), HEADER + INTERFACE + OTHER_BLOCK + PACKET)
    yield Row("no byte order", ALONE, refused(3, "bad capture: byte order at 0"), with_bytes(8, "00000000"))
    yield Row("another major version", ALONE, refused(3, "bad capture: version at 0"), with_bytes(12, "0200"))
    yield Row("the first four bytes of a section", ALONE, refused(3, "bad capture: cut block at 0"), WORKED[:4])
    yield Row("two sections", ALONE, done("opened 0|report|at 2|total 200|threshold 2|line 10.1.2.3/32 20.1.2.3/32 200 200"
        "|done|frames 2|skipped 0 0 0|end"), WORKED + WORKED)


def word_rows():
    for name, fault, words in [
        ("a length of 15 bits", "prefix", "weigh 10.1.0.0/15 0.0.0.0/0"),
        ("a bit past the length", "prefix", "weigh 10.1.2.0/16 0.0.0.0/0"),
        ("an address of three numbers", "prefix", "weigh 10.1.2 0.0.0.0/0"),
        ("no prefix", "refused", "weigh"),
        ("no shard", "limits", "report --shards 0"),
        ("a leading zero", "number", "report --shards 01"),
        ("an unknown dealing", "choice", "report --deal hash"),
        ("an option twice", "refused", "report --shards 1 --shards 1"),
        ("share times capacity one too small", "bound", "report --shards 1 --capacity 17 --phi 117647"),
        ("no frame to make", "limits", "make 7 0"),
        ("too many frames to make", "limits", "make 7 1000001"),
        ("five bits", "limits", "report --bits 5"),
        ("too great tables by four bits", "limits", "report --bits 4 --capacity 1025"),
        ("a limit of 0", "limits", "watch --report R --limit 0"),
        ("a watch of no session", "refused", "watch --limit 5"),
    ]:
        yield Row(name, words, refused(2, f"bad words: {fault}"), ONE_PACKET, audited(SESSION))
    yield Row("the least product of share and capacity", f"{ALONE} --capacity 16 --phi 125000",
        done(SESSION.replace("threshold 1", "threshold 13")), ONE_PACKET)


def packets(total, threshold, *lines):
    """A good end that wrote the session of one report over packets in one shard, each of which weighs 1."""
    report = "|".join(f"line {line}" for line in lines)
    return done(f"opened 0|report|at {total}|total {total}|threshold {threshold}|{report}|done|frames {total}|skipped 0 0 0|end")


def report_rows():
    yield Row("a pair of networks", PAIR, HUNDRED, ONE_PACKET)
    yield Row("networks without traffic", "weigh 11.0.0.0/8 20.0.0.0/8", done("low 0|high 0|total 100"), ONE_PACKET)
    yield Row("networks in a capture without a packet", PAIR, done("low 0|high 0|total 0"), NO_PACKET)
    yield Row("a flow that two shards share", TWO_SHARDS_WORDS, done(TWO_SHARDS_SESSION), TWO_SHARDS)
    yield Row("the same beside workers and a caller", f"{TWO_SHARDS_WORDS} --workers 2 --block 1 --callers 1 --rounds 2",
        (0, FOUR_ROUNDS, b""), TWO_SHARDS)
    yield Row("three rounds of three callers", THREE_CALLERS, (0, rising_rounds(3, 3), b""), ONE_PACKET)
    yield Row("the packet in the first of two shards", "report --shards 2 --deal free",
        done(SESSION.replace("opened 0", "opened 0 0").replace("at 1", "at 1 0")), ONE_PACKET)
    half, whole = f"{ALONE} --weigh packets --phi 500000", f"{ALONE} --weigh packets --phi 1000000"
    yield Row("four neighbours", half, packets(4, 2, "10.0.0.0/24 20.0.0.1/32 4 4"), FOUR_NEIGHBOURS)
    yield Row("four neighbours by four bits", f"{half} --bits 4", packets(4, 2, "10.0.0.0/28 20.0.0.1/32 4 4"), FOUR_NEIGHBOURS)
    yield Row("two halves of a network", whole, packets(2, 2, "10.0.0.0/8 20.0.0.1/32 2 2"), TWO_HALVES)
    yield Row("two halves by four bits", f"{whole} --bits 4", packets(2, 2, "10.16.0.0/12 20.0.0.1/32 2 2"), TWO_HALVES)
    yield Row("two lines that cross", f"{ALONE} --weigh packets --phi 375000", packets(8, 3, "0.0.0.0/0 20.0.0.0/8 3 3",
        "10.0.0.0/8 0.0.0.0/0 3 3", "0.0.0.0/0 0.0.0.0/0 8 8"), CROSSING_LINES)
    yield Row("a hundredth, rounded up", f"{ALONE} --weigh packets", packets(101, 2, "1.0.0.1/32 101.0.0.1/32 101 101"),
        flows("X" * 101))
    yield Row("a threshold of all", whole, packets(7, 7, "1.0.0.1/32 101.0.0.1/32 7 7"), flows("X" * 7))


def table_rows():
    """What is left of tables of few entries, seen in the store. A flow of weight 5 has five packets."""
    small = f"{STORED} --weigh packets --phi 1000000 --capacity"
    for name, capacity, letters, *entries in [
        ("a flow takes the place and the error of another", 2, "AAAAABBBCCCC", ("A", 5, 0), ("C", 7, 3)),
        ("the older of two equal flows is replaced", 2, "ABC", ("B", 1, 0), ("C", 2, 1)),
        ("a flow that draws level stands last", 2, "AAAAABBBABBB", ("A", 6, 0), ("B", 6, 0)),
        ("a third flow of equal count", 3, "ABCBD", ("C", 1, 0), ("B", 2, 0), ("D", 2, 1)),
        ("a fourth flow of equal count", 3, "ABCBDE", ("B", 2, 0), ("D", 2, 1), ("E", 2, 1)),
    ]:
        end, data, files, left = counted(letters, capacity, *entries)
        yield Row(name, f"{small} {capacity}", end, data, files, left)


def store_rows():
    yield Row("a store is made", "format --store S --shards 1", done("formatted"), left={"S": store(0)})
    yield Row("a store of small tables is made", "format --store S --shards 1 --capacity 2", done("formatted"),
        left={"S": bytes.fromhex("0000 48484853 02 01 0002 00 00 08") + bytes(51)})
    yield Row("a store by four bits is made", "format --store S --shards 1 --bits 4", done("formatted"),
        left={"S": store(0, HALF_BYTES)})
    for name, words, header in [
        ("version 2", "", BYTES), ("version 1", "", FIRST_VERSION), ("four bits", " --bits 4", HALF_BYTES),
        ("small tables", " --capacity 2 --phi 1000000", TWO_ENTRIES),
    ]:
        saved = SAVED.replace("threshold 1|", "threshold 100|") if header == TWO_ENTRIES else SAVED
        first, second = ({"S": store(saves, header)} for saves in (1, 2))
        yield Row(f"a first save of {name}", STORED + words, done(f"opened 0|{saved}"), ONE_PACKET,
            {"S": store(0, header)}, first)
        yield Row(f"a second save of {name}", STORED + words, done(f"opened 1|{saved}"), ONE_PACKET, first, second)
    for name, words, data, stored, status, line in [
        ("63 bytes", "", ONE_PACKET, bytes(63), 7, "store not formatted"),
        ("64 zeros", "", ONE_PACKET, bytes(64), 7, "store not formatted"),
        ("other tables", "", ONE_PACKET, store(0, TWO_ENTRIES), 9, "store has other settings"),
        ("other bits", " --bits 8", ONE_PACKET, store(0, HALF_BYTES), 9, "store has other settings"),
        ("an unknown version", " --bits 4", ONE_PACKET, changed(store(0, HALF_BYTES), 6, "03"), 7, "store not formatted"),
        ("unknown bits", " --bits 4", ONE_PACKET, changed(store(0, HALF_BYTES), 12, "05"), 7, "store not formatted"),
        ("a gate over no body", "", ONE_PACKET, changed(store(0), 0, "01"), 8, "store damaged: slot 0"),
        ("another capture", "", flows("X"), STORE, 10, "store is of another capture"),
        ("the greatest length", "", ONE_PACKET, changed(STORE, 64, "ff" * 8), 8, "store damaged: slot 0"),
        ("too many entries", "", ONE_PACKET, changed(STORE, 128, "00000201"), 8, "store damaged: slot 0"),
        ("an entry that counts nothing", "", ONE_PACKET, changed(STORE, 140, "00" * 8), 8, "store damaged: slot 0"),
        ("another total", "", ONE_PACKET, changed(STORE, 120, "0000000000000065"), 8, "store damaged: slot 0"),
        ("the last sequence", "", ONE_PACKET, changed(STORE, 72, "4000000000000000"), 8, "store damaged: slot 0"),
        ("a position past the end", "", ONE_PACKET, changed(STORE, 112, "0000000000000002"), 8, "store damaged: slot 0"),
    ]:
        yield Row(f"a store of {name}", STORED + words, refused(status, line), data, {"S": stored})
    yield Row("a gate of 2 is closed", STORED, done(f"opened 0|{SAVED}"), ONE_PACKET, {"S": changed(STORE, 0, "02")},
        {"S": STORE})


def audit_rows():
    yield Row("a sound session", AUDIT, done("good 1"), ONE_PACKET, audited(SESSION))
    for verdict, data, session in [
        ("bad interval in line 1", ONE_PACKET, SESSION.replace("100 100", "99 99")),
        ("left out 10.1.2.3/32 20.1.2.3/32 100", ONE_PACKET, SESSION.replace("|line 10.1.2.3/32 20.1.2.3/32 100 100", "")),
        ("not justified in line 2", ONE_PACKET, BOTH_LINES),
        ("bad positions", NO_PACKET, SESSION),
        ("bad total", ONE_PACKET, SESSION.replace("total 100", "total 99")),
        ("bad threshold", ONE_PACKET, SESSION.replace("threshold 1", "threshold 2")),
    ]:
        yield Row(f"an audit finds a {verdict}", AUDIT, unsound(verdict), data, audited(session))
    lines = SESSION.split("|")
    for name, end, session in [
        ("a position too many", at_the_line(3), SESSION.replace("opened 0", "opened 0 0")),
        ("a threshold of 0", at_the_line(5), SESSION.replace("threshold 1", "threshold 0")),
        ("a low above its high", at_the_line(6), SESSION.replace("100 100", "101 100")),
        ("a line twice", at_the_line(7), "|".join(lines[:6] + lines[5:])),
        ("too great a position", at_the_line(3), SESSION.replace("at 1", "at 16777217")),
    ]:
        yield Row(f"the text of a session with {name}", AUDIT, end, ONE_PACKET, audited(session))
    for name, end, session in [
        ("a total of two digits", at_the_line(4), text(NO_SESSION.replace("total 0", "total 00"))),
        ("no last lines", refused(12, "bad report: no end at line 7"), text(NO_SESSION[:NO_SESSION.index("|frames")])),
        ("a letter behind it", at_the_line(10), text(NO_SESSION) + b"x"),
    ]:
        yield Row(f"the text of a session with {name}", AUDIT, end, NO_PACKET, {"R": session})


def watch_rows():
    alarm = "alarm 1 10.1.2.3/32 20.1.2.3/32 100 1|alarms 1|end"
    yield Row("a low at its limit", "watch --report R --limit 100", done(alarm), files=audited(SESSION))
    yield Row("a low below its limit", "watch --report R --limit 101", done("alarms 0|end"), files=audited(SESSION))
    yield Row("a report twice", "watch --report R --limit 100", done(alarm), files=audited(f"opened 0|{REPORT}|{REPORT}|{TAIL}"))
    yield Row("alarms of a network", "watch --report R --limit 5 --src 1.0.0.0/8",
        done("alarm 1 1.0.0.1/32 101.0.0.1/32 5 1|alarms 1|end"), files=audited(TWO_SHARDS_SESSION))


def made_rows():
    """The 28 lines are those of bench/space_saving.c over the same frames."""
    yield Row("a made packet", "make 7 1", (0, MADE_PACKET, b""))
    yield Row("a summary, by one worker too", "demo 7 200000 --shards 8", demo_text(200_000, 50_000_000, 500_000, "28"),
        again="demo 7 200000 --shards 8 --workers 1")
    yield Row("a summary of one packet", "demo 7 1", demo_text(1, 100, 1, "1"))
    yield Row("a summary by four bits", "demo 7 20000 --bits 4", demo_text(20_000, 5_000_000, 50_000))


def fault_rows():
    read, write, disk = refused(4, "read fault"), refused(5, "write fault"), refused(6, "disk fault")
    yield Row("a capture that can't be read", f"{ALONE} --capture none", read)
    yield Row("a capture that can't be weighed", f"{PAIR} --capture none", read)
    yield Row("an output that is full", ALONE, write, ONE_PACKET, out="/dev/full")
    yield Row("an output that is full for a weight", PAIR, write, ONE_PACKET, out="/dev/full")
    yield Row("an output that is full for rounds", THREE_CALLERS, write, ONE_PACKET, out="/dev/full")
    yield Row("a store that can't be read", f"{ALONE} --store none/S", disk, ONE_PACKET)


def site_rows():
    stores = {"S1": STORE, "S2": store(1, record=OTHER_RECORD), "S3": bytes(63)}
    both = "sites 2|site 1 1|site 2 1|total 200|threshold 200|line 10.1.2.3/32 20.1.2.0/24 200 200|end"
    yield Row("two sites", "sites --shards 1 --phi 1000000 S1 S2", done(both), files=stores)
    yield Row("one site twice", "sites --shards 1 S1 S1", refused(14, "sites 1 and 2 are of one capture"), files=stores)
    yield Row("a site of other shards", "sites --shards 2 S1", refused(9, "site 1: other settings"), files=stores)
    yield Row("a second site of no store", "sites --shards 1 S1 S3", refused(7, "site 2: not formatted"), files=stores)
    yield Row("nine sites", "sites --shards 1 S1 S2 S3 S4 S5 S6 S7 S8 S9", refused(2, "bad words"))
    yield Row("no site", "sites --shards 1", refused(2, "bad words"))


TABLE = [
    *capture_rows(), *front_rows(), *pcapng_rows(), *word_rows(), *report_rows(), *table_rows(), *store_rows(), *audit_rows(),
    *watch_rows(), *made_rows(), *fault_rows(), *site_rows(),
]


def run(program, words, row, folder):
    """How a run with these words ends that has the input and the output of a row."""
    command, files = [program, *words.split()], folder / "files"
    with open(row.out or folder / "out", "wb") as out, open(folder / "err", "wb") as err:
        started = subprocess.Popen(command, stdin=subprocess.PIPE, stdout=out, stderr=err, cwd=files)
        feed(started.stdin, row)
        status = started.wait(SECONDS)
    return status, b"" if row.out else (folder / "out").read_bytes(), (folder / "err").read_bytes()


def feed(stream, row):
    """Gives a run its standard input, of which it may leave some unread."""
    step = 1 if row.slowly else max(1, len(row.data))
    try:
        for at in range(0, len(row.data), step):
            stream.write(row.data[at:at + step])
            stream.flush()
        stream.close()
    except BrokenPipeError:
        pass


def fits(wanted, found):
    """Whether bytes are those that are wanted."""
    if isinstance(wanted, re.Pattern):
        return wanted.fullmatch(found) is not None
    return found.endswith(wanted) if isinstance(wanted, Ending) else found == wanted


def differences(program, row, folder):
    """What of a run isn't as its row says."""
    files = folder / "files"
    files.mkdir()
    for name, data in row.files.items():
        (files / name).write_bytes(data)
    found = run(program, row.words, row, folder)
    for name, wanted, had in zip(("status", "standard output", "standard error"), row.end, found):
        if not (wanted == had if name == "status" else fits(wanted, had)):
            yield f"{name} {had!r} in place of {wanted!r}"
    if row.again and (other := run(program, row.again, row, folder)) != found:
        yield f"{other} by {row.again} in place of {found}"
    wanted, left = row.files | row.left, {path.name: path.read_bytes() for path in files.iterdir()}
    for name in sorted(wanted.keys() | left.keys()):
        if name not in wanted or name not in left or not fits(wanted[name], left[name]):
            yield f"other bytes in {name}, {len(left.get(name, b''))} of them"


def main():
    program, wrong = Path(sys.argv[1]).resolve(), 0
    for row in TABLE:
        with tempfile.TemporaryDirectory() as folder:
            if found := list(differences(program, row, Path(folder))):
                wrong += 1
                print(f"{row.name}: {row.words}: {'; '.join(found)}", flush=True)
    print(f"{len(TABLE)} rows, {wrong} otherwise")
    sys.exit(wrong > 0)


main()
