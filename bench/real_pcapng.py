#!/usr/bin/env python3
"""Runs over real captures and their pcapng forms: real_pcapng.py PROGRAM FOLDER...

Goes through all captures in the folders, those compressed by gzip too. `weigh 0.0.0.0/0 0.0.0.0/0` over each must end
as a plain reader (`capture_reader.py`) says. Each classic one that `report --shards 1` takes is written as pcapng by
`editcap`, and each tenth is merged with the one before it by `mergecap`, in both formats; the reports must have the same
bytes. Each pcapng one that is taken and that `editcap` can write as a classic one must have the report of that. Where
tools make other frames of a capture than the reader, the difference is told, and is not the program's. Then `dumpcap`
and `tshark` write captures themselves: from a pipe, from a file, and from interfaces of a network of their own, one of
them not Ethernet. Prints each difference, and at the end the counts. Needs Wireshark's `editcap`, `mergecap`, `dumpcap`
and `tshark`, and root for the interfaces.
"""

import gzip
import subprocess
import sys
import tempfile
import zlib
from collections import Counter
from pathlib import Path

import capture_reader
import session_text
from capture_reader import PCAPNG
from plain_runs import SECONDS, Settings, refusal_of, run, weighed

ROOT = Settings(("0.0.0.0/0", "0.0.0.0/0"), 1, 10_000, "bytes", "round", 8)
DATAGRAMS = 200
# Sends datagrams to this machine, over a link, and through a tunnel, whose frames are no Ethernet ones.
SEND = f"""
import socket, time
sender = socket.socket(socket.AF_INET, socket.SOCK_DGRAM)
time.sleep(1)
for number in range({DATAGRAMS}):
    sender.sendto(bytes(number), ("127.0.0.1", 9))
    sender.sendto(bytes(number), ("10.9.0.2", 9))
    sender.sendto(bytes(number), ("10.8.0.2", 9))
time.sleep(1)
"""
NETWORK = """
ip link set lo up
ip link add veth0 type veth peer name veth1
ip addr add 10.9.0.1/24 dev veth0; ip link set veth0 up; ip link set veth1 up
ip neigh add 10.9.0.2 lladdr 02:00:00:00:00:02 dev veth0
ip tuntap add mode tun tun0; ip addr add 10.8.0.1/24 dev tun0; ip link set tun0 up
dumpcap -q -i lo -w "$1/live_loopback.pcapng" & loopback=$!
dumpcap -q -i lo -i veth0 -i any -i tun0 -w "$1/live_four.pcapng" & four=$!
sleep 2
"$2" -c "$3"
kill -INT $loopback $four
wait
"""

program, folders = sys.argv[1], sys.argv[2:]
counts = Counter()


def wrong(what):
    counts["wrong"] += 1
    print(f"wrong: {what}", flush=True)


def report(path):
    return run(program, ["report", "--shards", "1", "--capture", str(path)], b"")


def tool(*words):
    """What is wrong with a run of a tool, or none."""
    ended = subprocess.run(list(map(str, words)), capture_output=True, stdin=subprocess.DEVNULL, timeout=SECONDS)
    lines = ended.stderr.decode(errors="replace").strip().split("\n")
    return None if ended.returncode == 0 else lines[0][:150]


def data_of(path):
    """The bytes of a capture, or none where a file is none."""
    data = path.read_bytes()
    if data[:2] == b"\x1f\x8b":
        try:
            data = gzip.decompress(data)
        except (OSError, EOFError, zlib.error):
            return None
    return data if data[:4] == PCAPNG or data[:4] in capture_reader.ORDERS else None


def test_by_reader(path, name):
    """Tests how `weigh` ends, and counts it. Answers what the plain reader reads."""
    frames, fault = reading = capture_reader.read_file(path)
    wanted = refusal_of(fault) if fault else (0, weighed(ROOT, session_text.count_frames(frames)), "")
    found = run(program, ["weigh", *ROOT.prefix, "--capture", str(path)], b"")
    if found != wanted:
        wrong(f"{name}: weigh: {found} in place of {wanted}")
    is_pcapng = path.read_bytes()[:4] == PCAPNG
    counts["pcapng" if is_pcapng else "classic", fault.name if fault else "taken"] += 1
    return reading


def frames_differ(one, other):
    """The first difference of the frames of two captures, or none."""
    if len(one) != len(other):
        return f"{len(other)} frames in place of {len(one)}"
    for number, (frame, written) in enumerate(zip(one, other), 1):
        if frame != written:
            return f"frame {number} has {len(written[0])} of {written[1]} bytes in place of {len(frame[0])} of {frame[1]}"
    return None


def compare_forms(name, path, other, kind):
    """Tests that a capture and its other form have the same report, unless the tool wrote other frames."""
    frames, written = capture_reader.read_file(path).frames, capture_reader.read_file(other)
    fault = written.fault and f"{written.fault.name} at {written.fault.place}"
    difference = fault or frames_differ(frames, written.frames)
    if difference:
        counts[kind, "written with other frames"] += 1
        print(f"{name}: {kind}: {difference}", flush=True)
    elif report(path) == report(other) and report(path)[0] == 0:
        counts[kind, "with the same report"] += 1
    else:
        wrong(f"{name}: {kind}: {report(other)} in place of {report(path)}")


def convert(name, path, folder, form):
    kind = f"by editcap as {form}"
    fault = tool("editcap", "-F", form, path, folder / "written")
    if fault:
        counts[kind, "refused by the tool"] += 1
        print(f"{name}: {kind}: {fault}", flush=True)
    else:
        compare_forms(name, path, folder / "written", kind)


def merge(name, one, other, folder):
    """Merges two captures, with an interface of each, and in the classic format."""
    kind = "merged"
    fault = tool("mergecap", "-F", "pcapng", "-I", "none", "-w", folder / "merged.pcapng", one, other)
    fault = fault or tool("mergecap", "-F", "pcap", "-w", folder / "merged", one, other)
    if fault:
        counts[kind, "refused by the tool"] += 1
        print(f"{name}: {kind}: {fault}", flush=True)
    else:
        compare_forms(name, folder / "merged", folder / "merged.pcapng", kind)


def try_captures(files, folder):
    """Answers the largest classic capture that is taken."""
    before, path, largest, taken = folder / "before", folder / "capture", folder / "largest", 0
    for file in files:
        data, name = data_of(file), file.name
        if data is None:
            counts["no captures"] += 1
            continue
        path.write_bytes(data)
        if test_by_reader(path, name).fault:
            continue
        is_pcapng = data[:4] == PCAPNG
        convert(name, path, folder, "pcap" if is_pcapng else "pcapng")
        if is_pcapng:
            continue
        taken += 1
        if taken % 10 == 0:
            merge(name, before, path, folder)
        path.rename(before)
        if not largest.exists() or largest.stat().st_size < len(data):
            largest.write_bytes(data)
    return largest


def write_by_tools(classic, folder):
    """The tools write the frames of a classic capture as pcapng, from a pipe and from the file."""
    for name, words in (("dumpcap from a pipe", ["dumpcap", "-q", "-i", "-", "-w"]),
        ("tshark from a pipe", ["tshark", "-q", "-i", "-", "-w"])):  # fmt: skip
        with open(classic, "rb") as source:
            cat = subprocess.Popen(["cat"], stdin=source, stdout=subprocess.PIPE)
            subprocess.run([*words, folder / "piped"], stdin=cat.stdout, capture_output=True, timeout=SECONDS)
            cat.stdout.close()
            cat.wait()
        compare_forms(str(classic), classic, folder / "piped", name)
    if tool("tshark", "-r", classic, "-w", folder / "read") is None:
        compare_forms(str(classic), classic, folder / "read", "tshark from a file")
    else:
        wrong("tshark from a file")


def write_live(folder):
    """Captures of interfaces in a network of their own: of one, and of four, of which two aren't Ethernet."""
    ended = subprocess.run(["unshare", "-n", "sh", "-c", NETWORK, "sh", folder, sys.executable, SEND], capture_output=True,
        text=True, timeout=SECONDS)
    for name in ("live_loopback", "live_four"):
        path = folder / f"{name}.pcapng"
        if not path.exists():
            wrong(f"{name}: not written: {ended.stderr[-300:]}")
            continue
        frames, fault = test_by_reader(path, name)
        if fault or len(frames) < DATAGRAMS:
            wrong(f"{name}: {fault}, {len(frames)} frames")
        counts["live frames", name] = len(frames)
        if name == "live_loopback":
            convert(name, path, folder, "pcap")


def main():
    files = sorted(path for folder in folders for path in Path(folder).rglob("*") if path.is_file() and path.stat().st_size >= 4)
    with tempfile.TemporaryDirectory() as work:
        folder = Path(work)
        write_by_tools(try_captures(files, folder), folder)
        write_live(folder)
    for name, count in sorted((name if isinstance(name, str) else ": ".join(name), count) for name, count in counts.items()):
        print(f"{count} {name}")
    print(f"{len(files)} files, {counts['wrong']} wrong")
    sys.exit(counts["wrong"] > 0)


main()
