#!/usr/bin/env python3
"""Tries the two scripts of alarms in docs/OPERATORS.md: alarm_recipes.py PROGRAM

The first captures a link of a network of its own, over which datagrams go meanwhile, for three seconds in place of 55:
it must write the alarms of a limit that is reached and nothing for a higher one, and must tell where there is no such
link. The second reads reports of four minutes, of which the second and the last bring new hosts above the limit: it
must write the alarms of the newest report alone, and none where that has no new host. Ends with 1 where a script does
otherwise. Needs root, and `tcpdump`.
"""

import os
import re
import subprocess
import sys
import tempfile
from pathlib import Path

from capture_writer import IPV4, classic, ethernet, ipv4

OPERATORS = Path(__file__).resolve().parent.parent / "docs/OPERATORS.md"
HOSTS = 0x0A000001, 0x0A000002, 0x0A000003
LIMIT = "limit=100000000"
SEND = """
import socket, time
sender = socket.socket(socket.AF_INET, socket.SOCK_DGRAM)
for number in range(100):
    sender.sendto(bytes(958), ("10.9.0.2", 9))
    time.sleep(0.04)
"""
NETWORK = """
ip link set lo up
ip link add eth0 type veth peer name eth1
ip addr add 10.9.0.1/24 dev eth0; ip link set eth0 up; ip link set eth1 up
ip neigh add 10.9.0.2 lladdr 02:00:00:00:00:02 dev eth0
"$1" -c "$2" & exec sh "$3"
"""


def recipe(heading):
    """The script below a heading of the page."""
    page = OPERATORS.read_text()
    return re.search(r"(?ms)^```\n(.*?)^```", page[page.index(f"**{heading}"):])[1]


def run_minute(folder, limit, setup):
    """What the script of a minute writes, by another limit and in less time."""
    script = Path(folder, "minute")
    script.write_text(recipe("An alarm without a service").replace(LIMIT, f"limit={limit}").replace("timeout 55", "timeout 3"))
    words = ["unshare", "-n", "sh", "-c", NETWORK, "sh", sys.executable, SEND, script] if setup else ["unshare", "-n", "sh", script]
    ended = subprocess.run(words, capture_output=True, text=True, timeout=60)
    return ended.returncode, ended.stdout, ended.stderr


def try_minute(folder):
    status, text, lines = run_minute(folder, 30_000, True)
    if status or lines or not re.fullmatch(r"alarm 1 10\.9\.0\.1/32 10\.9\.0\.2/32 \d+ [1-3]\nalarms 1\nend\n", text):
        yield f"a minute with an alarm: {status} {text} {lines}"
    if run_minute(folder, 100_000_000, True) != (0, "", ""):
        yield "a minute without an alarm writes something"
    status, text, lines = run_minute(folder, 30_000, False)
    if status != 1 or "eth0" not in text:
        yield f"a minute without a link: {status} {text} {lines}"


def write_report(program, folder, name, hosts):
    frame = [(ethernet(IPV4, behind=ipv4(host, 0x14000001)), 1000) for host in hosts]
    ended = subprocess.run([program, "report", "--shards", "2"], input=classic("<", 0xA1B2C3D4, frame), capture_output=True)
    Path(folder, f"{name}.report").write_bytes(ended.stdout)


def run_hour(folder):
    script = Path(folder, "hour")
    script.write_text(recipe("Each alarm once an hour").replace(LIMIT, "limit=1000").replace("/var/spool/hhh/link", str(folder)))
    ended = subprocess.run(["sh", script], capture_output=True, text=True, timeout=60)
    return ended.returncode, ended.stdout, ended.stderr


def try_hour(program, folder):
    if run_hour(folder) != (0, "", ""):
        yield "an hour without a report writes something"
    minutes = ((HOSTS[:1], ["10.0.0.1/32"]), (HOSTS[:2], ["10.0.0.2/32"]), (HOSTS[:1], []), (HOSTS, ["10.0.0.3/32"]))
    for number, (hosts, sources) in enumerate(minutes, 1):
        write_report(program, folder, f"minute{number}", hosts)
        wanted = "".join(f"alarm {number} {source} 20.0.0.1/32 1000 1\n" for source in sources)
        if run_hour(folder) != (0, wanted, ""):
            yield f"an hour with {number} reports: {run_hour(folder)} in place of {wanted}"


def main():
    program = Path(sys.argv[1]).resolve()
    with tempfile.TemporaryDirectory() as folder:
        Path(folder, "hhh").symlink_to(program)
        os.environ["PATH"] = f"{folder}:{os.environ['PATH']}"
        Path(folder, "link").mkdir()
        wrong = [*try_minute(folder), *try_hour(program, Path(folder, "link"))]
    for difference in wrong:
        print(difference)
    print(f"2 scripts, {len(wrong)} wrong")
    sys.exit(bool(wrong))


main()
