#!/usr/bin/env python3
"""Tests the tools beside it on small inputs of its own: test_tools.py. Outside the gate, since it proves nothing."""

import json
import os
import re
import signal
import struct
import subprocess
import sys
import unittest
from pathlib import Path

here = Path(__file__).resolve().parent
ADDRESSES = bytes(12)
LOGICAL = b"\xaa\xaa\x03\0\0\0\x08\x00"
SESSION = """opened 0 0
report
at 1 1
total 300
threshold 3
line 10.1.2.3/32 20.1.2.3/32 200 200
line 10.0.0.0/8 20.1.0.0/16 290 300
done
frames 4
skipped 1 0 1
end
"""

PROMETHEUS = """# TYPE hhh_total gauge
hhh_total 300
# TYPE hhh_threshold gauge
hhh_threshold 3
# TYPE hhh_frames gauge
hhh_frames 4
# TYPE hhh_skipped gauge
hhh_skipped{reason="not_ipv4"} 1
hhh_skipped{reason="short"} 0
hhh_skipped{reason="bad_header"} 1
# TYPE hhh_low gauge
hhh_low{source="10.1.2.3/32",destination="20.1.2.3/32"} 200
hhh_low{source="10.0.0.0/8",destination="20.1.0.0/16"} 290
# TYPE hhh_high gauge
hhh_high{source="10.1.2.3/32",destination="20.1.2.3/32"} 200
hhh_high{source="10.0.0.0/8",destination="20.1.0.0/16"} 300
"""


def packet(source="10.1.2.3", destination="20.1.2.3"):
    addresses = bytes(int(part) for side in (source, destination) for part in side.split("."))
    return b"\x45" + bytes(11) + addresses


def capture(link, frames, order="<", magic=0xA1B2C3D4):
    """A capture of frames, each its bytes and its length on the wire."""
    text = struct.pack(order + "IHHiIII", magic, 2, 4, 0, 0, 96, link)
    return text + b"".join(struct.pack(order + "IIII", 7, 8, len(frame), wire) + frame for frame, wire in frames)


def frames(text, order="<"):
    """The frames of a capture, once its header is one of Ethernet and its time stamps are those that were given."""
    assert struct.unpack_from(order + "I", text, 20) == (1,)
    found, at = [], 24
    while at < len(text):
        seconds, part, captured, wire = struct.unpack_from(order + "IIII", text, at)
        assert (seconds, part) in ((7, 8), (0, 0))
        found.append((text[at + 16 : at + 16 + captured], wire))
        at += 16 + captured
    return found


def run(tool, *words, text=b"", status=0, said=b""):
    """What a tool writes, once it has said on standard error what was expected, and no traceback."""
    ran = subprocess.run([here / tool, *words], input=text, capture_output=True, cwd="/", timeout=60)
    assert ran.returncode == status and said in ran.stderr and b"Traceback" not in ran.stderr, (tool, ran)
    assert status or said or not ran.stderr, (tool, ran)
    return ran.stdout


class Ethernet(unittest.TestCase):
    def becomes(self, link, header, kind=b"\x08\x00", inner=packet()):
        found = frames(run("hhh-ethernet", text=capture(link, [(header + inner, len(header) + 500)])))
        self.assertEqual(found, [(ADDRESSES + kind + inner, 514)])

    def test_link_types(self):
        for link, header in [
            (113, bytes(14) + b"\x08\x00"), (276, b"\x08\x00" + bytes(18)), (101, b""), (12, b""), (14, b""), (228, b""),
            (9, b"\xff\x03\x00\x21"), (9, b"\x00\x21"), (50, b"\xff\x03\x21"), (50, b"\x0f\x00\x08\x00"),
            (104, b"\x0f\x00\x08\x00"), (104, b"\x8f\x00\x08\x00"), (9, b"\x8f\x00\x08\x00"), (0, b"\x02\0\0\0"), (108, b"\0\0\0\x02"),
            (105, b"\x08\x02" + bytes(22) + LOGICAL), (105, b"\x88\x01" + bytes(24) + LOGICAL),
            (105, b"\x08\x03" + bytes(28) + LOGICAL), (105, b"\x88\x81" + bytes(28) + LOGICAL),
            (127, b"\0\0\x0a\0" + bytes(6) + b"\x08\x02" + bytes(22) + LOGICAL),
        ]:  # fmt: skip
            with self.subTest(link=link, header=header):
                self.becomes(link, header)

    def test_other_packets(self):
        self.becomes(113, bytes(14) + b"\x86\xdd", b"\x86\xdd", b"\x60" + bytes(39))
        self.becomes(113, bytes(14) + b"\x81\x00", b"\x81\x00", b"\x00\x07\x08\x00" + packet())
        self.becomes(101, b"", b"\x86\xdd", b"\x60" + bytes(39))
        self.becomes(229, b"", b"\x86\xdd", b"\x60" + bytes(39))
        self.becomes(9, b"\xff\x03\xc0\x21", b"\xff\xff", bytes(20))
        text = capture(105, [(b"\x08\x42" + bytes(40), 90), (b"\x80\x00" + bytes(40), 90), (b"", 90)])
        self.assertEqual([frame[12:14] for frame, _ in frames(run("hhh-ethernet", text=text))], [b"\xff\xff"] * 3)

    def test_802_11_frames_that_are_encrypted_or_have_no_data(self):
        for control in (b"\x08\x42", b"\x88\x41", b"\x48\x01", b"\xc8\x01"):
            given = control + bytes(24 if control[0] & 0x80 else 22) + LOGICAL + packet()
            [(frame, wire)] = frames(run("hhh-ethernet", text=capture(105, [(given, 500)])))
            self.assertEqual((frame[12:14], wire), (b"\xff\xff", 514))

    def test_ethernet_stays_in_each_spelling(self):
        for order in "<>":
            for magic in (0xA1B2C3D4, 0xA1B23C4D):
                given = [(ADDRESSES + b"\x08\x00" + packet(), 1500), (b"", 60)]
                text = run("hhh-ethernet", text=capture(1, given, order, magic))
                self.assertEqual((text[:4], frames(text, order)), (struct.pack(order + "I", magic), given))

    def test_faults(self):
        text = capture(101, [(packet(), 20)] * 2)
        self.assertEqual(len(frames(run("hhh-ethernet", text=text[:-1], status=1))), 1)
        run("hhh-ethernet", text=b"\x0a\x0d\x0d\x0a" + bytes(40), status=1, said=b"not a capture")
        for given in ([(bytes(40), 40)], []):
            self.assertEqual(run("hhh-ethernet", text=capture(195, given), status=1, said=b"link type 195"), b"")
        run("hhh-ethernet", "--help", status=1, said=b"hhh-ethernet <CAPTURE")

    def test_length_on_the_wire_below_the_header(self):
        self.assertEqual(frames(run("hhh-ethernet", text=capture(113, [(bytes(14) + b"\x08\x00", 3)])))[0][1], 14)

    def test_greatest_length_on_the_wire(self):
        written = frames(run("hhh-ethernet", text=capture(101, [(packet(), 2**32 - 1), (packet(), 20)])))
        self.assertEqual([wire for _, wire in written], [2**32 - 1, 34])

    def test_longest_frame_of_another_link_type(self):
        written = frames(run("hhh-ethernet", text=capture(101, [(packet() + bytes(262_124), 262_144)])))
        self.assertEqual([(len(frame), wire) for frame, wire in written], [(262_144, 262_158)])

    def test_input_that_does_not_block(self):
        reads, writes = os.pipe()
        os.set_blocking(reads, False)
        tool = subprocess.Popen([here / "hhh-ethernet"], stdin=reads, stdout=subprocess.PIPE, stderr=subprocess.PIPE)
        os.close(reads)
        written, said = tool.communicate()
        os.close(writes)
        self.assertEqual((written, tool.returncode, b"doesn't block" in said), (b"", 1, True))

    def test_end_of_the_pipe(self):
        text = capture(1, [(bytes(200), 200)] * 10_000)
        tool = subprocess.Popen([here / "hhh-ethernet"], stdin=subprocess.PIPE, stdout=subprocess.PIPE, stderr=subprocess.PIPE)
        tool.stdout.close()
        self.assertEqual((tool.communicate(text)[1], tool.returncode), (b"", -signal.SIGPIPE))

    def test_cut_captures(self):
        text = capture(1, [(ADDRESSES + b"\x08\x00" + packet(), 60)] * 2)
        begin = 24 + (len(text) - 24) // 2
        for length in (0, 3, 23, 24, 25, 39, 40, 41, begin - 1, begin, begin + 1, begin + 15, begin + 16, len(text) - 1):
            said = b"not a capture" if length < 24 else b"cut off" if length not in (24, begin) else b""
            written = run("hhh-ethernet", text=text[:length], status=1 if said else 0, said=said)
            whole = 0 if length < 24 else 24 if length < begin else begin
            self.assertEqual(written[24:], text[24:whole])

    def test_upper_bits_of_the_link_type(self):
        given = [(ADDRESSES + b"\x08\x00" + packet(), 60)]
        for order in "<>":
            text = run("hhh-ethernet", text=capture(0x24000001, given, order))
            self.assertEqual(frames(text, order), given)
        self.assertEqual(frames(run("hhh-ethernet", text=capture(0xF0000065, [(packet(), 20)])))[0][1], 34)

    def test_longest_frame(self):
        for length, status in ((262_144, 0), (262_145, 1)):
            given = [(bytes(length), length)]
            written = frames(run("hhh-ethernet", text=capture(1, given), status=status, said=b"too long" * status))
            self.assertEqual(written, [] if status else given)


class Mask(unittest.TestCase):
    def test_frame_that_ends_with_the_addresses(self):
        [(frame, _)] = frames(run("hhh-mask", "0", "0", text=capture(1, [(ADDRESSES + b"\x08\x00" + packet(), 60)])))
        self.assertEqual(frame[14:], packet("0.0.0.0", "0.0.0.0"))

    def masked(self, source, destination, header=b"\x08\x00", inner=packet()):
        text = capture(1, [(ADDRESSES + header + inner + b"rest", 1500)])
        [(frame, wire)] = frames(run("hhh-mask", source, destination, text=text))
        self.assertEqual((frame[: 12 + len(header)], frame[-4:], wire), (ADDRESSES + header, b"rest", 1500))
        return frame[12 + len(header) : -4]

    def test_sides(self):
        self.assertEqual(self.masked("32", "0"), packet(destination="0.0.0.0"))
        self.assertEqual(self.masked("0", "32"), packet(source="0.0.0.0"))
        self.assertEqual(self.masked("16", "8"), packet("10.1.0.0", "20.0.0.0"))
        self.assertEqual(self.masked("32", "32"), packet())

    def test_tags(self):
        tag = b"\x81\x00\x00\x07"
        for tags in (tag, b"\x88\xa8\x00\x07" + tag):
            self.assertEqual(self.masked("0", "0", tags + b"\x08\x00"), packet("0.0.0.0", "0.0.0.0"))
        self.assertEqual(self.masked("0", "0", tag * 3 + b"\x08\x00"), packet())

    def test_other_frames_stay(self):
        self.assertEqual(self.masked("0", "0", b"\x86\xdd", bytes(range(60))), bytes(range(60)))
        self.assertEqual(self.masked("0", "0", inner=b"\x45" + bytes(range(10))), b"\x45" + bytes(range(10)))

    def test_faults(self):
        for words in ([], ["32"], ["33", "0"], ["-1", "0"], ["a", "0"]):
            run("hhh-mask", *words, status=1, said=b"hhh-mask SOURCE DESTINATION")

    def test_other_link_types(self):
        for given in ([(bytes(16) + packet(), 500)], []):
            written = run("hhh-mask", "0", "32", text=capture(113, given), status=1, said=b"link type 113 isn't Ethernet")
            self.assertEqual(written, b"")


class Flows(unittest.TestCase):
    def test_frames(self):
        text = b" 10.1.2.3, 20.1.2.3, 1500\n::1,::2,7\n10.1.2.3,20.1.2.3,4294967296\n10.1.2.3,20.1.2.3,1.5 M\n\n"
        frame = ADDRESSES + b"\x08\x00" + packet()
        written = frames(run("hhh-flows", text=text, said=b": 3 lines left out\n"))
        self.assertEqual(written, [(frame, 1500), (frame, 2**32 - 34), (frame, 34)])

    def test_nothing_left_out(self):
        written = frames(run("hhh-flows", text=b"10.1.2.3,20.1.2.3,0\n10.1.2.3,20.1.2.3,33\n"))
        self.assertEqual([wire for _, wire in written], [33])
        run("hhh-flows", "--help", status=1, said=b"nfdump -r FILE")

    def test_lines_in_no_encoding(self):
        text = b"10.1.2.3,20.1.2.3,50\n\xff\xfe,x,1\n10.1.2.3,20.1.2.3,70\n"
        self.assertEqual([wire for _, wire in frames(run("hhh-flows", text=text, said=b": 1 lines left out"))], [50, 70])


class Export(unittest.TestCase):
    def test_forms(self):
        report = json.loads(run("hhh-export", "json", text=SESSION.encode()))
        line = {"source": "10.0.0.0/8", "destination": "20.1.0.0/16", "low": 290, "high": 300}
        self.assertEqual(report["lines"][1], line)
        del report["lines"]
        skipped = {"not_ipv4": 1, "short": 0, "bad_header": 1}
        self.assertEqual(report, {"total": 300, "threshold": 3, "frames": 4, "skipped": skipped, "at": [1, 1]})
        rows = run("hhh-export", "csv", text=SESSION.encode()).decode().split("\n")
        self.assertEqual(rows, ["source,destination,low,high", "10.1.2.3/32,20.1.2.3/32,200,200", "10.0.0.0/8,20.1.0.0/16,290,300", ""])
        text = run("hhh-export", "prometheus", text=SESSION.encode()).decode()
        self.assertEqual(text, PROMETHEUS)

    def test_cut_captures(self):
        cut = SESSION.replace("end", "cut 136\nend")
        report = json.loads(run("hhh-export", "json", text=cut.encode()))
        self.assertEqual(report.pop("cut"), 136)
        self.assertEqual(report, json.loads(run("hhh-export", "json", text=SESSION.encode())))
        text = run("hhh-export", "prometheus", text=cut.encode()).decode()
        self.assertEqual(text, PROMETHEUS.replace("# TYPE hhh_low", "# TYPE hhh_cut gauge\nhhh_cut 136\n# TYPE hhh_low"))
        for other in ("cut", "cut x"):
            run("hhh-export", "csv", text=SESSION.replace("end", other + "\nend").encode(), status=1, said=b"no session")

    def test_lengths_of_four_bits(self):
        rows = run("hhh-export", "csv", text=SESSION.replace("10.0.0.0/8", "10.16.0.0/12").encode()).decode().split("\n")
        self.assertEqual(rows[2], "10.16.0.0/12,20.1.0.0/16,290,300")

    def test_last_report_counts(self):
        first = SESSION[: SESSION.index("frames")].replace("200", "100") + "saved 1 1\n"
        text = first + SESSION[SESSION.index("report") :].replace("frames", "saved 1 1\nframes")
        both = [run("hhh-export", "json", text=one.encode()) for one in (text, SESSION)]
        self.assertEqual(*both)

    def test_text_after_the_end(self):
        for rest in ("end of file\n", "report\n", "\n", "x"):
            self.assertEqual(run("hhh-export", "csv", text=(SESSION + rest).encode(), status=1, said=b"no end"), b"")

    def test_no_sessions(self):
        without_report = "opened 0 0\nframes 4\nskipped 1 0 1\nend\n"
        for text in ("end\n", without_report, SESSION.replace("200 200", "200 x"), SESSION.replace("skipped", "left"),
                     SESSION.replace("200 200", "200"), SESSION.replace("skipped 1 0 1", "skipped 1")):
            for form in ("json", "csv", "prometheus"):
                self.assertEqual(run("hhh-export", form, text=text.encode(), status=1, said=b"no session"), b"")
        run("hhh-export", "csv", "/no/such/file", status=1, said=b"No such file")

    def test_incomplete_sessions(self):
        for length in (0, 20, len(SESSION) - 1, len(SESSION) - 5):
            self.assertEqual(run("hhh-export", "csv", text=SESSION[:length].encode(), status=1), b"")
        run("hhh-export", "xml", status=1, said=b"json|csv|prometheus")


class Lattice(unittest.TestCase):
    def drawn(self, text, *words):
        """A drawing, its labels from dot to dot, its dots as places with a radius, and its edges as ends."""
        drawing = run("hhh-lattice", *words, "/dev/stdin", text=text.encode()).decode()
        labels = re.findall(r'class="prefix"[^>]*>(\S+|to \S+) <tspan class="share">([^<]*)<', drawing)
        dots = [tuple(map(float, dot)) for dot in re.findall(r'class="dot" cx="(\S+)" cy="(\S+)" r="(\S+)"', drawing)]
        number = r"(-?[\d.]+)"
        edges = re.findall(rf'class="edge" d="M{number} {number} (?:L|Q.*? .*? ){number} {number}"', drawing)
        return drawing, labels, dots, [tuple(map(float, edge)) for edge in edges]

    def test_drawing(self):
        drawing, labels, dots, edges = self.drawn(SESSION)
        self.assertIn("lines 2, total 300, threshold 3", drawing)
        narrow, wide = labels[2:], labels[:2]
        self.assertEqual(narrow, [("10.1.2.3/32", "66.7 %"), ("to 20.1.2.3/32", "")])
        self.assertEqual(wide, [("10.0.0.0/8", "96.7 to 100.0 %"), ("to 20.1.0.0/16", "")])
        self.assertEqual([dot[2] for dot in dots], [15.0, 12.2])
        # The kept source bytes rise to the right, the kept destination bytes upwards.
        self.assertTrue(dots[0][0] < dots[1][0] and dots[0][1] > dots[1][1])
        self.assertEqual(edges, [(*dots[1][:2], *dots[0][:2])])

    def test_sides(self):
        single = SESSION.replace("line 10.1.2.3/32 20.1.2.3/32 200 200\n", "")
        _, labels, [(x, y, _)], _ = self.drawn(single.replace("20.1.0.0/16", "20.1.2.0/24"))
        _, swapped, [(to_x, to_y, _)], _ = self.drawn(single.replace("10.0.0.0/8 20.1.0.0/16", "20.1.2.0/24 10.0.0.0/8"))
        self.assertEqual((labels[0][0], labels[1][0]), ("10.0.0.0/8", "to 20.1.2.0/24"))
        self.assertEqual((swapped[0][0], swapped[1][0]), ("20.1.2.0/24", "to 10.0.0.0/8"))
        self.assertTrue(x < to_x and y < to_y)

    def test_no_edge_past_a_third_line(self):
        third = "line 10.1.0.0/16 20.1.2.0/24 250 250\n"
        _, _, dots, edges = self.drawn(SESSION.replace("done", third + "done"))
        lowest, middle, highest = sorted(dots)
        self.assertEqual(sorted(edges), sorted([(*highest[:2], *middle[:2]), (*middle[:2], *lowest[:2])]))

    def test_last_whole_report(self):
        first = SESSION[: SESSION.index("frames")]
        broken = "report\nat 2 2\ntotal 900\nthreshold 9\nline 10.1.2.3/32 20.1.2.3/32 700 700\n"
        second = SESSION[SESSION.index("report") :].replace("300", "600").replace("200 200", "60 60")
        self.assertEqual(self.drawn(first + second), self.drawn(second))
        self.assertEqual(self.drawn(first + second[: second.index("frames")] + broken), self.drawn(second))

    def test_faults(self):
        for text in ("", "end\n", "done\n", SESSION.replace("10.0.0.0/8", "10.0.0.0/9"), SESSION.replace(" 290 300", "")):
            self.assertEqual(run("hhh-lattice", "/dev/stdin", text=text.encode(), status=1, said=b"no whole report"), b"")
        run("hhh-lattice", "/no/such/file", status=1, said=b"No such file")
        for words in (["--help"], [], ["--bits", "8"], ["--bits", "16", "/dev/stdin"], ["--bit", "4", "/dev/stdin"]):
            run("hhh-lattice", *words, status=1, said=b"hhh-lattice [--bits 8|4] SESSION")

    def test_end_of_the_pipe(self):
        tool = subprocess.Popen([here / "hhh-lattice", "/dev/stdin"], stdin=subprocess.PIPE, stdout=subprocess.PIPE, stderr=subprocess.PIPE)
        tool.stdout.close()
        self.assertEqual((tool.communicate(SESSION.encode())[1], tool.returncode), (b"", -signal.SIGPIPE))

    def numbers(self, drawing):
        """The numbers of both axes, and how many boxes there are."""
        return re.findall(r'class="axis"[^>]*>(\d+)<', drawing), drawing.count('class="node"')

    def test_axes(self):
        drawing, *_ = self.drawn(SESSION, "--bits", "8")
        self.assertEqual(drawing, self.drawn(SESSION)[0])
        self.assertEqual(self.numbers(drawing), ([str(n) for n in range(5) for _ in range(2)], 25))
        drawing, *_ = self.drawn(SESSION, "--bits", "4")
        self.assertEqual(self.numbers(drawing), ([str(n) for n in range(0, 33, 4) for _ in range(2)], 81))
        self.assertIn(">kept source bits<", drawing)

    def test_lines_of_four_bits(self):
        line = "line 10.16.0.0/12 20.1.0.0/16 90 90\n"
        text = SESSION.replace("line 10.0.0.0/8", line + "line 10.0.0.0/8")
        _, labels, dots, edges = self.drawn(text, "--bits", "4")
        self.assertEqual([first for first, _ in labels[::2]], ["10.0.0.0/8", "10.16.0.0/12", "10.1.2.3/32"])
        wide, middle, narrow = [dot[:2] for dot in sorted(dots)]
        # 10.1.2.3 begins with the first four bits of 10.16.0.0 alone, so its line is a part of that of 10.0.0.0/8 alone.
        self.assertEqual(sorted(edges), sorted([(*middle, *wide), (*narrow, *wide)]))
        _, _, dots, edges = self.drawn(text.replace("10.1.2.3", "10.17.2.3"), "--bits", "4")
        wide, middle, narrow = [dot[:2] for dot in sorted(dots)]
        self.assertEqual(sorted(edges), sorted([(*middle, *wide), (*narrow, *middle)]))
        for words in ([], ["--bits", "8"]):
            run("hhh-lattice", *words, "/dev/stdin", text=text.encode(), status=1, said=b"draw it with --bits 4")


if __name__ == "__main__":
    sys.exit(unittest.main())
