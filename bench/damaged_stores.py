#!/usr/bin/env python3
"""Damages stores in one byte each, and runs over them: damaged_stores.py PROGRAM RUNS SEED CAPTURE...

Makes stores of random settings and of both versions over the captures: after `format`, after a whole run without
rounds and with some, and after a run that was killed. Then it changes one byte of a copy: half of the times any, half
of the times one of a gate, of the header, or of a body beside its entries. One copy in ten gets another whole header
instead, one of the other version, by other bits or both. What the bytes then open to follows from docs/FORMATS.md
(`store_bytes.py`): a report over them must end with that status, and with that slot. On 7 to 10 nothing may be
written, and the file must be as it was. On 0 the session must begin at these positions, and leave a store that has the
same header and opens at the ends of the lists; where its last report isn't the true one, `audit` is asked. Prints each
run that does otherwise, how many ended with which status, and at the end the counts.
"""

import random
import subprocess
import sys
import tempfile
from collections import Counter
from pathlib import Path

import session_text
import store_bytes
from store_bytes import KINDS
from stored_capture import StoredCapture, test

program, runs, seed, captures = sys.argv[1], int(sys.argv[2]), int(sys.argv[3]), sys.argv[4:]
source = random.Random(seed)


class Store(StoredCapture):
    """A store as some run left it, and what a report over it must give."""

    def __init__(self, capture, store):
        self.version, bits = source.choice(KINDS)
        super().__init__(program, capture, store_bytes.Settings(source.randint(1, 4), source.randint(4, 64),
            source.choice(store_bytes.WEIGHINGS), source.choice(store_bytes.DEALINGS), bits))
        self.store = store
        self.format_store(store, self.version)
        self.kind = source.choice(("formatted", "one save", "rounds", "killed", "killed"))
        if self.kind == "one save":
            self.run(self.report("--store", store))
        elif self.kind == "rounds":
            self.run(self.report("--store", store, "--rounds", str(source.randint(1, 4))))
        elif self.kind == "killed":
            self.stop_after_saves(store, source.randint(1, 4), 16, "--workers", "1")
        self.image = Path(store).read_bytes()
        assert self.opening(self.image)[0] == 0, "a run left no sound store"

    def damaged(self):
        """The bytes with one of them or the header changed, and what was changed."""
        if source.random() < 0.1:
            return self.with_other_header()
        places = store_bytes.structure_of(self.image, self.settings) if source.random() < 0.5 else range(len(self.image))
        place, image = source.choice(places), bytearray(self.image)
        image[place] = (image[place] + source.choice((1, 255, 128, source.randint(1, 255)))) % 256
        return bytes(image), f"byte {place}: {self.image[place]} to {image[place]}"

    def with_other_header(self):
        own = self.version, self.settings.bits
        version, bits = source.choice([kind for kind in KINDS if kind != own])
        header = store_bytes.Header(version, self.settings._replace(bits=bits))
        change = f"the header to one of version {version} by {bits} bits"
        return self.image[:2] + store_bytes.header_of(header) + self.image[store_bytes.FRONT:], change


def test_damage(store, image, text):
    """Runs a report over damaged bytes. Answers how it ended."""
    Path(store.store).write_bytes(image)
    ended = store.go_on(store.store, "--rounds", str(source.randint(0, 2)))
    if ended.returncode:
        return str(ended.returncode)
    if session_text.last_report(ended.stdout) == store.last_report:
        return "0, the true report"
    audit = store.audit(ended.stdout, text)
    test(audit.returncode in (0, 11), f"audit: {audit.returncode} {audit.stderr}")
    return "0, another report, " + ("sound by its audit" if audit.returncode == 0 else "refused by its audit")


with tempfile.TemporaryDirectory() as folder:
    stores = [Store(source.choice(captures), f"{folder}/store{number}") for number in range(max(1, runs // 20))]
    ends, kinds, wrong = Counter(), Counter(), 0
    for number in range(runs):
        store = stores[number % len(stores)]
        image, change = store.damaged()
        kinds[store.version, store.settings.bits] += 1
        try:
            ends[test_damage(store, image, f"{folder}/text")] += 1
        except (AssertionError, subprocess.TimeoutExpired) as fault:
            wrong += 1
            print(f"version {store.version}", *store.settings, store.path, store.kind, change, fault, flush=True)
for end, count in sorted(ends.items()):
    print(f"{count} ended with {end}")
of_kinds = ", ".join(f"{kinds[version, bits]} of version {version} by {bits} bits" for version, bits in KINDS)
print(f"{runs} stores damaged, {of_kinds}, {wrong} wrong")
sys.exit(wrong > 0)
