#!/usr/bin/env python3
"""Reports over the stores of several sites, beside plain ones: site_reports.py PROGRAM SETS SEED [CAPTURE...]

Each set of stores is made by `format` and `report --store` over other captures, of those given and of some of
`make_capture.py`, with settings that are drawn: shards, capacity, weight, dealing, bits and share. There are eight
stores in most sets, of both versions; some are left by a run that was killed after a save, and some have no save. Of
`sites` over them status and both outputs must be what `plain_sites.py` works out from their bytes. The report must be
sound over the records before its positions: by `audit` over a capture of these records, and by plain sums
(`plain_audit.py`) where they don't take too long.

Then some stores of a set are changed: by one byte, by another header, length, slot or version; closed, missing, no file,
or that of another site; or the words ask for other settings. And a set is made of bytes alone, with any counts and
errors, whose weight is often just below or above the limit. Each must end as the plain reader says, and all stores must
be as they were; one that is missing is made empty, where it comes first of those refused.

For each set ten command lines are drawn: options in any order, twice, without a value, out of limits, behind names, no
name, nine names, words that aren't UTF-8. They must be refused, or end over the stores that they name, as the plain
reader of words says.

At last `sites` runs over stores that another user may not read or write, and over a store to which a `report` saves at
the same time, without a lock, of which only is told what was seen, and under `flock`, where both must end well. And each
call of the system of one run fails in turn: one on a store must end it with 6 and the number of its site, a write to
standard output with 5.

Prints each run that ends otherwise, and at the end the counts. Needs root for the other user, and strace.
"""

import os
import random
import stat
import subprocess
import sys
import tempfile
from collections import Counter
from pathlib import Path

import capture_writer
import plain_audit
import plain_sites
import session_text
import store_bytes
import system_calls
from plain_runs import run
from stored_capture import StoredCapture, least_share, test

HERE = Path(__file__).resolve().parent
KINDS = "short", "whole", "skewed", "mixed", "zipf", "distinct", "crossed", "nested", "paired", "heavy", "forged", "met"
CAPTURES, MOST_FRAMES = 16, 4000
MOST_ENTRIES = 120_000  # room for entries in the tables of a store, for the time that reading them in Python takes
MOST_PLAIN = 6_000  # pairs of addresses that the plain audit sums
LEAST_PHI = 2_000  # below which the plain program takes too long
CHANGES = 8
LINES = 10
PAIRS = 20
NOBODY = 65534
# Of the two stores that calls fail over, and to one of which a report saves at the same time.
TWO, TWO_PHI = store_bytes.Settings(4, 64, "bytes", "round"), 31_250
BAD_WORDS = 2, "", "hhh: bad words\n"
NOT_UTF8 = 2, "", "hhh: bad words: refused\n"

program, sets, seed, captures = sys.argv[1], int(sys.argv[2]), sys.argv[3], sys.argv[4:]
source = random.Random(seed)
counts = Counter()


def up_to(least, most):
    """A number from least to most, small ones as often as great ones."""
    return min(most, int(least * ((most + 1) / least) ** source.random()))


def wrong(what):
    counts["wrong"] += 1
    print(what, flush=True)


def draw_settings():
    bits = source.choice((8, 8, 4))
    while True:
        settings = store_bytes.Settings(source.choice((1, 3, 16, source.randint(1, 16))), up_to(2, store_bytes.MOST_CAPACITY[bits]),
            source.choice(store_bytes.WEIGHINGS), source.choice(store_bytes.DEALINGS), bits)
        if settings.shards * settings.capacity * store_bytes.nodes_of(bits) <= MOST_ENTRIES:
            return settings


def draw_phi(settings):
    least = max(LEAST_PHI, least_share(settings.capacity))
    return source.choice((least, up_to(least, 1_000_000)))


def words_of(settings, phi, changed=()):
    """The words that ask for these settings, but for changed values, some of them in one word, in any order."""
    values = {"weigh": settings.weighing, "shards": settings.shards, "capacity": settings.capacity, "phi": phi,
        "deal": settings.dealing, "bits": settings.bits}
    values.update(changed)
    left = [(name, str(value)) for name, value in values.items()
        if str(value) != plain_sites.DEFAULTS[name] or source.random() < 0.5]
    source.shuffle(left)
    return [word for name, value in left for word in source.choice(([f"--{name}", value], [f"--{name}={value}"]))]


class Site(StoredCapture):
    """A capture, and the store that some runs over it left."""

    def __init__(self, capture, settings, phi, store):
        super().__init__(program, capture, settings, phi)
        self.version = source.choice(store_bytes.versions_of(settings.bits))
        self.kind = source.choice(("whole", "whole", "whole", "rounds", "stopped", "stopped", "formatted"))
        self.format_store(store, self.version)
        if self.kind in ("whole", "rounds"):
            rounds = ["--rounds", str(source.randint(1, 4))] if self.kind == "rounds" else []
            test(self.run(self.report("--store", store, *rounds)).returncode == 0, "no report")
        elif self.kind == "stopped":
            self.stop_after_saves(store, source.randint(1, 4), up_to(1, 64))
        self.image = Path(store).read_bytes()

    def records_before(self, positions):
        return [records[:position] for records, position in zip(self.lists, positions)]


class Missing:
    """In place of bytes: there is no file."""


class NoFile:
    """In place of bytes: what can't be opened as a file, and how it is made at a path, and the path of it."""

    def __init__(self, name, make):
        self.name, self.make = name, make


def null_at(path):
    return "/dev/null"


def folder_at(path):
    os.mkdir(path)
    return path


def fifo_at(path):
    os.mkfifo(path)
    return path


def below_nothing(path):
    return f"{path}/store"


def below_a_file(path):
    Path(path).write_bytes(b"")
    return f"{path}/store"


NO_FILES = [NoFile("/dev/null", null_at), NoFile("a folder", folder_at), NoFile("a named pipe", fifo_at),
    NoFile("in a missing folder", below_nothing), NoFile("below a file", below_a_file)]


class Shelf:
    """A folder with the files of a set of stores."""

    def __init__(self, folder):
        self.folder = folder

    def put(self, images):
        """Makes the files, and answers their paths. Stores that are the same object are one file."""
        paths = {}
        for number, image in enumerate(images):
            path = f"{self.folder}/{number}"
            if isinstance(image, NoFile):
                path = image.make(path)
            elif image is not Missing and id(image) not in paths:
                Path(path).write_bytes(image)
            key = number if image is Missing or isinstance(image, NoFile) else id(image)
            paths.setdefault(key, path)
        return [paths[number if image is Missing or isinstance(image, NoFile) else id(image)]
            for number, image in enumerate(images)]

    def clear(self):
        for path in Path(self.folder).iterdir():
            path.rmdir() if path.is_dir() else path.unlink()


def read_as(image):
    """What the plain reader is given for an image."""
    return b"" if image is Missing else None if isinstance(image, NoFile) else image


def fault_of_files(images, paths, ended):
    """What is wrong with the files of a set after a run that ended so, or none."""
    for site, (image, path) in enumerate(zip(images, paths), 1):
        if image is Missing:
            was_first = ended[2] == f"hhh: site {site}: not formatted\n"
            if Path(path).exists() != was_first or was_first and Path(path).read_bytes():
                return f"site {site}, which was missing"
        elif isinstance(image, NoFile):
            if path.endswith("/store") and Path(path).exists() or os.path.isdir(path) and os.listdir(path):
                return f"site {site}, {image.name}"
        elif Path(path).read_bytes() != image:
            return f"the bytes of site {site}"
    return None


def compare(shelf, images, settings, phi, what):
    """Runs `sites` over a set of stores and compares how it ends. Answers the plain report, or none."""
    wanted, report = plain_sites.run_over([read_as(image) for image in images], settings, phi)
    paths = shelf.put(images)
    words = ["sites", *words_of(settings, phi), *paths]
    found = run(program, words, b"")
    counts["runs over stores"] += 1
    counts[f"ended with {wanted[0]}"] += 1
    if found != wanted:
        wrong(f"{what}: {' '.join(words)}: {found} in place of {wanted}")
    fault = fault_of_files(images, paths, wanted)
    if fault:
        wrong(f"{what}: {' '.join(words)}: {fault}")
    shelf.clear()
    return report


def session_at_end(report, records):
    """The report over these records as a session of one shard."""
    lines = "".join(f"line {plain_audit.prefix_text(prefix)} {low} {high}\n" for prefix, low, high in report.lines)
    return (f"opened 0\nreport\nat {len(records)}\ntotal {report.total}\nthreshold {report.threshold}\n{lines}done\n"
        f"frames {len(records)}\nskipped 0 0 0\nend\n")


def test_soundness(report, lists, settings, phi, folder):
    """Tests that a report is sound over the records before its positions, by `audit` and by plain sums."""
    records = [record for records, position in zip(lists, report.positions) for record in records[:position]]
    capture, session = f"{folder}/merged", f"{folder}/session"
    frames = [(capture_writer.ethernet(capture_writer.IPV4, behind=capture_writer.ipv4(source, destination)), weight)
        for source, destination, weight in records]
    Path(capture).write_bytes(capture_writer.classic("<", 0xA1B2C3D4, frames))
    Path(session).write_text(session_at_end(report, records))
    ended = run(program, ["audit", "--capture", capture, "--report", session, "--shards", "1", "--capacity",
        str(settings.capacity), "--phi", str(phi), "--weigh", settings.weighing, "--bits", str(settings.bits)], b"")
    counts["sound by audit"] += 1
    if ended != (0, "good 1\n", ""):
        wrong(f"{settings}, phi {phi}: audit: {ended}")
    if len({record[:2] for record in records}) <= MOST_PLAIN:
        counts["sound by plain sums"] += 1
        verdict = plain_audit.verdict_on(report, lists, settings.capacity, phi, settings.bits)
        if verdict:
            wrong(f"{settings}, phi {phi}: by plain sums: {verdict}")


# Changes of a store, each from the images of all sites and the place of one.


def with_changed_byte(images, place, settings):
    image = bytearray(images[place])
    places = store_bytes.structure_of(images[place], settings) if source.random() < 0.5 else range(len(image))
    at = source.choice(places)
    image[at] = (image[at] + source.choice((1, 255, 128, source.randint(1, 255)))) % 256
    return bytes(image)


def with_other_header(images, place, settings):
    version, bits = source.choice(store_bytes.KINDS)
    other = settings._replace(bits=bits, **source.choice(({}, {"shards": settings.shards % 16 + 1}, {"capacity": 2},
        {"weighing": source.choice(store_bytes.WEIGHINGS)}, {"dealing": source.choice(store_bytes.DEALINGS)})))
    return images[place][:2] + store_bytes.header_of(store_bytes.Header(version, other)) + images[place][store_bytes.FRONT:]


def with_other_length(images, place, settings):
    image = images[place]
    return source.choice((image[:source.randrange(len(image))], image[:source.randrange(70)], image + bytes(1000)))


def with_other_gates(images, place, settings):
    gates = bytes(source.choice((0, 1, 1, 2, 255)) for _ in range(2))
    return gates + images[place][2:]


def with_other_slot(images, place, settings):
    """The newest body in both slots, in the other one with another sequence."""
    bodies = store_bytes.open_bodies(images[place], settings)
    if not bodies:
        return images[place]
    body, span = bodies[store_bytes.newest_of(bodies)], store_bytes.span_of(settings)
    sequence = source.choice((body.sequence, 1, max(1, body.sequence - 1), body.sequence + 1, store_bytes.LAST_SEQUENCE))
    return store_of(store_bytes.header_in(images[place]), source.sample([body, body._replace(sequence=sequence,
        positions=[position // 2 for position in body.positions])], 2))


def of_another_site(images, place, settings):
    """The store of another site, or a copy of it."""
    other = source.choice(images)
    return other if not isinstance(other, bytes) or source.random() < 0.5 else bytes(bytearray(other))


def missing(images, place, settings):
    return Missing


def no_file(images, place, settings):
    return source.choice(NO_FILES)


CHANGES_OF_STORES = [with_changed_byte] * 3 + [with_other_header, with_other_length, with_other_gates, with_other_slot,
    of_another_site, missing, no_file]


def store_of(header, bodies):
    """A store with one body or two, whose gates are open."""
    span = store_bytes.span_of(header.settings)
    spelled = b"".join(store_bytes.spell_body(body).ljust(span, b"\0") for body in bodies)
    return bytes(slot < len(bodies) for slot in range(2)) + store_bytes.header_of(header) + spelled


def change_stores(shelf, images, settings, phi):
    changed, names = list(images), []
    for place in source.sample(range(len(images)), min(len(images), source.choice((1, 1, 2, 3)))):
        change = source.choice(CHANGES_OF_STORES)
        changed[place] = change(images, place, settings)
        names.append(f"{change.__name__} {place + 1}")
    if source.random() < 0.1:
        settings = settings._replace(shards=settings.shards % 16 + 1)
        names.append("asked for other shards")
    counts["changed sets"] += 1
    compare(shelf, changed, settings, phi, ", ".join(names))


# Stores that are made of bytes alone.


def parts_of(total, count):
    """So many numbers, each at least 1, that add up to a total."""
    ends = [0, *sorted(source.sample(range(1, total), count - 1)), total]
    return [after - before for before, after in zip(ends, ends[1:])]


def forge_table(node, total, pairs, settings):
    """Any table of a node that the grammar allows, with keys of these pairs of addresses."""
    keys = list({pair & store_bytes.kept_bits(node, settings.bits) for pair in pairs})
    count = min(len(keys), settings.capacity, total)
    if not count:
        return []
    counted = sorted(parts_of(total, count))
    return [store_bytes.Entry(key, weight, source.randint(0, min(weight - 1, total // settings.capacity)))
        for key, weight in zip(source.sample(keys, count), counted)]


def forge_store(totals, settings):
    """A store whose shards have these totals, each with its own tables."""
    pairs = [source.getrandbits(64) & source.choice((~0, 0xFF00FFFF << 32 | 0xFF00FFFF, 0x0F << 32 | 0xFFFF0000))
        for _ in range(source.choice((1, 5, 40)))]
    nodes = range(store_bytes.nodes_of(settings.bits))
    tables = [[forge_table(node, total, pairs, settings) for node in nodes] for total in totals]
    body = store_bytes.Body(source.randint(1, store_bytes.LAST_SEQUENCE), source.randbytes(32),
        [source.randint(0, store_bytes.MOST_POSITION) for _ in totals], totals, tables)
    header = store_bytes.Header(source.choice(store_bytes.versions_of(settings.bits)), settings)
    return store_of(header, [body])


def try_forged(shelf):
    """A set of stores whose weight is just below or above the limit, or any."""
    # Tables that are small enough to be full.
    settings = draw_settings()._replace(capacity=up_to(2, 64))
    sites = source.randint(1, 8)
    shards = sites * settings.shards
    total = source.choice((plain_sites.TOO_HEAVY + source.choice((-1, 0, 1)), source.randint(shards, 1 << 57), up_to(shards, 1 << 40)))
    parts = [min(part, (1 << 56) - 1) for part in parts_of(total, shards)]
    if source.random() < 0.2:
        parts[source.randrange(shards)] = 0
    images = [forge_store(parts[site * settings.shards:(site + 1) * settings.shards], settings) for site in range(sites)]
    if source.random() < 0.2:
        images[source.randrange(sites)] = store_bytes.formatted(store_bytes.Header(2, settings))
    if source.random() < 0.2:
        images[source.randrange(sites)] = source.choice(images)
    counts["forged sets"] += 1
    compare(shelf, images, settings, draw_phi(settings), "forged")


# Words.

BAD_VALUES = ("", "0", "00", "04", "+4", "-4", "4x", "x", " 4", "4 ", "bytes", "round", "source", "packets", "free", "Bytes", "8", "4",
    "1", "2", "5", "18446744073709551615", "18446744073709551616", "\u0664", "4=4", "--shards")
EDGES = {"weigh": ("bytes", "packets", "byte"), "shards": ("0", "1", "16", "17"), "phi": ("0", "1", "3907", "1000000", "1000001"),
    "capacity": ("1", "2", "1024", "1025", "4096", "4097"), "deal": ("round", "free", "RoundRobin"), "bits": ("4", "5", "8")}
OTHER_WORDS = ("", "-", "--", "-s", "--store", "--capture=x", "--shard=4", "--help", "--Shards=4", "--=4", "sites", "--front", "yes",
    "--block=64", "report")
SHELVED = [store_bytes.Settings(4, 512, "bytes", "round", 8), store_bytes.Settings(1, 64, "bytes", "round", 8),
    store_bytes.Settings(3, 100, "packets", "free", 4), store_bytes.Settings(16, 4, "bytes", "source", 4)]


def draw_line(names_of):
    """A command line without the program's name: mostly one that is taken, or has one or two faults."""
    settings = source.choice(SHELVED)
    names = [source.choice(names_of[settings]) for _ in range(source.choice((1, 2, 2, 3, 8, 8)))]
    changed = source.choice(list(plain_sites.OPTIONS))
    changes = source.choice(({}, {changed: source.choice(EDGES[changed])}, {changed: source.choice(BAD_VALUES)}))
    options = words_of(settings, source.choice((10_000, 31_250, 500_000, 1_000_000)), changes)
    for _ in range(source.choice((0, 0, 0, 1, 2))):
        name, value = f"--{source.choice(list(plain_sites.OPTIONS))}", source.choice(BAD_VALUES)
        fault = source.randrange(9)
        if fault < 3:
            options += source.choice(([name, value], [f"{name}={value}"]))
        elif fault == 3 and options:
            options.pop(source.randrange(len(options)))
        elif fault == 4 and options:
            at = source.randrange(len(options))
            options[at] = f"{name}={value}" if options[at].startswith("-") else value
        elif fault == 5:
            options.insert(source.randrange(len(options) + 1), source.choice(OTHER_WORDS))
        elif fault == 6:
            names = source.choice(([], names * 9, names + [""], names + [source.choice(OTHER_WORDS)]))
        elif fault == 7:
            names += source.choice(([name, "4"], [f"{name}=4"], [name]))
        else:
            source.shuffle(options)
    return options + names[:10]


def try_line(names_of, images):
    words = draw_line(names_of)
    try:
        asked = plain_sites.read_words(words)
        wanted, _ = plain_sites.run_over([images.get(name, b"") for name in asked.names], asked.settings, asked.phi)
        counts["lines that are taken"] += 1
    except plain_sites.BadWords as fault:
        wanted = BAD_WORDS
        counts[f"lines refused for {fault}"] += 1
    if source.random() < 0.02:
        words.insert(source.randrange(len(words) + 1), b"\xff")
        wanted = NOT_UTF8
    found = run(program, ["sites", *words], b"")
    if found != wanted:
        wrong(f"sites {words}: {found} in place of {wanted}")
    for name in Path("stores").iterdir():
        if str(name) not in images:
            # Only a run that was to read it may make it.
            if wanted[0] != 7 or name.read_bytes():
                wrong(f"sites {words} made {name}")
            name.unlink()
        elif name.read_bytes() != images[str(name)]:
            wrong(f"sites {words} changed {name}")


def fill_shelf():
    """Makes stores of some settings in a folder. Answers their names by their settings, and what is in them."""
    os.makedirs("stores", exist_ok=True)
    names_of, images = {}, {}
    for number, settings in enumerate(SHELVED):
        names = [f"stores/{number}.{place}" for place in range(4)]
        for name in names:
            images[name] = forge_store([source.randint(1, 1 << 40) for _ in range(settings.shards)], settings)
            Path(name).write_bytes(images[name])
        names_of[settings] = [*names, *names, f"stores/{number}.missing", source.choice(list(images))]
    return names_of, images


# Sets of stores.


def make_captures(folder):
    """Captures of all kinds beside those given."""
    made = list(captures)
    for number in range(CAPTURES):
        made.append(f"{folder}/made{number}")
        with open(made[-1], "wb") as out:
            words = [str(source.getrandbits(32)), str(up_to(10, MOST_FRAMES)), KINDS[number % len(KINDS)]]
            subprocess.run([sys.executable, HERE / "make_capture.py", *words], stdout=out, check=True)
    return made


def try_set(made, shelf, folder):
    settings = draw_settings()
    phi = draw_phi(settings)
    chosen = source.sample(made, source.choice((8, 8, 8, source.randint(1, 7))))
    sites = [Site(capture, settings, phi, f"{folder}/store") for capture in chosen]
    images = [site.image for site in sites]
    counts["sets"] += 1
    counts["sets of both versions"] += len({site.version for site in sites}) == 2
    counts["by 4 bits"] += settings.bits == 4
    for site in sites:
        counts[f"stores {site.kind}"] += 1
    report = compare(shelf, images, settings, phi, " ".join(site.kind for site in sites))
    if report is None:
        wrong(f"{settings}: a set of good stores is refused")
        return
    counts["lines of reports"] += len(report.lines)
    counts["lines that aren't exact"] += sum(low < high for _, low, high in report.lines)
    test_soundness(report, [records for site in sites for records in site.lists], settings, phi, folder)
    for _ in range(CHANGES):
        change_stores(shelf, images, settings, phi)


def try_versions(made, shelf, folder):
    """Stores of both versions over one capture have other digests, so they pass as two; two of one version don't."""
    settings, phi, images = SHELVED[1], 31_250, []
    for version in (1, 2, 2):
        site = StoredCapture(program, made[0], settings, phi)
        store = f"{folder}/version"
        Path(store).unlink(missing_ok=True)
        site.format_store(store, version)
        site.run(site.report("--store", store))
        images.append(Path(store).read_bytes())
    if compare(shelf, images[:2], settings, phi, "both versions") is None:
        wrong("stores of both versions over one capture are refused")
    if compare(shelf, images, settings, phi, "one version twice") is not None:
        wrong("two stores of one version over one capture are taken")


# Stores of another user, saves at the same time, and calls of the system that fail.


def make_two(made, folder):
    """Two stores in folders of their own, over the two longest captures that were made."""
    longest = sorted(made[len(captures):], key=os.path.getsize)[-2:]
    sites, paths = [], []
    for number, capture in enumerate(longest, 1):
        os.mkdir(f"{folder}/site{number}")
        paths.append(f"{folder}/site{number}/store")
        sites.append(StoredCapture(program, capture, TWO, TWO_PHI))
        sites[-1].format_store(paths[-1])
        test(sites[-1].run(sites[-1].report("--store", paths[-1])).returncode == 0, "no report")
    return sites, paths


def try_other_user(paths):
    """Runs as a user who may not open the second store, for its mode or for that of its folder."""
    before = [Path(path).read_bytes() for path in paths]
    for place in {Path(path).parent for path in paths}:
        os.chmod(place, 0o777)
    for path, mode in ((paths[1], 0o444), (paths[1], 0o222), (paths[1], 0), (Path(paths[1]).parent, 0)):
        for each in paths:
            os.chmod(each, 0o666)
        own = stat.S_IMODE(os.stat(path).st_mode)
        os.chmod(path, mode)
        ended = subprocess.run([program, "sites", *words_of(TWO, TWO_PHI), *paths], capture_output=True, text=True,
            user=NOBODY, group=NOBODY, extra_groups=[])
        os.chmod(path, own)
        counts["runs of another user"] += 1
        if (ended.returncode, ended.stdout, ended.stderr) != (6, "", "hhh: site 2: disk fault\n"):
            wrong(f"mode {mode:o} of {path}: {ended}")
        if [Path(each).read_bytes() for each in paths] != before:
            wrong(f"mode {mode:o} of {path}: a store was changed")


def seen_at_once(site, other, text, folder):
    """Tests that a report over a store that was saved to meanwhile is sound. Answers the positions that it shows of it."""
    lines = text.split("\n")
    positions = session_text.numbers(lines[1].split(" ", 1)[1]), session_text.numbers(lines[2].split(" ", 1)[1])
    read = session_text.read_session("opened 0\nreport\nat 0\n" + text[text.index("total"):-4] + "done\nframes 0\nskipped 0 0 0\nend\n")
    report = read.reports[0]
    report.positions = [place for places in positions for place in places]
    test_soundness(report, site.lists + other.lists, TWO, TWO_PHI, folder)
    return positions[0]


def try_at_once(sites, paths, folder):
    """Runs `sites` while a report saves to the first store."""
    site, other = sites
    command = ["sites", *words_of(TWO, TWO_PHI), *paths]
    expected = plain_sites.run_over([Path(path).read_bytes() for path in paths], TWO, TWO_PHI)[0]
    for _ in range(PAIRS):
        site.format_store(paths[0])
        report = site.report("--store", paths[0], "--rounds", "32", "--block", "16", "--workers", "1")
        with subprocess.Popen(report, stdout=subprocess.PIPE, stderr=subprocess.PIPE, text=True) as saving:
            ended = []
            while saving.poll() is None:
                ended.append(run(program, command, b""))
            text, _ = saving.communicate()
        saved = [line for line in text.split("\n") if line.startswith("saved")]
        if saving.returncode or session_text.last_report(text) != site.last_report:
            wrong(f"a report that sites read beside ended with {saving.returncode}")
        for status, text, line in ended:
            counts[f"at once with a report ended with {status}"] += 1
            if status == 0:
                at = seen_at_once(site, other, text, folder)
                is_saved = not any(at) or f"saved {' '.join(map(str, at))}" in saved
                counts[f"at once, at {'positions of a save' if is_saved else 'other positions'}"] += 1
            elif status != 8 or text or line not in ("hhh: site 1: damaged: slot 0\n", "hhh: site 1: damaged: slot 1\n"):
                wrong(f"at once with a report: {status} {line}")
        found = run(program, command, b"")
        if found != expected:
            wrong(f"after a report that sites read beside: {found}")
    for _ in range(PAIRS):
        site.format_store(paths[0])
        saving = subprocess.Popen(["flock", paths[0], *site.report("--store", paths[0], "--rounds", "8", "--block", "16")],
            stdout=subprocess.PIPE, text=True)
        found = run("flock", [paths[0], program, *command], b"")
        text, _ = saving.communicate()
        counts["under flock"] += 1
        if found[0] or found[2] or saving.returncode or session_text.last_report(text) != site.last_report:
            wrong(f"under flock: {found}, {saving.returncode}")


def statuses_after(call, fault, paths):
    """How a run may end in which this call failed, by status and line."""
    own = [site for site, path in enumerate(paths, 1) if {path, str(Path(path).parent)} & set(call.paths())]
    well, lines = (0, ""), {13: ("hhh: out of memory\n", ""), 5: ("hhh: write fault\n",)}
    of_sites = {(6, f"hhh: site {site}: disk fault\n") for site in (own or range(1, len(paths) + 1))}
    if call.name == "close" or call.descriptor() == 2 or fault == "EINTR" and call.name in system_calls.INTERRUPTED:
        return {well}
    if own:
        return {well} if system_calls.looks_for_folder(call, str(Path(paths[own[0] - 1]).parent)) else of_sites
    if call.descriptor() == 1:
        return {(5, "hhh: write fault\n")}
    return {well, *of_sites, *((status, line) for status, each in lines.items() for line in each)}


def try_failing_calls(paths):
    """Lets each call of a run over two stores fail, from the first on that names one of them."""
    command = [program, "sites", *words_of(TWO, TWO_PHI), *paths]
    before = [Path(path).read_bytes() for path in paths]
    whole = system_calls.trace(command)
    test(whole.status == 0, "no report")
    for call, fault in system_calls.faults_of(whole.threads, paths):
        failed = system_calls.trace(command, *system_calls.failing(call, fault))
        counts["failing calls"] += 1
        counts[f"failing calls ended with {failed.status}"] += 1
        allowed = statuses_after(call, fault, paths)
        text = whole.text if failed.status == 0 else ""
        if (failed.status, failed.line) not in allowed or failed.text != text:
            wrong(f"{call.name} {call.number} {call.paths()} {fault}: {failed.status} {failed.line} in place of {allowed}")
        if [Path(path).read_bytes() for path in paths] != before:
            wrong(f"{call.name} {call.number} {fault}: a store was changed")


def main():
    with tempfile.TemporaryDirectory() as folder:
        os.chmod(folder, 0o755)
        shelf = Shelf(f"{folder}/shelf")
        os.mkdir(shelf.folder)
        os.chdir(folder)
        made = make_captures(folder)
        names_of, images = fill_shelf()
        for _ in range(sets):
            try_set(made, shelf, folder)
            try_forged(shelf)
            for _ in range(LINES):
                try_line(names_of, images)
        try_versions(made, shelf, folder)
        sites, paths = make_two(made, folder)
        try_failing_calls(paths)
        try_other_user(paths)
        try_at_once(sites, paths, folder)
    for what, count in sorted(counts.items()):
        print(f"{count} {what}")
    print(f"{counts['sets']} sets, {counts['runs over stores']} runs over stores, {counts['wrong']} wrong")
    sys.exit(counts["wrong"] > 0)


main()
