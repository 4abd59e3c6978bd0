"""What the checks read: the crates, their definitions, clauses and wrong bodies, and the faults that they found."""

import re
from pathlib import Path

TOP = Path(__file__).resolve().parent.parent.parent
CRATES = sorted(path.name for path in (TOP / "crates").iterdir())

# Where a crate's wrong bodies are: those that the gate tries, and the others. The gate takes most of its time for them.
EDIT_FOLDERS = ("must-fail", "more-wrong-bodies")

HEAD = re.compile(r"(?:unfoldable |abbrev )?(?:pub )?(?:record |data )?(?:pub )?([^\s:({]+)")

faults = []


def check(holds, text):
    if not holds:
        faults.append(text)


def page_text(page):
    """The text of a page or a source; where there is none, nothing."""
    path = TOP / page
    return path.read_text() if path.exists() else ""


def names(text):
    return re.findall(r"`([^`]+)`", text)


def blocks(path):
    """Each paragraph of a file of definitions, also of a section, whose lines begin further to the right, as its lines of
    comment and of code. The head of a section isn't code."""
    text = re.sub(r"(?ms)^ *module _ .*? where$", "", path.read_text())
    for block in re.split(r"\n\n+", text):
        lines = [line.strip() for line in block.split("\n") if line.strip()]
        yield [line for line in lines if line.startswith("-- ")], [line for line in lines if not line.startswith("--")]


def homes(crate):
    """Each definition of a crate's specs/ that has a comment, and its file, in the order of the files."""
    for path in sorted((TOP / "crates" / crate / "specs").glob("*.antt")):
        for comment, code in blocks(path):
            if comment and code and re.match(r"(?:abbrev|unfoldable|pub record|pub data) ", code[0]):
                yield HEAD.match(code[0])[1], path.stem


def fields(crate):
    """The fields of each record of a crate's specs/."""
    found = {}
    for path in (TOP / "crates" / crate / "specs").glob("*.antt"):
        for _, code in blocks(path):
            if code and (record := re.match(r"pub record (\w+)", code[0])):
                found[record[1]] = {field[1] for line in code[1:] if (field := re.match(r"pub (\w+) :", line))}
    return found


def clauses(crate):
    """The clauses of each function of a crate; a method goes by its type's name and its own. Where a function has one clause
    without a name, and it is a record of the crate, its fields count as clauses."""
    found, records = {}, fields(crate)
    for path in (TOP / "crates" / crate / "src").glob("**/*.rt"):
        owner = function = ""
        for line in path.read_text().split("\n"):
            if block := re.match(r"(?:pub )?(?:impl(?:<.*?>)? (?:\S+ for )?|trait |struct |enum )(\w+)", line):
                owner = block[1] + "::"
            elif line.startswith("}"):
                owner = ""
            elif item := re.match(r"\s*(?:pub(?:\((?:crate|super)\))? |final )?fn (\w+)|\s+ghost (\w+)(?:: | = )", line):
                function = owner + (item[1] or item[2])
                found.setdefault(function, set())
            elif clause := re.match(r"\s*ensures (\w+) \{", line):
                found[function].add(clause[1])
            elif record := re.match(r"\s*ensures \{ (\w+)", line):
                found[function] |= records.get(record[1], set())
    return found


def edits(crate, folder):
    return sorted((TOP / "crates" / crate / folder).glob("*.edit"))


def wrong_bodies(crate):
    return {path.stem for folder in EDIT_FOLDERS for path in edits(crate, folder)}


def source_files(crate):
    """The sources of a crate: code, definitions and proofs."""
    paths = (TOP / "crates" / crate).glob("*/**/*")
    return sorted(path for path in paths if path.suffix in (".rt", ".antt") and "out" not in path.parts)


def stands_on():
    """What each crate stands on, crates and libraries, as crates.txt has it: lowest first."""
    rules = re.findall(r"(?m)^(\w+)[^:\n#]*:(.*)$", (TOP / "crates.txt").read_text())
    return {crate: lower.split() for crate, lower in rules}


def crates_below(crate):
    """A crate and all crates that it stands on."""
    rules, found, open_crates = stands_on(), set(), [crate]
    while open_crates:
        one = open_crates.pop()
        if one in rules and one not in found:
            found.add(one)
            open_crates += rules[one]
    return found


ALL_DEFINITIONS = {crate: dict(homes(crate)) for crate in CRATES}
ALL_CLAUSES = {crate: clauses(crate) for crate in CRATES}
ALL_WRONG_BODIES = {crate: wrong_bodies(crate) for crate in CRATES}
