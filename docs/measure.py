#!/usr/bin/env python3
"""Counts what the house is judged by: how much is read of the top call's promise, and how large its parts are.

usage: measure.py              one line for each measure
       measure.py reached      also the definitions that `done` of a report reaches, with their lines

A definition is reached if its name stands in the text of one that is reached; of a definition with a line for each
command, or for each word that names one, only the line of `Report` is read. Comments and blank lines are not counted.
"""

import re
import sys
from pathlib import Path

top = Path(__file__).resolve().parent.parent
crates = sorted(path.name for path in (top / "crates").iterdir() if (path / "src").is_dir())

MANY_PARAMETERS = 7
LONG_NAME = 24
WIDEST_LINE = 120

HEAD = re.compile(r"(?:unfoldable |abbrev )?(?:pub )?(?:record |data )?(?:pub )?([^\s:({]+)")
STARTS = re.compile(r"(abbrev|unfoldable|pub record|pub data|record|data) ")
WORD = re.compile(r"[\w◌-]+")
IMPORT = re.compile(r"(?m)^(?:pub )?use Rattle\.(\w+)\.specs\.\{([^}]*)\}")


def code_lines(text):
    """The lines of a text without comments and blank ones."""
    return [line for line in text.split("\n") if line.strip() and not re.match(r"\s*(--|//)", line)]


def blocks(path):
    """The definitions of a file of specs as their name and their lines; those of a section begin further to the right."""
    for block in re.split(r"\n\s*\n", path.read_text()):
        lines = code_lines(block)
        while lines and re.match(r"\s*module _|\s+\(.*where$", lines[0]):
            lines = lines[1:]
        if lines and STARTS.match(lines[0].strip()):
            yield HEAD.match(lines[0].strip())[1], lines


def definitions():
    """The lines of each definition by its crate and its name, and its file."""
    return {(crate, name): (path.stem, lines) for crate in crates
            for path in sorted((top / "crates" / crate / "specs").glob("*.antt")) for name, lines in blocks(path)}


def imported(path, crate, passed):
    """What a file imports from the faces of other crates: what each name means there."""
    lists = IMPORT.findall(path.read_text() if path.exists() else "")
    return {name: passed[other][name] for other, listed in lists if other != crate
            for name in listed.split(", ") if name in passed.get(other, {})}


def meanings(known):
    """What each name in each file of specs means, as a crate and a name: a definition of its crate, or what it imports."""
    passed, found = {}, {}
    for crate in stands_on():
        specs = top / "crates" / crate / "specs"
        own = {name: (home, name) for home, name in known if home == crate}
        passed[crate] = own | imported(specs / "Lib.antt", crate, passed)
        for path in specs.glob("*.antt"):
            found[crate, path.stem] = own | imported(path, crate, passed)
    return found


def for_report(name, lines):
    """The lines of a definition that speak of the command `report`."""
    before = r"(?:.*\((?:command\.)?)?" if "CommandWord →" in lines[0] else r".*\((?:command\.)?"
    others = re.compile(rf"\s*{re.escape(name)} {before}(?:Weigh|Format|Audit|Watch|Make|Demo)\b")
    kept, skips = [], False
    for line in lines:
        if line.strip().startswith(name + " "):
            skips = bool(others.match(line))
        if not skips:
            kept.append(line)
    return kept


def width(lines):
    """How many lines of at most 120 characters these are."""
    return sum(-(-len(line) // WIDEST_LINE) for line in lines)


def reached(known, start):
    """The definitions reached from one, in the order in which they are: the file and the lines of each."""
    meaning, seen, open_names = meanings(known), {}, [start]
    while open_names:
        crate, name = open_names.pop(0)
        if (crate, name) not in seen:
            file, lines = known[crate, name]
            seen[crate, name] = (file, for_report(name, lines))
            words = [word for line in seen[crate, name][1] for word in WORD.findall(line)]
            open_names += [meaning[crate, file][word] for word in words if word in meaning[crate, file]]
    return seen


def function(path, name):
    """The lines of a public function up to its body."""
    text = path.read_text()
    start = text.index(f"pub fn {name}<")
    return code_lines(text[start:text.index("\n{", start)])


def parameters_of_definition(lines):
    """How many parameters a definition takes, implicit ones left out."""
    head = []
    for line in lines:
        head.append(line.strip())
        if re.search(r"(where|=)$", line) or re.search(r": Type 0$", line) or (" = " in line):
            break
    text = " ".join(head)
    if text.startswith(("abbrev", "unfoldable")) and len(lines) > 1:
        name = HEAD.match(text)[1]
        equation = next((line for line in lines[1:] if line.strip().startswith(name)), "")
        body = " ".join(part.strip() for part in lines[lines.index(equation):]) if equation else ""
        return len(arguments(body.split(" =")[0][len(name):])) if equation else 0
    named = re.sub(r"\{[^{}]*\}", "", text.split(" where")[0])
    return sum(len(group.split(":")[0].split()) for group in re.findall(r"\(([^()]*(?:\([^()]*\)[^()]*)*)\)", named) if ":" in group)


def arguments(text):
    found, depth, word = [], 0, ""
    for char in text.strip() + " ":
        depth += (char in "({") - (char in ")}")
        if char == " " and not depth:
            found += [word] if word and not word.startswith("{") else []
            word = ""
        else:
            word += char
    return found


def parameters_of_functions():
    for crate in crates:
        for path in sorted((top / "crates" / crate / "src").glob("**/*.rt")):
            text = re.sub(r"//.*", "", path.read_text())
            for match in re.finditer(r"\bfn (\w+)(?:<[^{;]*?>)?\(", text):
                depth, place = 1, match.end()
                while depth:
                    depth += {"(": 1, ")": -1}.get(text[place], 0)
                    place += 1
                inside = re.sub(r"<[^<>]*>", "", re.sub(r"<[^<>]*>", "", text[match.end():place - 1]))
                yield crate, match[1], len([part for part in inside.split(",") if part.strip()])


def stands_on():
    found = {}
    for line in (top / "crates.txt").read_text().split("\n"):
        if row := re.match(r"(\w+)[^:#]*:(.*)", line):
            found[row[1]] = [name for name in row[2].split() if name in crates]
    return found


def under(graph, crate):
    below = set()
    for name in graph[crate]:
        below |= {name} | under(graph, name)
    return below


def longest_chain(graph, seconds):
    length, chain = {}, {}
    for crate in graph:
        before = max(graph[crate], key=lambda name: length.get(name, 0), default=None)
        length[crate] = seconds.get(crate, 0) + (length[before] if before else 0)
        chain[crate] = (chain[before] if before else []) + [crate]
    last = max(length, key=length.get)
    return length[last], chain[last]


def sizes():
    for crate in crates:
        place = top / "crates" / crate
        source = sum(len(code_lines(path.read_text())) for path in place.glob("src/**/*.rt") if path.name != "tests.rt")
        proofs = sum(len(code_lines(path.read_text())) for path in place.glob("proofs/**/*.antt"))
        yield crate, source, proofs


def main():
    known = definitions()
    run = function(top / "crates/hhh_engine/src/top_call.rt", "run")
    record = known["hhh_engine", "RunEnds"][1]
    print(f"run: {len(run)} lines with its signature; RunEnds: {len(record)} lines, "
          f"{sum(len(line.strip()) for line in record)} characters")
    found = reached(known, ("hhh_engine", "WritesText"))
    print(f"done of report reaches {len(found)} definitions, {sum(width(lines) for _, lines in found.values())} lines of "
          f"{len({(crate, file) for (crate, _), (file, _) in found.items()})} files in {len({crate for crate, _ in found})} crates")
    if "reached" in sys.argv[1:]:
        for (crate, name), (file, lines) in found.items():
            print(f"  {crate}/{file}: {name} {width(lines)}")
    largest = sorted(sizes(), key=lambda row: -row[2])
    of_program, of_tests = (max((source, crate) for crate, source, _ in largest if crate.endswith("_tests") == tests)[::-1]
                            for tests in (False, True))
    print("largest source: %s %d lines; of tests alone: %s %d" % (*of_program, *of_tests))
    print("largest proofs: %s %d lines" % (largest[0][0], largest[0][2]))
    functions = [row for row in parameters_of_functions() if row[2] > MANY_PARAMETERS]
    print(f"functions above {MANY_PARAMETERS} parameters: {len(functions)}: " + ", ".join(f"{name} {count}" for _, name, count in functions))
    many = [(name, count) for (_, name), (_, lines) in known.items() if (count := parameters_of_definition(lines)) > MANY_PARAMETERS]
    print(f"definitions above {MANY_PARAMETERS} parameters: {len(many)}: " + ", ".join(f"{name} {count}" for name, count in sorted(many, key=lambda row: -row[1])))
    names = [name for _, name in known]
    long = [name for name in names if len(name) > LONG_NAME]
    print(f"definitions: {len(names)}, mean name {sum(map(len, names)) / len(names):.1f} characters, {len(long)} above {LONG_NAME}: " + ", ".join(long))
    graph = stands_on()
    below = sorted(under(graph, "exact_audit"))
    print(f"crates under exact_audit: {len(below)}: {' '.join(below)}")
    files = [(path.stem, crate) for crate in crates for path in (top / "crates" / crate / "specs").glob("*.antt") if path.stem != "Lib"]
    sources = {crate: " ".join(path.read_text() + " " + path.stem.title().replace("_", "")
                               for path in (top / "crates" / crate / "src").glob("**/*.rt")) for crate in crates}
    modules = {crate: {path.stem.replace("_", "").lower() for path in (top / "crates" / crate / "src").glob("**/*.rt")} for crate in crates}
    named = [stem for stem, crate in files if stem.lower() in modules[crate]
             or re.search(r"\b(?:struct|enum|trait) %s\b" % stem, sources[crate])]
    print(f"files of specs named for a module or a type: {len(named)} of {len(files)}, {100 * len(named) / len(files):.0f} %")
    seconds = {}
    log = top / "crates/hhh/out/logs/seconds"
    for line in (log if log.exists() else top / "build/seconds").read_text().splitlines():
        crate, clock, used, _ = line.split()
        seconds[crate] = float(clock)
    length, chain = longest_chain(graph, seconds)
    print(f"longest chain of a first start: {length:.0f} seconds: {' '.join(chain)}")


if __name__ == "__main__":
    main()
