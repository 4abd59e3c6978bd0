"""Whether pages name clauses, wrong bodies and definitions that exist, and whether each wrong body has a promise."""

import re

from checks.repository import ALL_CLAUSES, ALL_DEFINITIONS, ALL_WRONG_BODIES, CRATES, TOP, check, faults, fields, names, page_text, source_files

# The page of the whole program, whose promises may name clauses and wrong bodies of any crate.
PROGRAM_PAGE = "docs/GUARANTEES.md"

# The page whose tables have a sentence a row, with the clause that carries it and the definition that says it.
SENTENCE_PAGE = "docs/PROMISES.md"

# The page whose table says, call by call, what stands where memory ran out; and what it says in place of clauses.
MEMORY_PAGE = "docs/MEMORY.md"
NOTHING_LENT = "takes nothing by `&mut`"


def crate_page(crate):
    return f"crates/{crate}/README.md"


def promises(text):
    """Each promise of a page as its parts by their names; a promise is an item of a list with a part `Clauses`."""
    items, name = [], None
    for line in text.split("\n"):
        if part := re.match(r"  - (Clauses|Wrong bodies): (.*)", line):
            name = part[1]
            items[-1][name] = part[2]
        elif line.startswith("- "):
            name = "Promise"
            items.append({name: line[2:]})
        elif line.startswith("  ") and items:
            items[-1][name] += " " + line.strip()
        elif line:
            name = ""
            items.append({name: ""})
    return [parts for parts in items if "Clauses" in parts]


def elsewhere(name, known):
    """Which crates have a name that a page looks for in vain."""
    others = [crate for crate in CRATES if name in known[crate]]
    return f"; {' and '.join(others)} has it" if others else ""


def check_clauses(page, homes, text):
    """A text as `f`, `g`: `a`, `b`; `h`, where `a` and `b` are clauses of `f` or of `g`, functions of these crates."""
    for part in text.split(";"):
        before, _, after = part.partition("`: ")
        functions = re.findall(r"`([\w:]+)", before)
        for function in functions:
            is_there = any(function in ALL_CLAUSES[crate] for crate in homes)
            check(is_there, f"{page} names the function {function}, and there is none{elsewhere(function, ALL_CLAUSES)}")
        for clause in names(after):
            is_there = any(clause in ALL_CLAUSES[crate].get(function, ()) for crate in homes for function in functions)
            check(is_there, f"{page} names the clause {clause} on {functions}, and there is none")


def check_page(page, homes):
    """Checks the promises of a page, and returns the wrong bodies that they name."""
    named = set()
    for parts in promises(page_text(page)):
        check_clauses(page, homes, parts["Clauses"])
        for name in names(parts.get("Wrong bodies", "")):
            named.add(name)
            is_there = any(name in ALL_WRONG_BODIES[crate] for crate in homes)
            check(is_there, f"{page} names the wrong body {name}, and there is none{elsewhere(name, ALL_WRONG_BODIES)}")
    return named


def check_places(page):
    """A place on a page is a file, as in `specs/File`, `crate/specs/File` or `specs/File` of `crate`; and as in `name` in
    `crate/specs/File`, or in a row | `name` | `crate`, `specs/File` |, that file has the definition."""
    text = " ".join(page_text(page).split())
    for before, file, after in re.findall(r"`(?:(\w+)/)?specs/(\w+)`(?:(?: and `specs/\w+`)? of `(\w+)`)?", text):
        homes = [crate for crate in (before, after) if crate] or CRATES
        is_there = any((TOP / "crates" / crate / "specs" / f"{file}.antt").exists() for crate in homes)
        check(is_there, f"{page} names specs/{file} of {' or '.join(homes[:2])}, and there is none")
    places = re.findall(r"`(\w+)` in `(\w+)/specs/(\w+)`", text) + re.findall(r"\| `(\S+)` \| `(\w+)`, `specs/(\w+)` \|", text)
    if own := re.match(r"crates/(\w+)/", page):
        places += [(name, own[1], file) for name, file in re.findall(r"`(\w+)` in `specs/(\w+)`", text)]
    for definition, crate, file in places:
        found = ALL_DEFINITIONS.get(crate, {}).get(definition, "")
        check(found == file, f"{page}: {definition} isn't in specs/{file} of {crate}")


def is_lent_to(crate, call):
    """Whether a function of a crate with the name of this call takes something by `&mut`."""
    head = rf"(?s)\bfn {call.split('::')[-1]}\b[^{{]*?\n\s*(?:requires|ensures)"
    heads = [found for path in source_files(crate) for found in re.findall(head, path.read_text())]
    return any(re.search(r"&(?:'\w+ )?mut\b", found) for found in heads)


def memory_rows():
    """Each call of the table in MEMORY.md, with its crate, which the last row before it that has a crate alone names, and
    what its row says of clauses."""
    crate = ""
    for row in re.findall(r"(?m)^\|(.*)\|$", page_text(MEMORY_PAGE)):
        calls, _, clauses = (cell.strip() for cell in row.split("|"))
        if calls.startswith("**"):
            crate = names(calls)[0]
        else:
            yield from ((crate, call, clauses) for call in names(calls))


def check_memory():
    """A clause in the table of MEMORY.md is on the call of its row, or is what a type defines, as `LiveRounds::does`."""
    for crate, call, clauses in memory_rows():
        known = ALL_CLAUSES.get(crate, {})
        check(call in known, f"{MEMORY_PAGE} names the call {call} of {crate}, and there is none")
        if clauses == NOTHING_LENT:
            check(not is_lent_to(crate, call), f"{MEMORY_PAGE}: {call} of {crate} takes something by `&mut`")
        else:
            check(names(clauses), f"{MEMORY_PAGE} names no clause of {call}")
            for clause in names(clauses):
                is_there = clause in known.get(call, ()) or ("::" in clause and clause in known)
                check(is_there, f"{MEMORY_PAGE} names the clause {clause} on {call} of {crate}, and there is none")


def check_sentences():
    """A row of PROMISES.md | sentence | `crate` | `f`: `a` | `Record.field` | has a clause of its crate, as in
    `check_clauses`, and a definition of any crate, or a field of one."""
    defined = {name for crate in CRATES for name in ALL_DEFINITIONS[crate]}
    parts = {f"{record}.{field}" for crate in CRATES for record, found in fields(crate).items() for field in found}
    for row in re.findall(r"(?m)^\| (.*) \|$", page_text(SENTENCE_PAGE)):
        cells = [cell.strip() for cell in row.split("|")]
        check(len(cells) == 4, f"{SENTENCE_PAGE} has a row of {len(cells)} cells: {row}")
        sentence, crate, clauses, said = (cells + [""] * 4)[:4]
        if crate == "Crate" or sentence.startswith("---"):
            continue
        homes = [name for name in names(crate) if name in CRATES]
        check(homes, f"{SENTENCE_PAGE} names the crate {crate}, and there is none")
        check(names(clauses), f"{SENTENCE_PAGE} names no clause for: {sentence}")
        check_clauses(SENTENCE_PAGE, homes, clauses)
        for name in names(said):
            check(name in defined | parts, f"{SENTENCE_PAGE} names the definition {name}, and there is none")


def check_names(page, known):
    """A name in the form of the code's, `two_words` or `TwoWords`, occurs in the crates."""
    text = page_text(page)
    for name in sorted(set(re.findall(r"`(?:\w+::)?([a-z]\w*_\w+|[A-Z]\w*[a-z][A-Z]\w*)`", text)) - known):
        faults.append(f"{page} names {name}, which occurs in no crate")


def check_promises(pages):
    check_memory()
    check_sentences()
    by_program = check_page(PROGRAM_PAGE, CRATES)
    for crate in CRATES:
        named = by_program | check_page(crate_page(crate), [crate])
        for name in sorted(ALL_WRONG_BODIES[crate] - named):
            faults.append(f"no page names the wrong body {name} of {crate}")
    texts = [path.read_text() for crate in CRATES for path in source_files(crate)]
    known = {word for text in [*texts, (TOP / "crates.txt").read_text()] for word in re.findall(r"\w+", text)}
    known |= {name for crate in CRATES for name in {crate, *ALL_WRONG_BODIES[crate]}}
    for page in pages:
        check_places(page)
        if page != "docs/DECISIONS.md":  # It also speaks of names of the toolchain, and of forms that aren't there.
            check_names(page, known)
