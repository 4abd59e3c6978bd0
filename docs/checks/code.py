"""How crates are laid out: imports and faces, names of files and lemmas, lengths of lines, edits of wrong bodies."""

import re

from checks.repository import CRATES, EDIT_FOLDERS, TOP, check, edits, faults, homes, page_text, source_files

# The longest line of definitions, proofs and contracts that is read in one go.
LONGEST_STATEMENT = 160

# Lemmas on lists and on places of nodes, which the standard library lacks.
SHARED_LEMMAS = {("prefix_lattice", name) for name in ("ListLemmas", "NodePlaceLemmas", "GrainLemmas")}


def passed_on(crate):
    """What a crate's face passes on; a crate of tests alone has none."""
    path = TOP / "crates" / crate / "specs" / "Lib.antt"
    lines = re.findall(r"(?m)^(?:unfoldable )?pub use Rattle\.\S+\.\{(.*)\}", path.read_text() if path.exists() else "")
    return {name.strip() for line in lines for name in line.split(",")}


def check_imports(crate):
    """A crate takes definitions of others from their faces, and no lemmas but the shared ones. Examples may go on from others."""
    for path in source_files(crate):
        for other, folder, module in re.findall(r"use Rattle\.(\w+)\.(specs|proofs)\.(\w+)\.", path.read_text()):
            is_shared = (other, module) in SHARED_LEMMAS or module.startswith("Examples")
            if other in CRATES and other != crate and module != "declared" and not is_shared:
                faults.append(f"{path.relative_to(TOP)} names the inner file {folder}/{module} of {other}")


def taken_from_faces():
    """What files outside a crate take from its face: those of other crates, and the programs of bench/."""
    paths = [path for crate in CRATES for path in source_files(crate)]
    taken = {crate: set() for crate in CRATES}
    for path in [*paths, *(TOP / "bench").glob("*_program/**/*.txt")]:
        own = path.relative_to(TOP).parts[1]
        for crate, names_taken in re.findall(r"use Rattle\.(\w+)\.specs\.\{([^}]*)\}", path.read_text()):
            if crate in CRATES and crate != own:
                taken[crate] |= {name.split(" as ")[0].strip() for name in names_taken.split(",")}
    return taken


def check_face(crate, taken):
    """A face passes on nothing that no other crate takes from it."""
    for name in sorted(passed_on(crate) - taken):
        faults.append(f"the face of {crate} passes on {name}, which no other crate takes")


def check_programs():
    """The programs of bench/ take only what the faces of crates pass on, their own or that of a crate below."""
    for path in sorted((TOP / "bench").glob("*_program/**/*.txt")):
        for crate, taken in re.findall(r"use Rattle\.(\w+)\.specs\.\{(.*)\}", path.read_text()):
            for name in taken.split(",") if crate in CRATES else ():
                is_passed = name.strip() in passed_on(crate)
                check(is_passed, f"{path.relative_to(TOP)} takes {name.strip()}, which the face of {crate} doesn't pass on")


def check_edits(crate):
    """The gate tries one wrong body, and none is in both folders. Each text that one replaces stands once in its file,
    once the pairs before it are applied."""
    tried, others = (edits(crate, folder) for folder in EDIT_FOLDERS)
    check(len(tried) <= 1, f"{crate} has {len(tried)} wrong bodies in must-fail/, more than the one that the gate tries")
    for name in sorted({path.stem for path in tried} & {path.stem for path in others}):
        faults.append(f"{crate} has the wrong body {name} in both folders")
    for path in tried + others:
        file, old, text = None, None, ""
        for line in path.read_text().splitlines():
            kind, _, rest = line.partition(": ")
            if kind == "file" and rest != file:
                file, text = rest, page_text(f"crates/{crate}/{rest}")
            elif kind == "old":
                old = rest
                check(text.count(old) == 1, f"{path.relative_to(TOP)}: its old text stands {text.count(old)} times in {file}: {old}")
            elif kind == "new":
                text = text.replace(old, rest)


def words(name):
    """The words of a name, each without the endings of a plural."""
    parts = re.findall(r"[A-Z]?[a-z]+", name)
    return {re.sub(r"(?<=...)ies$", "y", re.sub(r"(?<=...)(?<!s)(?:e|es|s)$", "", part.lower())) for part in parts}


def check_lemmas(crate):
    """A name leads to its file of lemmas: it shares a word with the file's noun."""
    for path in sorted((TOP / "crates" / crate / "proofs").glob("*Lemmas.antt")):
        noun = path.stem.removesuffix("Lemmas")
        for name in sorted(set(re.findall(r"(?m)^(?:(?:pub|abbrev|record|data|unfoldable) )*([A-Za-z]\S*) [:(]", path.read_text()))):
            check(words(name) & words(noun), f"{name} has no word of its file {path.relative_to(TOP)}")


def check_lines(crate):
    """Lines of definitions and proofs can be read in one go, and so can contracts: in src/ a text in quotes can't be
    broken, nor what the layout joins in an attribute."""
    for path in source_files(crate):
        for number, line in enumerate(path.read_text().split("\n"), 1):
            is_fixed = path.suffix == ".rt" and re.match(r'\s*(?:#\[|[^→]*"[^→]*$)', line) and "ensures" not in line
            check(len(line) <= LONGEST_STATEMENT or is_fixed, f"{path.relative_to(TOP)}:{number} has {len(line)} characters")


def check_homes(crate):
    """A crate and its face have each name once. Two crates may have the same name."""
    files = {}
    for name, file in homes(crate):
        check(name not in files, f"specs/{file} and specs/{files.get(name)} of {crate} both define {name}")
        files[name] = file
    face = page_text(f"crates/{crate}/specs/Lib.antt")
    for other, passed in re.findall(r"(?m)^pub use Rattle\.(\w+)\.specs\.\{(.*)\}", face):
        for name in (name.strip() for name in passed.split(",")):
            check(name not in files, f"the face of {crate} passes on {name} of {other}, and specs/{files.get(name)} defines that name")


def check_code():
    check_programs()
    taken = taken_from_faces()
    for crate in CRATES:
        check_imports(crate)
        check_face(crate, taken[crate])
        check_edits(crate)
        check_homes(crate)
        check_lemmas(crate)
        check_lines(crate)
