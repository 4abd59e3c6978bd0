"""The pages themselves: their lengths, the widths of their rows, and the parts that are written from the code."""

import re
import textwrap

from checks.promises import crate_page, promises
from checks.repository import ALL_DEFINITIONS, ALL_WRONG_BODIES, CRATES, EDIT_FOLDERS, TOP, check, crates_below, edits, names, page_text, stands_on

# The most lines that a page may have, and the most characters of a row of a table and of any line.
MOST_LINES = {
    "README.md": 200,
    "docs/GUARANTEES.md": 400,
    "docs/MEMORY.md": 120,
    "docs/PROMISES.md": 300,
    **{crate_page(crate): 80 for crate in CRATES},
}
WIDEST_ROW = 200
LONGEST_LINE = 300

# A part that is written from the code stands between these two lines.
PART = re.compile(r"(?ms)^(<!-- (\w+), written by docs/check.py -->\n)(.*?)(^<!-- end of \2 -->)")


def pages():
    paths = [*TOP.glob("*.md"), *(TOP / "docs").glob("*.md"), *(TOP / "crates").glob("*/README.md")]
    return sorted(str(path.relative_to(TOP)) for path in paths)


def filled(text):
    return textwrap.fill(text, 120, break_long_words=False, break_on_hyphens=False) + "\n"


def listed(items):
    return ", ".join(f"`{item}`" for item in items)


def title(crate):
    """What a crate is, from the first line of its page."""
    first = page_text(crate_page(crate)).split("\n")[0]
    check(first.startswith(f"# `{crate}`: "), f"{crate_page(crate)} doesn't begin with a title as '# `{crate}`: what it is'")
    return first.partition(": ")[2]


def is_of_tests(crate):
    return not (TOP / "crates" / crate / "specs").exists()


def facts(crate):
    """What a crate stands on, where its definitions are, and how many wrong bodies it has."""
    lower = stands_on().get(crate, [])
    sentences = [f"Stands on {listed(lower)}." if lower else "Stands on no other crate."]
    if files := sorted(set(ALL_DEFINITIONS[crate].values())):
        sentences.append(f"Definitions, in `specs/`: {listed(files)}.")
    if ALL_WRONG_BODIES[crate]:
        counts = [f"{len(edits(crate, folder))} in `{folder}/`" for folder in EDIT_FOLDERS if edits(crate, folder)]
        sentences.append(f"Wrong bodies: {', '.join(counts)}.")
    return filled(" ".join(sentences))


def crate_rows():
    """A row for each crate, and the crates of tests."""
    rows = ["| Crate | What it is | Promises | Wrong bodies |", "|---|---|---|---|"]
    tests = []
    for crate in stands_on():
        if is_of_tests(crate):
            tests.append(f"`{crate}`")
        else:
            link = f"[`{crate}`](../{crate_page(crate)})"
            count = len(promises(page_text(crate_page(crate))))
            rows.append(f"| {link} | {title(crate)} | {count} | {len(ALL_WRONG_BODIES[crate])} |")
    return "\n".join(rows) + "\n\n" + filled(f"Crates of tests alone, with a page each too: {', '.join(tests)}.")


def floors():
    """The crates of the program by floors: each stands on crates of lower floors alone, and on one of the next."""
    floor_of = {}
    for crate, lower in stands_on().items():
        floor_of[crate] = 1 + max((floor_of[one] for one in lower if one in floor_of), default=-1)
    program = crates_below("hhh")
    rows = [sorted(crate for crate in program if floor_of[crate] == floor) for floor in range(floor_of["hhh"] + 1)]
    return "```\n" + "".join(f"{floor}  {'  '.join(row)}\n" for floor, row in reversed(list(enumerate(rows)))) + "```\n"


def written(page, text):
    """A page with its written parts as the code has them."""
    crate = page.split("/")[1] if page.startswith("crates/") else ""
    parts = {"facts": lambda: facts(crate), "crates": crate_rows, "floors": floors}
    return PART.sub(lambda part: part[1] + parts[part[2]]() + part[4], text)


def check_written(may_write):
    for page in pages():
        text = page_text(page)
        fresh = written(page, text)
        if may_write and fresh != text:
            (TOP / page).write_text(fresh)
        else:
            check(fresh == text, f"a part of {page} is stale: docs/check.py --write writes it")
    for crate in CRATES:
        has_facts = "facts" in {part[1] for part in PART.findall(page_text(crate_page(crate)))}
        check(has_facts, f"{crate_page(crate)} is missing, or has no part 'facts' that is written by docs/check.py")
        check(crate in stands_on(), f"{crate} has no line in crates.txt")


def check_sizes():
    for page in pages():
        lines = page_text(page).split("\n")
        most = MOST_LINES.get(page)
        check(most is None or len(lines) - 1 <= most, f"{page} has {len(lines) - 1} lines, more than {most}")
        for number, line in enumerate(lines, 1):
            limit = WIDEST_ROW if line.startswith("|") else LONGEST_LINE
            check(len(line) <= limit, f"{page}:{number} has {len(line)} characters, more than {limit}")


def check_links():
    """A link on a page leads to a file or a folder that is there."""
    for page in pages():
        for link in re.findall(r"\]\(([^)#:]+)(?:#[^)]*)?\)", page_text(page)):
            check((TOP / page).parent.joinpath(link).exists(), f"{page} has a link to {link}, and there is none")


def check_map():
    """The map has one row for each crate, and the README says how many crates the program has."""
    text = page_text("docs/ARCHITECTURE.md")
    table = re.search(r"(?s)\| Crate \|.*?\n\n", text)[0]
    mapped = [names(row)[0] for row in table.split("\n")[2:] if row]
    for crate in sorted({*CRATES, *mapped}):
        rows = mapped.count(crate)
        check(rows == (crate in CRATES), f"the map in ARCHITECTURE.md has {rows} rows for {crate}")
    count = len(crates_below("hhh"))
    for number in re.findall(r"(\d+) crates", page_text("README.md")):
        check(int(number) == count, f"README.md speaks of {number} crates, and the program has {count}")


def check_pages(may_write):
    check_written(may_write)
    check_sizes()
    check_links()
    check_map()
