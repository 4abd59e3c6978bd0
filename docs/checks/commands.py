"""Whether the manual page and OPERATORS.md have the commands and options of `command_words` and of `site_merge`."""

import re

from checks.repository import TOP, check, faults


def forms():
    """What each command takes: its positionals, its options, and those of them that are required."""
    text = (TOP / "crates" / "command_words" / "specs" / "FormNames.antt").read_text()
    words = dict(re.findall(r'word_of (\w+) = codes "(\w+)"', text))
    known = {
        words[variant]: {field: re.findall(r'"(\w+)"', items) for field, items in re.findall(r"(\w+) =([^;]*)", fields)}
        for variant, fields in re.findall(r"form_of (\w+) = record \{(.*?)\}", text, re.DOTALL)
    }
    text = (TOP / "crates" / "site_merge" / "specs" / "SiteWords.antt").read_text()
    options = re.findall(r'"(\w+)"', re.search(r"(?m)^site_options = (.*)$", text)[1])
    known["sites"] = {"positionals": ["store", "..."], "options": options, "required": []}
    return known


def options_in(text):
    """The options that a text names, a manual page by its macro or in an example."""
    return set(re.findall(r"(?:Fl -|\\-\\-|--)(\w+)", text))


def check_manual(known):
    """The manual page shows what each command takes, explains each command, each option and each line on standard error,
    and names no other commands or options."""
    text = (TOP / "hhh.1").read_text()
    version = re.search(r"(?m)^\.Os \w+ (\S+)$", text)
    check(not version or version[1] == (TOP / "VERSION").read_text().strip(), "the line .Os of hhh.1 has another version than VERSION")
    sections = dict(re.findall(r"(?m)^\.Sh (.+)\n((?:(?!\.Sh).*\n?)*)", text))
    shown = {}
    for part in sections["SYNOPSIS"].split(".Nm\n")[1:]:
        command = re.match(r"\.Cm (\w+)", part)[1]
        positionals = " ".join(re.findall(r"(?m)^\.Ar (.*)$", part)).split()
        required = set(re.findall(r"(?m)^\.Fl -(\w+)", part))
        shown[command] = {"positionals": positionals, "options": options_in(part), "required": required}
    for command, form in known.items():
        wanted = {**form, "options": set(form["options"]), "required": set(form["required"])}
        check(shown.get(command) == wanted, f"the synopsis of hhh.1 doesn't show what the command {command} takes")
    explained = set(re.findall(r"(?m)^\.It Cm (\w+)", sections["COMMANDS"]))
    check_same("hhh.1", "command ", explained | set(shown), set(known), explained)
    explained = set(re.findall(r"(?m)^\.It Fl -(\w+)", sections["OPTIONS"]))
    check_same("hhh.1", "option --", options_in(text), all_options(known), explained)
    for specs in (TOP / "crates" / "run_status" / "specs" / "Status.antt", TOP / "crates" / "site_merge" / "specs" / "SiteStatus.antt"):
        for line in re.findall(r"(?m)^(?:words|fault|session|status)_text .*", specs.read_text()):
            for part in re.findall(r'"([^"]+)"', line):
                check(part == "done" or part.strip() in sections["DIAGNOSTICS"], f"DIAGNOSTICS of hhh.1 doesn't explain: {part}")


def check_operators(known):
    """A command line of OPERATORS.md has options of its command alone, and the text names none that isn't there."""
    # Rows of refused arguments show what isn't taken.
    text = re.sub(r"(?m)^\|.*`hhh: bad words: .*\n", "", (TOP / "docs" / "OPERATORS.md").read_text())
    code = " ".join(re.findall(r"(?s)```.*?```|`[^`]+`", text))
    for command, rest in sorted(set(re.findall(r"hhh (\w+)((?: [^|;&`\n]+)?)", code))):
        taken = set(known[command]["options"]) if command in known else all_options(known)
        check(options_in(rest) <= taken, f"OPERATORS.md gives {command} an option that it doesn't take:{rest}")
    check_same("OPERATORS.md", "command ", set(re.findall(r"hhh (\w+)", code)), set(known))
    check_same("OPERATORS.md", "option --", set(re.findall(r"`--(\w+)", text)), all_options(known))


def all_options(known):
    return {option for form in known.values() for option in form["options"]}


def check_same(document, kind, named, known, explained=None):
    """A document names only commands or options that exist and, if it is to explain them, explains all of these."""
    for name in sorted(named - known):
        faults.append(f"{document} names the {kind}{name}, and there is none")
    for name in sorted(known - (known if explained is None else explained)):
        faults.append(f"{document} doesn't explain the {kind}{name}")


def check_commands():
    known = forms()
    check_manual(known)
    check_operators(known)
