#!/usr/bin/env python3
"""Runs the command lines of documents, and compares what they write with what the documents show.

usage: run_examples.py [--program FILE] [DOCUMENT ..]    README.md and docs/OPERATORS.md by default; `hhh` and `./hhh`
                                                         are FILE, by default the launcher

A command line is one after `$ ` in a fenced block, and goes on after a `\\`. It is run by bash in a folder that has links
to what is at the top of the repository, so a file without a folder is made there. The lines below it, up to the next
prompt or the end of the block, are what it writes to standard output, and then the lines on standard error that begin
with `hhh`; `...` stands for any lines. Of a run with rounds the numbers aren't compared, since they differ from run to
run. A command line has to end with 0, unless a line that begins with `hhh: ` is shown.

In a table, a row | `hhh ARGUMENTS` | `hhh: LINE`, STATUS | is run on no input, and so is each further `hhh ARGUMENTS` of
its first cell, or `--option value`, which follows the command before it; what comes after the word 'where' is not.

Not run are lines after `# `, which need root, those that need a network, those that prove or build, and those of which a
program or an input is missing. They are listed with the reason. Ends with 1 where a line writes something else, or ends
otherwise.
"""

import argparse
import os
import re
import shutil
import subprocess
import sys
import tempfile
from pathlib import Path

top = Path(__file__).resolve().parent.parent
MINUTES = 10
PROGRAMS = ("tcpdump", "tshark", "editcap", "mergecap", "capinfos", "nfdump", "nfpcapd", "zcat", "flock", "man")
# What begins the name of an input.
INPUT = re.compile(r"(?:--capture[ =]|--report[ =]|(?<![<\d])<(?![<(])|(?:tcpdump|tshark|editcap|nfdump|nfpcapd) -r |mergecap -F pcap -w - |zcat |^cp )\s*['\"]?([^\s|;&)'\"]+)")
ROUNDS = re.compile(r"--rounds [1-9]")


def blocks(text):
    """The lines of each fenced block."""
    return [block.split("\n") for block in re.findall(r"(?ms)^```[a-z]*\n(.*?)^```", text)]


def examples(text):
    """Each command line of the fenced blocks as its prompt, itself and the lines that are shown below it."""
    for lines in blocks(text):
        found = []
        for line in lines[:-1]:
            if found and found[-1][1].endswith("\\") and not found[-1][2]:
                found[-1][1] += "\n" + line
            elif line[:2] in ("$ ", "# "):
                found.append([line[0], line[2:], []])
            elif found:
                found[-1][2].append(line)
        yield from found


def refusals(text):
    """Each command line of the tables of errors as the arguments, the line on standard error and the status."""
    for row in re.findall(r"(?m)^\|(.*)\|$", text):
        cells = [cell.replace("\\|", "|") for cell in re.split(r"(?<!\\)\|", row)]
        fault = re.search(r"`(hhh: [^`]*)`, (\d+)", cells[1]) if len(cells) > 1 else None
        command = None
        for words in re.findall(r"`([^`]*)`", cells[0].split(" where ")[0]) if fault else []:
            if words.split()[0] in ("hhh", "./hhh"):
                command = words.split()[1:]
            elif words.startswith("-") and command:
                command = [command[0], *words.split()]
            else:
                continue
            yield command, fault[1], int(fault[2])


def reason_against(prompt, command, folder):
    """Why a command line can't be run here, if it can't."""
    if prompt == "#":
        return "needs root"
    if "apt-get" in command or re.search(r"tcpdump [^|]*-i ", command):
        return "needs a network"
    if re.search(r"\.ci/|\brt |package/", command):
        return "proves or builds"
    for program in PROGRAMS:
        if re.search(rf"(?:^|[|;&(]\s*){program} ", command) and not shutil.which(program):
            return f"needs {program}"
    for name in INPUT.findall(command):
        is_made = re.search(rf">\s*{re.escape(name)}(?:\s|;|$)", command.split(name)[0] + name) or "*" in name and "&&" in command
        if not is_made and not name.startswith("$") and not list(folder.glob(name) if name[0] != "/" else Path("/").glob(name[1:])):
            return f"needs {name}"
    return None


def fits(command, shown, written):
    """Whether what was written is what is shown."""
    numbers = (lambda line: re.sub(r"\d+", "0", line)) if ROUNDS.search(command) else (lambda line: line)
    pattern = "".join(r"(?:.*\n)*" if line == "..." else re.escape(numbers(line.rstrip())) + "\n" for line in shown)
    return re.fullmatch(pattern, "".join(numbers(line.rstrip()) + "\n" for line in written))


class Runner:
    def __init__(self, program, scratch):
        self.folder, self.before, self.scratch = scratch / "top", scratch / "top", scratch
        self.good, self.bad, self.not_run = 0, 0, []
        self.folder.mkdir()
        (scratch / "bin").mkdir()
        for path in top.iterdir():
            if path.name != "hhh":
                (self.folder / path.name).symlink_to(path)
        for place in (self.folder, scratch / "bin"):
            (place / "hhh").symlink_to(program)
        for tool in (top / "tools").glob("hhh-*"):
            (scratch / "bin" / tool.name).symlink_to(tool)

    def shell(self, command):
        """What a command line writes, and its status. Keeps the folder that it ends in."""
        place = self.scratch / "place"
        path = f"{self.scratch / 'bin'}:{os.environ['PATH']}"
        ran = subprocess.run(
            ["bash", "-c", f"{command}\nstatus=$?; pwd >{place}; exit $status"],
            cwd=self.folder, env={**os.environ, "PATH": path, "OLDPWD": str(self.before)}, stdin=subprocess.DEVNULL,
            capture_output=True, text=True, errors="replace", timeout=60 * MINUTES,
        )  # fmt: skip
        faults = [line for line in ran.stderr.split("\n") if line.startswith("hhh")]
        folder = Path(place.read_text().strip())
        if folder != self.folder:
            self.folder, self.before = folder, self.folder
        return ran.stdout.split("\n")[:-1] + faults, ran.returncode

    def example(self, prompt, command, shown):
        if reason := reason_against(prompt, command, self.folder):
            self.not_run.append(f"{command}: {reason}")
            return
        written, status = self.shell(command)
        is_fault = any(line.startswith("hhh: ") for line in shown)
        good = (not shown or fits(command, shown, written)) and (status == 0 or is_fault)
        self.tell(good, command, "\n".join(["shown:", *shown, f"written, status {status}:", *written]))

    def refusal(self, words, line, status):
        command = [self.scratch / "bin/hhh", *words]
        ran = subprocess.run(command, stdin=subprocess.DEVNULL, capture_output=True, text=True, cwd=self.folder)
        self.tell((ran.stderr, ran.returncode) == (line + "\n", status), " ".join(["hhh", *words]), f"shown: {line}, {status}\n{ran}")

    def tell(self, good, command, difference):
        self.good, self.bad = self.good + bool(good), self.bad + (not good)
        if not good:
            print(f"--- {command}\n{difference}")


def main():
    parser = argparse.ArgumentParser(description=__doc__, formatter_class=argparse.RawDescriptionHelpFormatter)
    parser.add_argument("--program", type=Path, default=top / "hhh")
    parser.add_argument("documents", nargs="*", type=Path, default=[top / "README.md", top / "docs/OPERATORS.md"])
    arguments = parser.parse_args()
    with tempfile.TemporaryDirectory() as scratch:
        runner = Runner(arguments.program.resolve(), Path(scratch))
        for text in [path.read_text() for path in arguments.documents]:
            for example in examples(text):
                runner.example(*example)
            for refusal in refusals(text):
                runner.refusal(*refusal)
    for line in runner.not_run:
        print(f"not run: {line}")
    print(f"{runner.good} command lines write what is shown, {runner.bad} don't, {len(runner.not_run)} weren't run")
    sys.exit(1 if runner.bad else 0)


main()
