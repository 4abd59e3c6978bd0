#!/usr/bin/env python3
"""Reports where the documents no longer fit the code, or are too long to be read, and which imports pass a face by.

usage: check.py            prints a line for each fault, and ends with 1 where there is one
       check.py --write    first writes the parts of pages that repeat the code

checks/promises.py: in the promises of GUARANTEES.md and of crates/NAME/README.md each clause is on the function that is
named before it, each wrong body in must-fail/ or more-wrong-bodies/ of its crate, and each wrong body in these on one
of the pages. In the table of MEMORY.md each clause is on its call, and a call that is said to take nothing by `&mut`
takes nothing so. In the tables of PROMISES.md each clause is of its crate, and the definition that says a sentence is there. A file of specs/ that a page names is there; where it names the definition before it, the file has
that one. Any other name in the form of the code's occurs in the crates.

checks/pages.py: README.md, GUARANTEES.md, MEMORY.md, PROMISES.md and the crates' pages are no longer than they may be, and no row of
a table is wider than it may be; links lead to files. The facts of a crate's page and the table of crates in GUARANTEES.md are
those of the code. The map in ARCHITECTURE.md has a row for each crate, and the README the number of the program's
crates.

checks/code.py: a file takes definitions of another crate from its face alone, `Rattle.NAME.specs.{..}`, and its lemmas
from three files, besides examples; so do the programs of bench/, which nothing else reads; and a face passes on nothing
that nobody takes
from it. A crate and its face have each name once; two crates may have the same name. The old text of a wrong body
stands once in its file, no wrong body is in both folders, and at most one of a crate is in must-fail/. What a file of
lemmas holds has in its name a word of the file's noun. No line of specs/, proofs/ or a contract is longer than 160
characters.

checks/commands.py: the manual page hhh.1 shows what each command takes as `command_words` has it, and explains each
command and option; if it has a version, it is that of VERSION. A command line in OPERATORS.md has options of its
command alone. Neither document names a command or an option that isn't there.
"""

import sys

from checks.code import check_code
from checks.commands import check_commands
from checks.pages import check_pages, pages
from checks.promises import check_promises
from checks.repository import faults

check_pages("--write" in sys.argv)
check_promises(pages())
check_commands()
check_code()
print("\n".join(faults) if faults else "each name fits")
sys.exit(1 if faults else 0)
