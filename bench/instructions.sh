#!/bin/sh
# Prints the instructions of one run, which don't depend on other work on the machine: instructions.sh PROGRAM WORD...
# Needs valgrind.
valgrind --tool=callgrind --callgrind-out-file=/dev/null "$@" 2>&1 >/dev/null | sed -n 's/.*Collected : //p'
