#!/bin/sh
# Proves and builds the program in `bench/NAME_program` in a copy of the repository in FOLDER, and prints the program's
# path: build_program.sh FOLDER NAME ARGUMENT... The arguments are those of a first run, which should do nothing long.
#
# The program's folder has the files of a crate, each with the ending `.txt`, and in `stands_on` what its line in
# crates.txt names.
set -eu
here=$(dirname "$(readlink -f "$0")")
work=$1
name=$2
shift 2

text=$here/${name}_program
crate=$work/repository/crates/${name}_bench
mkdir "$work/repository"
cp -r "$here/../crates" "$here/../crates.txt" "$here/../HANDLES" "$work/repository"
(cd "$text" && find src proofs -name '*.txt') | while read -r file; do
    case $file in
        src/*) ending=rt ;;
        *) ending=antt ;;
    esac
    mkdir -p "$crate/$(dirname "$file")"
    cp "$text/$file" "$crate/${file%.txt}.$ending"
done
echo "${name}_bench: $(cat "$text/stands_on")" >>"$work/repository/crates.txt"
(cd "$crate" && rt run -- "$@" >"$work/log" 2>&1) || {
    tail -n 20 "$work/log" >&2
    exit 1
}
echo "$crate/out/${name}_bench"
