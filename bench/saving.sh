#!/bin/sh
# Measures what a save costs: saves of a cut whose tables are full into a file, at the defaults and at the greatest
# capacity, beside a plain write and sync of as many bytes. The program for this (`bench/save_program`) is no part of the
# product, so it is proved and built in a copy of the repository. It is run as
#
#     save_bench none|plain|save FILE SHARDS CAPACITY TIMES
#
# `none` only makes the cut, and its time is taken from the others'. A save makes the body, writes it, and syncs three
# times. Prints the least time by the clock and the least processor time of a save and of a plain write, in
# milliseconds, over files in FOLDER (/var/tmp unless given). Needs python3 and 5 GB for the copy.
set -eu
here=$(dirname "$(readlink -f "$0")")
turns=${1:-7}
folder=${2:-/var/tmp}
work=$(mktemp -d)
files=$(mktemp -d -p "$folder")
trap 'rm -rf "$work" "$files"' EXIT
program=$("$here/build_program.sh" "$work" save none "$files/first" 1 2 0)

for sizes in "4 512 50" "16 4096 5"; do
    for mode in none plain save; do
        echo "$program $mode $files/$mode $sizes"
    done >"$work/commands"
    python3 "$here/least_times.py" "$turns" wall <"$work/commands" >"$work/times"
    bytes=$(stat -c %s "$files/plain")
    echo "$sizes $bytes" | cat - "$work/times" | awk '
        NR == 1 { shards = $1; capacity = $2; times = $3; bytes = $4 }
        NR == 2 { spent = $1; passed = $2 }
        NR == 3 { plain_spent = ($1 - spent) / times; plain = ($2 - passed) / times }
        NR == 4 {
            printf "%d shards of capacity %d, %d bytes: a save %.2f ms, %.2f of processors; a plain write %.2f ms, %.2f of processors\n",
                shards, capacity, bytes, ($2 - passed) / times, ($1 - spent) / times, plain, plain_spent
        }'
done
