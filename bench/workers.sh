#!/bin/sh
# Measures what workers gain: folding 1,000,000 skewed records in blocks of 1,024 by `run_threads` with 1, 2 and 4
# workers over four shards, and where there are fewer shards than workers. The program for this (`bench/board_program`)
# is run as
#
#     board_bench none|plain|threads SHARDS RECORDS CAPACITY WORKERS [BITS]
#
# with RECORDS records in each shard. BITS is 8 unless it is given. `none` only makes records and tables, and its
# times are taken from the others'. `plain` folds without a board: four processes of it, with a shard each, show what
# the machine itself can gain. Prints the least time by the clock and the least processor time of each. Needs python3,
# a machine of four processors with little else to do, and 5 GB for the copy in which the program is proved and built.
set -eu
here=$(dirname "$(readlink -f "$0")")
turns=${1:-15}
work=$(mktemp -d)
trap 'rm -rf "$work"' EXIT
program=$("$here/build_program.sh" "$work" board none 1 0 2 0)

# The times of a line less those of the line before it, which only makes what the line needs: NAME COPIES ARGUMENTS
compare() {
    echo "$1" >>"$work/names"
    echo "$2 $program none $3 0" >>"$work/commands"
    echo "$2 $program $4 $3 $5" >>"$work/commands"
}

for capacity in 512 4096; do
    : >"$work/names"
    : >"$work/commands"
    compare "four shards, 1 worker" 1 "4 250000 $capacity" threads 1
    compare "four shards, 2 workers" 1 "4 250000 $capacity" threads 2
    compare "four shards, 4 workers" 1 "4 250000 $capacity" threads 4
    compare "four shards, 16 workers" 1 "4 250000 $capacity" threads 16
    compare "one shard, 1 worker" 1 "1 1000000 $capacity" threads 1
    compare "one shard, 4 workers" 1 "1 1000000 $capacity" threads 4
    compare "one process, no board" 1 "1 250000 $capacity" plain 0
    compare "four processes, no board" 4 "1 250000 $capacity" plain 0
    python3 "$here/least_times.py" "$turns" wall <"$work/commands" | paste -d' ' - - |
        paste -d: "$work/names" - | awk -F: -v capacity=$capacity '{
            split($2, times, " ")
            printf "capacity %d, %s: %.0f ms, %.0f ms of processors\n", capacity, $1, times[4] - times[2], times[3] - times[1]
        }'
done
