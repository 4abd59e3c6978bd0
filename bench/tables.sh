#!/bin/sh
# Measures the three bodies of a table in one run: tables.sh [TURNS [FRAMES]]. The records of captures are added to 25
# tables, one for each node, in blocks of 1,024: over short, skewed and Zipf frames, over skewed ones of mixed lengths, and
# over keys that meet in one home of the index, by bytes and by packets, at three capacities. Prints the least processor
# time of an add in nine turns, or in TURNS, in nanoseconds, of each body, and its ratio to that of `RankTable`.
#
# The program for this (`bench/table_program`) is no part of the product, so it is proved and built in a copy of the
# repository. It is run as
#
#     table_bench none|plain|rank|stream bytes|packets CAPACITY [BITS] < CAPTURE
#
# BITS is 8 unless it is given; with 4 there are 81 tables. `none` only reads, and its time is taken from the others'.
# `PlainTable`, which looks at each entry, has one turn. Needs python3 and 5 GB for the copy. With 40,000 frames, unless
# FRAMES says how many, it takes some five minutes.
set -eu
here=$(dirname "$(readlink -f "$0")")
turns=${1:-9}
frames=${2:-40000}
work=$(mktemp -d)
trap 'rm -rf "$work"' EXIT
program=${PROGRAM:-$("$here/build_program.sh" "$work" table none bytes 2)}

# Runs the program over a capture: INPUT WORD...
echo 'input=$1; shift; exec "$@" <"$input"' >"$work/over"

for kind in short skewed zipf mixed met; do
    python3 "$here/make_capture.py" 7 "$frames" $kind >"$work/$kind"
    for weigh in bytes packets; do
        for capacity in 64 512 4096; do
            for body in none rank stream plain; do
                echo "/bin/sh $work/over $work/$kind $program $body $weigh $capacity"
            done >"$work/commands"
            times="$(head -n 3 "$work/commands" | python3 "$here/least_times.py" "$turns")
                $(tail -n 1 "$work/commands" | python3 "$here/least_times.py" 1)"
            echo $times | awk -v name="$kind frames, by $weigh, capacity $capacity" -v adds="$((25 * frames))" '{
                for (i = 2; i <= 4; i++) add[i] = ($i - $1) * 1000000 / adds
                printf "%s: rank %.1f ns, stream %.1f ns, plain %.0f ns; ratios %.2f, %.1f\n",
                    name, add[2], add[3], add[4], add[3] / add[2], add[4] / add[2]
            }'
        done
    done
done
