#!/bin/sh
# Measures the tables of `report` beside those of a program that is tuned by hand, in one run:
# tuned.sh [TURNS [FETCHES]]. Over 1,000,000 short, skewed and Zipf frames, at three capacities, by bytes and by
# packets, in blocks of 1,024 and of 65,536 records, it compares the sessions of `report --workers 1` and of
# `space_saving`, and prints the least processor time of each in three turns, or in TURNS, and their ratio. The greatest
# ratio is last. Whole runs are compared: reading a capture takes 30 to 50 ms of each. With `yes` for FETCHES the plain
# program fetches each table into the cache before a block, for which the toolchain of `report` has no call; else it
# doesn't. With 4 for BITS in the environment prefixes go by four bits, and the greatest capacity is 1,024. Needs cc and
# python3, and some ten minutes.
set -eu
here=$(dirname "$(readlink -f "$0")")
turns=${1:-3}
fetches=${2:-no}
. "$here/measure.sh"
compile space_saving

# Runs a program over a capture: INPUT PROGRAM WORD...
echo 'input=$1; shift; exec "$@" <"$input"' >"$work/over"

# A point of the comparison: KIND CAPACITY WEIGHT BLOCK. The capacity bounds `phi` from below, and this one fits all.
compare_tables() {
    words="--capacity $2 --phi 31251 --weigh $3 --block $4 $grain"
    ours="$hhh report --workers 1 $words"
    plain="$work/space_saving $words --fetch $fetches"
    name="$1 frames, capacity $2, by $3, blocks of $4"
    sh "$work/over" "$work/$1" $ours >"$work/ours"
    sh "$work/over" "$work/$1" $plain | cmp - "$work/ours" >&2 || echo "$name: other sessions" >&2
    printf "/bin/sh $work/over $work/$1 %s\n" "$plain" "$ours" | python3 "$here/least_times.py" "$turns" |
        paste -sd ' ' - | awk -v name="$name" '{
            printf "%s: space_saving %.0f ms, hhh %.0f ms; ratio %.2f\n", name, $1, $2, $2 / $1
        }'
}

for kind in short skewed zipf; do
    make_capture $kind
    for capacity in 64 512 $most_capacity; do
        for weight in bytes packets; do
            for block in 1024 65536; do
                compare_tables $kind $capacity $weight $block
            done
        done
    done
done | tee "$work/lines"
awk '$NF > most { most = $NF; line = $0 } END { if (NR != 36) exit 1; print "greatest ratio: " line }' "$work/lines"
