#!/bin/sh
# Measures `audit` beside a plain program that makes the same audit (`bench/audit.c`), over reports on 1,000,000 skewed
# frames: at the defaults, and with many lines. Prints the least processor time of each, their ratio and peak memory. Then
# what an audit takes for a record over captures that are made against the index of the tables (`met`) and against the
# query (`crossed`, `nested`), whose lines grow with the frames. With 4 for BITS in the environment prefixes go by four
# bits, at capacities up to 1,024. Needs cc, python3 and /usr/bin/time.
set -eu
here=$(dirname "$(readlink -f "$0")")
rounds=${1:-3}
. "$here/measure.sh"
compile audit

# A session over a capture with these options, and how many lines its report has: CAPTURE OPTION...
report() {
    capture=$1
    shift
    "$hhh" report "$@" $grain <"$work/$capture" >"$work/session"
    lines=$(grep -c '^line ' "$work/session" || :)
}

# Both programs over a report of this capacity and share on the skewed frames: CAPACITY PHI
compare() {
    report skewed --capacity "$1" --phi "$2"
    set -- "$1" "$2" $(measure 1 "$work/skewed" "$hhh" audit --report "$work/session" --capacity "$1" --phi "$2" $grain) \
        $(measure 1 "$work/skewed" "$work/audit" "$work/session" "$1" "$2" "$bits")
    awk -v capacity="$1" -v phi="$2" -v lines="$lines" -v time="$3" -v peak="$4" -v plain="$5" -v plain_peak="$6" 'BEGIN {
        printf "skewed, capacity %d, phi %d, %d lines: %.0f ms, peak memory %d kB; plain program %.0f ms, %d kB; ratio %.2f\n",
            capacity, phi, lines, time, peak, plain, plain_peak, time / plain
    }'
}

# What an audit takes for each record, over so many runs: RUNS KIND FRAMES OPTION...
by_record() {
    runs=$1
    kind=$2
    frames=$3
    shift 3
    python3 "$here/make_capture.py" 7 "$frames" "$kind" >"$work/$kind"
    report "$kind" "$@"
    set -- $(measure "$runs" "$work/$kind" "$hhh" audit --report "$work/session" "$@" $grain)
    awk -v kind="$kind" -v frames="$frames" -v lines="$lines" -v time="$1" -v peak="$2" 'BEGIN {
        printf "%s, %d frames, %d lines: %.2f us a record, peak memory %d kB\n", kind, frames, lines, 1000 * time / frames, peak
    }'
}

make_capture skewed
compare 512 10000
if [ "$bits" = 4 ]; then compare 1024 1954; else compare 2000 1000; fi
by_record 1 skewed 1000000
by_record 1 met 1000000
parts=$((4096 / most_capacity))
for kind in crossed nested; do
    for nets in $((500 / parts)) $((1000 / parts)) $((2000 / parts)); do
        by_record 20 $kind $((10 * nets)) --shards 1 --weigh packets --capacity $most_capacity --phi $((1000000 / nets))
    done
done
