#!/bin/sh
# Measures `report` over two captures of 1,000,000 frames beside two plain programs, one of the same algorithm and an
# exact one, in one run: processor times as ratios, frames a second and peak memory, then each part of it, then the
# times by capacity, those over a capture made against the index of the tables, and the instructions of
# folding by capacity. With 4 for BITS in the environment prefixes go by four bits, at capacities up to 1,024. Needs cc, python3, /usr/bin/time, gdb with Python, and valgrind.
set -eu
here=$(dirname "$(readlink -f "$0")")
rounds=${1:-3}
. "$here/measure.sh"

# How many frames instructions are counted over, and how long a capture of so many short frames is.
few=20000
few_bytes=$((24 + 50 * few))

# The milliseconds and the peak memory of each part, the least and the greatest of the rounds: INPUT.
part_times() {
    for _ in $(seq "$rounds"); do
        INPUT=$1 WORDS=$grain gdb -nx -batch -x "$here/parts.py" "$hhh"
    done | awk '
        $1 != "part" { next }
        !($2 in ms) { names[++parts] = $2; ms[$2] = $3 }
        { if ($3 < ms[$2]) ms[$2] = $3; if ($4 > peak[$2]) peak[$2] = $4 }
        END {
            if (parts != 6) exit 1
            for (i = 1; i <= parts; i++) print names[i], ms[names[i]], peak[names[i]]
        }'
}

# The instructions of each part over the first frames of a capture: INPUT WORD... The profile is cut where the
# functions of `parts.py` are entered.
part_instructions() {
    head -c "$few_bytes" "$1" >"$work/few"
    shift
    rm -f "$work"/profile*
    valgrind -q --tool=callgrind --callgrind-out-file="$work/profile" --combine-dumps=yes \
        --dump-before='frame_records::reading::read_records*' --dump-before='report_text::putting::put_number*' \
        --dump-before='report_text::putting::put_positions*' --dump-before='cut_merge::merged::merge_node*' \
        --dump-before='hhh_output::selecting::select_lines*' \
        "$hhh" report "$@" $grain <"$work/few" >/dev/null
    awk '
        BEGIN { part = "starting" }
        /^desc: Trigger:/ { trigger = $0 }
        /^totals:/ {
            sum[part] += $2
            if (part == "starting" && trigger ~ /read_records/) part = "reading"
            else if (part == "reading" && trigger ~ /put_number/) part = "dealing"
            else if (part == "dealing" && trigger ~ /put_positions/) part = "folding"
            else if (part == "folding" && trigger ~ /merge_node/) part = "merging"
            else if (part == "merging" && trigger ~ /select_lines/) part = "selecting"
            else if (part == "selecting" && trigger ~ /put_positions/) part = "printing"
        }
        END {
            parts = split("reading dealing folding merging selecting printing", names)
            for (i = 1; i <= parts; i++) {
                if (!(names[i] in sum)) {
                    print "the profile has no part " names[i] >"/dev/stderr"
                    exit 1
                }
                printf "%s %.0f\n", names[i], sum[names[i]]
            }
        }' "$work/profile"
}

compile exact
compile space_saving
for kind in short skewed; do
    make_capture $kind
    "$work/space_saving" $grain <"$work/$kind" >"$work/session"
    "$hhh" report $grain <"$work/$kind" | cmp - "$work/session" && echo "$kind frames: the plain program of the same algorithm writes the same session"
    for plain in space_saving exact; do
        [ $plain = exact ] && words=$bits || words=$grain
        set -- $(measure 3 "$work/$kind" "$work/$plain" $words) $(measure 3 "$work/$kind" "$hhh" report $grain)
        awk -v kind=$kind -v plain=$plain -v ms="$1" -v peak="$2" -v hhh="$3" -v hhh_peak="$4" 'BEGIN {
            printf "%s frames: %s %d ms, hhh %d ms; ratio %.2f; hhh %d frames a second; peak memory: %s %d kB, hhh %d kB, ratio %.2f\n",
                kind, plain, ms, hhh, hhh / ms, 1000000000 / hhh, plain, peak, hhh_peak, hhh_peak / peak
        }'
    done
    part_times "$work/$kind" >"$work/part_times"
    part_instructions "$work/$kind" >"$work/part_instructions"
    paste -d ' ' "$work/part_times" "$work/part_instructions" | awk -v few=$few '
        { printf "%s: %.2f ms; peak memory so far %d kB; %.0f instructions over %d frames, %.1f a frame\n", $1, $2, $3, $5, few, $5 / few }
        /^dealing|^folding/ { feeding += $2; feeding_instructions += $5 }
        /^merging|^selecting|^printing/ { query += $2; query_instructions += $5 }
        END {
            printf "query/feeding: %.5f by time over 1000000 frames, %.5f by instructions over %d\n",
                query / feeding, query_instructions / feeding_instructions, few
        }'
done

# Times by capacity, and over a capture made against the index at the default capacity.
make_capture met
for kind in short skewed met; do
    for capacity in 64 512 $most_capacity; do
        set -- $(measure 3 "$work/$kind" "$hhh" report $grain --capacity $capacity --phi $((2000000 / capacity + 1)))
        echo "$kind frames, capacity $capacity: hhh $1 ms"
    done
done

# One shard, so that its tables are full early. The capacity bounds `phi` from below.
for capacity in 32 128 512 $most_capacity; do
    part_instructions "$work/short" --shards 1 --capacity $capacity --phi $((2000000 / capacity + 1)) >"$work/part_instructions"
    awk -v capacity=$capacity -v few=$few -v nodes=$nodes '$1 == "folding" {
        printf "short frames, one shard of capacity %d: folding has %.0f instructions a frame, %.0f a frame and node\n",
            capacity, $2 / few, $2 / few / nodes
    }' "$work/part_instructions"
done
