#!/bin/sh
# Measures the query of `report` over captures that are made against it: K source networks that cross K destination
# networks, each with ten frames and a line of its own, so that about K * K pairs of closest lines are kept at the root
# (`crossed`), or at nine nodes (`nested`). For K of 500, 1,000 and 2,000 it prints the processor time of the query, how
# often that of half the K goes into it, that of the feeding, and peak memory. Then the share of the query in the feeding
# at the defaults over 1,000,000 frames. With 4 for BITS in the environment prefixes go by four bits, and K is a quarter
# of these, as the greatest capacity is.
# Needs python3, and gdb with Python.
set -eu
here=$(dirname "$(readlink -f "$0")")
rounds=${1:-5}
. "$here/measure.sh"

# The least milliseconds of query and of feeding over the rounds, and the greatest peak memory: INPUT WORD...
query_times() {
    input=$1
    shift
    for _ in $(seq "$rounds"); do
        INPUT=$input WORDS=$* gdb -nx -batch -x "$here/parts.py" "$hhh" | awk '
            $1 != "part" { next }
            $2 == "dealing" || $2 == "folding" { feeding += $3 }
            $2 == "merging" || $2 == "selecting" || $2 == "printing" { query += $3; parts++ }
            { if ($4 > peak) peak = $4 }
            END { if (parts != 3) exit 1; print query, feeding, peak }'
    done | awk '
        NR == 1 || $1 < query { query = $1 }
        NR == 1 || $2 < feeding { feeding = $2 }
        $3 > peak { peak = $3 }
        END { print query, feeding, peak }'
}

parts=$((4096 / most_capacity))
for kind in crossed nested; do
    last=
    for nets in $((500 / parts)) $((1000 / parts)) $((2000 / parts)); do
        python3 "$here/make_capture.py" 7 $((10 * nets)) $kind >"$work/against"
        set -- $(query_times "$work/against" --shards 1 --weigh packets --capacity $most_capacity --phi $((1000000 / nets)) $grain)
        awk -v kind=$kind -v nets=$nets -v query="$1" -v feeding="$2" -v peak="$3" -v last="$last" 'BEGIN {
            printf "%s, %d a side: query %.1f ms, feeding %.1f ms, peak memory %d kB", kind, nets, query, feeding, peak
            if (last != "") printf "; query %.2f times that of half as many", query / last
            print ""
        }'
        last=$1
    done
done

for kind in short skewed; do
    make_capture $kind
    set -- $(query_times "$work/$kind" $grain)
    awk -v kind=$kind -v query="$1" -v feeding="$2" 'BEGIN {
        printf "%s frames at the defaults: query %.2f ms, feeding %.0f ms, query/feeding %.5f\n", kind, query, feeding, query / feeding
    }'
done
