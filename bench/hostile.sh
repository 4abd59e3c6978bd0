#!/bin/sh
# Measures the program over input that is made against it: hostile.sh [TURNS [PART...]]. For each input it prints the
# processor time in seconds, and the ratio to an ordinary capture of as many frames with the same options, both the
# least of three turns, or of TURNS. The ordinary one is `distinct` for the tables (`index`, `ranks`), where each frame
# has a new key, and else `skewed`. No aim is judged. PART is `index`, `ranks`, `forged`, `query`, `keys`, `lines` or
# `large`; without one all but `large` are measured, in some five minutes. With 4 for BITS in the environment all go by four
# bits, with the greatest capacity that these allow. Needs cc, python3 and /usr/bin/time.
set -eu
here=$(dirname "$(readlink -f "$0")")
turns=${1:-3}
. "$here/measure.sh"
compile hostile_keys

# By four bits the greatest capacity is a quarter, and so are the lines that a report may have.
fewer=$((4096 / most_capacity))

# Makes a capture of so many frames of this kind, in the file KIND.FRAMES: KIND FRAMES. `listed` ones read pairs.
make_frames() {
    python3 "$here/make_capture.py" 7 "$2" "$1" >"$work/$1.$2"
}

# Prints the line of a measurement from two command lines, of which the second has the hostile input: NAME.
compare() {
    python3 "$here/least_times.py" "$turns" | paste -sd ' ' - | awk -v name="$1" '{
        printf "%s: %.3f s, ratio %.2f\n", name, $2 / 1000, $2 / $1
    }'
}

# `report` over a hostile capture, beside an ordinary one: NAME ORDINARY KIND FRAMES OPTION...
compare_reports() {
    name=$1
    ordinary=$2.$4
    hostile=$3.$4
    shift 4
    for capture in $ordinary $hostile; do
        echo "$hhh report --capture $work/$capture $* $grain"
    done | compare "$name"
}

# The session of a report over a capture, in the file SESSION: CAPTURE SESSION OPTION...
make_session() {
    capture=$1
    session=$2
    shift 2
    "$hhh" report --capture "$work/$capture" "$@" $grain >"$work/$session"
}

# The command line of an audit: CAPTURE SESSION OPTION...
audit_line() {
    capture=$1
    session=$2
    shift 2
    echo "$hhh audit --capture $work/$capture --report $work/$session $* $grain"
}

# A `report` over frames of `hostile_keys`, beside as many with a new key each: NAME FRAMES KIND CAPACITY SHARDS WORD...
compare_tables() {
    name="$1, capacity $4, shards $5"
    frames=$2
    shift 2
    [ -e "$work/distinct.$frames" ] || make_frames distinct "$frames"
    "$work/hostile_keys" "$@" | make_frames listed "$frames"
    compare_reports "$name" distinct listed "$frames" --capacity "$2" --shards "$3" --phi 31251
}

# The index of the tables: keys that full homes turn away. Marks are set by twenty frames for each slot.
index() {
    for tables in "64 1" "512 1" "512 4" "$most_capacity 1"; do
        set -- $tables
        marking=$((20 * $1 * $2))
        compare_tables "a deep key again and again" 60000 deep "$@"
        compare_tables "keys behind three full homes" 60000 filled "$@" 60000
        compare_tables "new keys behind four full homes" 60000 turned "$@" 60000
        compare_tables "keys behind eight full homes" 60000 listed "$@" 60000
        compare_tables "new keys, and each home is marked" $((marking + 60000)) marked "$@" 60000
    done
}

# The ranks of the tables: counts that are nearly equal, and weights near 2^32, by which counts outgrow a rank.
ranks() {
    make_frames heavy 60000
    for capacity in 64 512 $most_capacity; do
        compare_tables "nearly equal counts" 60000 even $capacity 1 60000 100
        compare_tables "nearly equal counts, weights near 2^32" 60000 even $capacity 1 60000 4294967288
        compare_reports "weights from 2^31 to 2^32, capacity $capacity, shards 1" distinct heavy 60000 \
            --capacity $capacity --shards 1 --phi 31251
    done
}

# A forged length. By bytes nothing else has a line; by packets the session is that of the true lengths.
forged() {
    make_frames skewed 60000
    make_frames forged 60000
    compare_reports "a forged length" skewed forged 60000
    for weigh in bytes packets; do
        make_session skewed.60000 ordinary.$weigh --weigh $weigh
        make_session forged.60000 forged.$weigh --weigh $weigh
        for lengths in ordinary forged; do
            echo "$lengths lengths, --weigh $weigh: $(grep -c '^line' "$work/$lengths.$weigh") lines"
        done
    done
    cmp "$work/ordinary.packets" "$work/forged.packets" && echo "--weigh packets: the same session, byte for byte"
}

# The query: two captures whose lines have many pairs.
query() {
    frames=$((20000 / fewer))
    make_frames skewed $frames
    for kind in crossed nested; do
        make_frames $kind $frames
        compare_reports "$kind, $((frames / 10)) a side" skewed $kind $frames --shards 1 --weigh packets \
            --capacity $most_capacity --phi $((500 * fewer))
    done
}

# The keys of the audit: those of nine nodes begin at one group, in a map of at most 147,456 keys.
keys() {
    for count in 73500 147000; do
        make_frames skewed $count
        "$work/hostile_keys" met 14 $count | make_frames listed $count
        for kind in skewed listed; do
            make_session $kind.$count $kind.session
            audit_line $kind.$count $kind.session
        done | compare "audit, $count keys that share 14 bits of their hash"
    done
}

# Texts of many lines, in one report and in a report that is repeated, beside the program's own session.
lines() {
    frames=$((4000 / fewer))
    make_frames paired $frames
    set -- --shards 1 --weigh packets --capacity $frames --phi $((500 * fewer))
    make_session paired.$frames own "$@"
    for count in 5 10 20; do
        python3 "$here/hostile_session.py" lines $count "$work/paired.$frames" >"$work/lines"
        python3 "$here/hostile_session.py" repeat $count "$work/own" >"$work/repeated"
        for text in lines repeated; do
            { audit_line paired.$frames own "$@" && audit_line paired.$frames $text "$@"; } |
                compare "audit, $(grep -c '^line' "$work/$text") $text"
        done
    done
}

# An audit of a text by `hostile_session.py` over no record, once, with its peak memory: NAME WORD...
audit_text() {
    name=$1
    shift
    python3 "$here/hostile_session.py" "$@" >"$work/text"
    /usr/bin/time -q -f '%U %S %M' -o "$work/times" \
        "$hhh" audit --capture "$work/skewed.0" --shards 1 --report "$work/text" >"$work/verdict" 2>/dev/null || :
    awk -v name="$name" -v bytes="$(wc -c <"$work/text")" -v verdict="$(cat "$work/verdict")" '{
        printf "audit, %s: %d bytes, %.1f s, peak memory %d kB; %s\n", name, bytes, $1 + $2, $3, verdict
    }' "$work/times"
}

# Texts of nearly the greatest length, which take 300 MB of disk and 2 GB of memory.
large() {
    make_frames skewed 0
    make_session skewed.0 own --shards 1
    audit_text "reports on no record" repeat 7255000 "$work/own"
    audit_text "a report of lines without a weight" unsound 7500000
}

shift $(($# > 0))
for part in ${*:-index ranks forged query keys lines}; do
    $part
done
