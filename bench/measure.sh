# What the measurements share. A script that reads this has set `here` to the folder of both, and `rounds` if it measures
# by `measure`. PROGRAM may name a program that is built already. With 4 for BITS prefixes go by four bits in those scripts
# that use `grain`, which are the words for the program.
work=$(mktemp -d)
trap 'rm -rf "$work"' EXIT
hhh=${PROGRAM:-$here/../crates/hhh/out/hhh}

bits=${BITS:-8}
grain=${BITS:+--bits $BITS}
most_capacity=4096
nodes=25
if [ "$bits" = 4 ]; then
    most_capacity=1024
    nodes=81
fi

# Where the program of the repository is missing or old, it is proved and built first.
[ "${PROGRAM:-}" ] || "$here/../hhh" weigh 0.0.0.0/0 0.0.0.0/0 <"$here/../crates/hhh/stdin" >/dev/null

# Makes a capture of 1,000,000 frames of this kind, named by the kind.
make_capture() {
    python3 "$here/make_capture.py" 7 1000000 "$1" >"$work/$1"
}

# Compiles the plain program of this name.
compile() {
    cc -O2 -o "$work/$1" "$here/$1.c"
}

# The least processor time of a run in milliseconds, taken over rounds of so many runs, and the peak memory
# in kilobytes: measure RUNS INPUT PROGRAM WORD...
measure() {
    runs=$1
    input=$2
    shift 2
    for _ in $(seq "$rounds"); do
        /usr/bin/time -f '%U %S %M' -o "$work/times" -a sh -c \
            'input=$1; runs=$2; shift 2; for _ in $(seq "$runs"); do "$@" <"$input"; done' sh "$input" "$runs" "$@" >/dev/null
    done
    awk -v runs="$runs" '
        { t = 1000 * ($1 + $2) / runs; if (NR == 1 || t < best) best = t; if ($3 > peak) peak = $3 }
        END { print best, peak }' "$work/times"
    rm "$work/times"
}
