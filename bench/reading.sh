#!/bin/sh
# Measures `weigh` over two captures of 1,000,000 frames beside `cat` and beside the plain decoder, in
# one run: processor times as ratios to the decoder's, and peak memory. Then `weigh` over the same frames in a pcapng
# capture, in turn with the classic one: processor times, instructions and their ratios. Needs cc, python3,
# /usr/bin/time, valgrind.
set -eu
here=$(dirname "$(readlink -f "$0")")
rounds=${1:-5}
. "$here/measure.sh"

compile decoder
for kind in short whole; do
    make_capture $kind
    set -- $(measure 10 "$work/$kind" cat) $(measure 10 "$work/$kind" "$work/decoder") \
        $(measure 10 "$work/$kind" "$hhh" weigh 0.0.0.0/0 0.0.0.0/0)
    awk -v kind=$kind -v bytes="$(wc -c <"$work/$kind")" -v cat="$1" -v decoder="$3" -v decoder_peak="$4" -v hhh="$5" -v hhh_peak="$6" 'BEGIN {
        printf "%s frames, %d bytes: cat %d ms, decoder %d ms, hhh %d ms; hhh/decoder %.2f; peak memory: decoder %d kB, hhh %d kB\n",
            kind, bytes, cat, decoder, hhh, hhh / decoder, decoder_peak, hhh_peak
    }'
    python3 "$here/capture_writer.py" <"$work/$kind" >"$work/$kind.pcapng"
    for file in "$work/$kind" "$work/$kind.pcapng"; do
        echo "$hhh weigh 0.0.0.0/0 0.0.0.0/0 --capture $file"
    done >"$work/commands"
    set -- $(python3 "$here/least_times.py" $((10 * rounds)) <"$work/commands") \
        $(while read -r command; do "$here/instructions.sh" $command; done <"$work/commands")
    awk -v kind=$kind -v classic="$1" -v pcapng="$2" -v count="$3" -v pcapng_count="$4" 'BEGIN {
        printf "%s frames: classic %.1f ms, pcapng %.1f ms, ratio %.3f; %.0f and %.0f instructions, ratio %.3f\n",
            kind, classic, pcapng, pcapng / classic, count, pcapng_count, pcapng_count / count
    }'
done
