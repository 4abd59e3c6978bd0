#!/bin/sh
# Measures what a board costs: folding four shards of 100,000 skewed records each in blocks of 1,024, by `feed_all` on
# one thread and by `fold_block` alone, and reading a cut of all shards at their ends. The program for this
# (`bench/board_program`) is no part of the product, so it is proved and built in a copy of the repository. It is run as
#
#     board_bench none|plain|board 4 100000 CAPACITY READS [BITS]
#
# BITS is 8 unless it is given. `none` only makes records and tables, and its time is taken from the others'; only
# `board` reads. Prints the least processor times, and the instructions, which don't depend on other work on the
# machine. Needs python3, valgrind and 5 GB for the copy.
set -eu
here=$(dirname "$(readlink -f "$0")")
turns=${1:-25}
work=$(mktemp -d)
trap 'rm -rf "$work"' EXIT

program=$("$here/build_program.sh" "$work" board none 1 0 2 0)

for capacity in 512 4096; do
    reads=$((512 * 400 / capacity))
    for mode in none plain board; do
        echo "$program $mode 4 100000 $capacity 0"
    done >"$work/commands"
    echo "$program board 4 100000 $capacity $reads" >>"$work/commands"
    times=$(python3 "$here/least_times.py" "$turns" <"$work/commands")
    counts=$(
        for mode in none plain board; do
            "$here/instructions.sh" "$program" $mode 4 100000 $capacity 0
        done
        "$here/instructions.sh" "$program" board 4 100000 $capacity 10
    )
    echo $times $counts | awk -v capacity=$capacity -v reads=$reads '{
        plain = $2 - $1
        board = $3 - $1
        plain_count = $6 - $5
        board_count = $7 - $5
        printf "capacity %d: fold_block alone %.1f ms, on a board %.1f ms; ratio %.3f\n",
            capacity, plain, board, board / plain
        printf "capacity %d: fold_block alone %.0f instructions, on a board %.0f; ratio %.5f\n",
            capacity, plain_count, board_count, board_count / plain_count
        printf "capacity %d: a read of a cut of four shards %.3f ms, %.0f instructions\n",
            capacity, ($4 - $3) / reads, ($8 - $7) / 10
    }'
done
