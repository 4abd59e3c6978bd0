#!/bin/sh
# Shows that no crate can tell which body counts in the tables: bodies.sh FOLDER. FOLDER, which mustn't exist, gets a fresh
# clone of what is committed for each body of a table. In it the body's name stands in `src/table.rt` of `shard_state`
# and its crate in the line of crates.txt, and nothing else is changed. Each program is proved and built by its own
# launcher, and has to write the same bytes as the others. Takes three first starts, and 3 GB.
set -eu
here=$(dirname "$(readlink -f "$0")")
folder=$1
mkdir "$folder"

# A clone in which this body of this crate counts: BODY CRATE.
clone_with() {
    git clone -q "$here/.." "$folder/$1"
    sed -i "s/^use .*/use $2::$1;/; s/= RankTable;/= $1;/" "$folder/$1/crates/shard_state/src/table.rt"
    sed -i "/^shard_state:/s/ space_saving rank_table/ space_saving $2/; /^shard_state:/s/ space_saving space_saving/ space_saving/" \
        "$folder/$1/crates.txt"
}

# The texts by which the bodies are compared: PROGRAM.
texts() {
    "$1" demo 7 200000 --shards 8
    "$1" demo 7 20000 --capacity 2 --phi 1000000
    "$1" demo 11 20000 --capacity 4096 --phi 500
    "$1" make 7 20000 | "$1" report --weigh packets
}

clone_with RankTable rank_table
clone_with StreamTable stream_summary
clone_with PlainTable space_saving
for body in RankTable StreamTable PlainTable; do
    texts "$folder/$body/hhh" >"$folder/$body.txt"
    cmp "$folder/RankTable.txt" "$folder/$body.txt"
    echo "$body: all crates proved, and the same texts"
done
