#!/bin/sh
# Runs the program on inputs that are changed from real ones, and compares how each run ends with what a plain reader
# predicts: fuzz.sh [CAPTURES [TEXTS [STORES [SETS [SEED]]]]]. Without numbers these are 1,000,000, 200,000, 200,000,
# 50,000 and 1.
#
# - `weigh` of a changed capture, once with `--front yes` and once without;
# - `audit` of a changed session text over its capture, and `watch` of the text by a rule that is drawn;
# - `report` over a changed store and its capture;
# - `sites` over a set of one to eight stores, of which some are changed.
#
# A third of the changed captures are pcapng ones, and a quarter of those of texts and stores. Texts are by 8 and by 4
# bits, stores of both versions and by both. Some captures of texts and stores are cut, and some of the runs over them
# have `--front yes`, so that they take what is before the cut.
#
# Status, standard output and standard error must be those that the plain readers (`plain_reader.h`, `plain_sites.h`)
# predict by docs/FORMATS.md. Of a report over a store that opens, the lines of prefixes depend on the changed tables: of
# these only grammar and order are tested, and the store must then have the same header and open at the ends of the
# lists. Those of `sites` are worked out from the tables of the stores, some of which have other totals, counts and errors
# that fit each other. A refused store, and each of `sites`, must be as it was. No run may end by a signal, take more than
# a second of a processor, or more memory than 10 MB (of 1,000,000 bytes), 30 bytes for each frame, five times the bytes
# of the text and three times those of the stores; what is less than `fuzz` itself took, the system doesn't show. Besides,
# the longest capture and the longest text are tried, and both with one byte more: these four may take five seconds.
#
# One process for each processor, or as many as PROCESSES says; the inputs depend on the seed alone. Prints how many runs
# ended by each rule, the greatest time and memory, and each difference with its command line, whose files are kept in a
# folder. SIGTERM to the process `fuzz` ends it early, with the counts so far. Ends with 1 if there was a difference. A
# store is synced several times a run: TMPDIR may name a folder in memory. PROGRAM may name a program that is built
# already. Needs cc and python3.
set -eu
here=$(dirname "$(readlink -f "$0")")
. "$here/measure.sh"
compile fuzz

mkdir "$work/captures"
for frames in 1 2 3 5 10 20 30; do
    "$hhh" make $frames $frames >"$work/captures/made.$frames"
done
# One of them has no frame, and in one a table of `weigh` has no room for all keys.
for made in short.0 short.20 whole.4 skewed.30 met.30 crossed.30 nested.30 paired.30 heavy.10 heavy.30 forged.15 \
    heavy.100; do
    python3 "$here/make_capture.py" 7 "${made#*.}" "${made%.*}" >"$work/captures/$made"
done

kept=$(mktemp -d "${TMPDIR:-/tmp}/fuzz_differences.XXXXXX")
status=0
"$work/fuzz" "$(readlink -f "$hhh")" "$work" "$kept" "${1:-1000000}" "${2:-200000}" "${3:-200000}" \
    "${4:-50000}" "${5:-1}" "${PROCESSES:-$(nproc)}" || status=$?
rmdir "$kept" 2>/dev/null || echo "the files of each difference are in $kept"
exit $status
