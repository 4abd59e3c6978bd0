#!/bin/sh
# Measures `make` beside a plain program that draws the same frames (`bench/traffic.c`), 1,000,000 of them into /dev/null, and
# `demo` beside `make`, `report` and `audit` of the same capture. Prints the least processor time of each, their ratios and
# peak memory. Needs cc and /usr/bin/time.
set -eu
here=$(dirname "$(readlink -f "$0")")
rounds=${1:-3}
. "$here/measure.sh"
compile traffic

"$hhh" make 7 1000000 >"$work/made"
"$work/traffic" 7 1000000 | cmp - "$work/made"
"$hhh" report <"$work/made" >"$work/session"

set -- $(measure 10 /dev/null "$hhh" make 7 1000000) $(measure 10 /dev/null "$work/traffic" 7 1000000) \
    $(measure 1 /dev/null "$hhh" demo 7 1000000) $(measure 1 "$work/made" "$hhh" report) \
    $(measure 1 "$work/made" "$hhh" audit --report "$work/session")
awk -v make="$1" -v make_peak="$2" -v plain="$3" -v demo="$5" -v demo_peak="$6" -v report="$7" -v report_peak="$8" \
    -v audit="$9" -v audit_peak="${10}" 'BEGIN {
    printf "make: %.1f ms, peak memory %d kB; plain program %.1f ms; ratio %.2f\n", make, make_peak, plain, make / plain
    parts = make + report + audit
    printf "demo: %.0f ms, peak memory %d kB; make, report and audit %.0f ms; ratio %.2f\n", demo, demo_peak, parts, demo / parts
    printf "report: %.0f ms, peak memory %d kB; audit: %.0f ms, peak memory %d kB\n", report, report_peak, audit, audit_peak
}'
