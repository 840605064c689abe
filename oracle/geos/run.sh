#!/bin/sh
# Points and boxes beside GEOS: builds the library and a program, and runs it. outlines.sh is for points in outlines.
#
#   run.sh [--list] [PAIRS [SEED]]   compares GEOS, document 01's rules in C and the library; the regions of boxes too
#   run.sh --bench                   times them and prints a Markdown table
#   run.sh --sample                  prints GEOS's answers as lines for the program `replay`, those on outlines too;
#                                    the library isn't asked
set -eu
cd "$(dirname "$0")"
. ./common.sh
need_geos

parts="context.c geos.c pairs.c regions.c rules.c ../outlines/draw.c"

case ${1:-} in
--sample)
    # shellcheck disable=SC2086 # several words
    compile sample sample.c $parts -lgeos_c
    "$out/sample"
    sh outlines.sh --sample
    "$out/sample" --regions ;;
--bench)
    timed
    # shellcheck disable=SC2086 # several words
    compile bench -D"OURS=\"$ours\"" bench.c $parts library.c timing.c "$linked" -lgeos_c
    "$out/bench" ;;
*)
    # shellcheck disable=SC2086 # several words
    compile_asking far_places.c compare compare.c $parts library.c -lgeos_c
    "$out/compare" "$@" ;;
esac
