#!/bin/sh
# Points in outlines beside GEOS: builds the library and a program, and runs it.
#
#   outlines.sh [COUNT [SEED]]          compares GEOS, request R-8's rule in C and the library
#   outlines.sh --list [COUNT [SEED]]   prints outlines, points and the library's answers, for ../jts
#   outlines.sh --bench [FILE]          times them and prints a Markdown table; the inputs go into the file, for ../jts
#   outlines.sh --sample                prints GEOS's answers as lines for `replay`; the library isn't asked
set -eu
cd "$(dirname "$0")"
. ./common.sh

o=../outlines
inputs="$o/rule.c $o/simple.c $o/spread.c $o/shapes.c $o/points.c $o/draw.c"
lists="$o/grid.c $o/simple_tasks.c $o/tangles.c $o/refused.c $o/batch.c $o/library.c"
far=$o/far_outlines.c
geos="outline_geos.c context.c"

# shellcheck disable=SC2086 # several words
case ${1:-} in
--list)
    shift
    compile_asking "$far" list "$o/list.c" $inputs $lists
    "$out/list" "$@" ;;
--sample)
    need_geos
    compile outline_sample outline_sample.c $geos $inputs -lgeos_c
    "$out/outline_sample" ;;
--bench)
    need_geos
    timed
    compile outline_bench -D"OURS=\"$ours\"" outline_bench.c timing.c $geos $inputs "$linked" -lgeos_c
    "$out/outline_bench" ${2:+"$2"} ;;
*)
    need_geos
    compile_asking "$far" outline_compare outline_compare.c $geos $inputs $lists -lgeos_c
    "$out/outline_compare" "$@" ;;
esac
