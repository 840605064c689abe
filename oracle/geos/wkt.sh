#!/bin/sh
# WKT beside GEOS: builds the library and a program, and runs it.
#
#   wkt.sh [COUNT [SEED]]          compares GEOS, request R-9's rules in C and the library
#   wkt.sh --list [COUNT [SEED]]   prints texts that the library reads or writes, with their corners, for ../jts
#   wkt.sh --bench                 times GEOS and the library and prints a Markdown table
set -eu
cd "$(dirname "$0")"
. ./common.sh

o=../outlines
w=../wkt
shapes="$w/rule_read.c $w/rule_write.c $w/shape.c $w/spell.c $w/edit.c $o/spread.c $o/draw.c"
lists="$w/good.c $w/writes.c $o/batch.c $w/library.c"
others="$w/edges.c $w/damaged.c $w/near.c $w/foreign.c"
tasks=-DTASKS=\"../wkt/wkt.h\"

# shellcheck disable=SC2086 # several words
case ${1:-} in
--list)
    shift
    compile_asking "$w/far_wkt.c" list "$tasks" "$w/list.c" $shapes $lists
    "$out/list" "$@" ;;
--bench)
    need_geos
    timed
    compile wkt_bench -D"OURS=\"$ours\"" wkt_bench.c timing.c wkt_geos.c context.c $shapes "$linked" -lgeos_c
    "$out/wkt_bench" ;;
*)
    need_geos
    compile_asking "$w/far_wkt.c" wkt_compare "$tasks" wkt_compare.c wkt_reasons.c wkt_geos.c context.c \
        $shapes $lists $others -lgeos_c
    "$out/wkt_compare" "$@" ;;
esac
