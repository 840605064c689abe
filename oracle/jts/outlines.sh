#!/bin/sh
# Points in outlines beside JTS. Needs a JDK, and what ../geos/outlines.sh needs.
#
#   outlines.sh [COUNT [SEED]]   compares JTS and the library
#   outlines.sh --bench          GEOS's table (../geos/outlines.sh --bench) with JTS's lines; JTS in its own process
set -eu
cd "$(dirname "$0")"
. ./common.sh
compile OutlineCase.java Outlines.java OutlineBench.java

if [ "${1:-}" = --bench ]; then
    sh ../geos/outlines.sh --bench "$out/inputs"
    jts OutlineBench "$out/inputs"
else
    # A list that breaks off is no list.
    { sh ../geos/outlines.sh --list "$@" || echo broken; } | jts Outlines
fi
