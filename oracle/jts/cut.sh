#!/bin/sh
# Pairs of outlines beside JTS: `Geometry.relate`, and `isValid` of both. Needs a JDK, and what ../cut/run.sh needs.
#
#   cut.sh [PAIRS [SEED]]   has JTS relate the pairs of ../cut/run.sh
set -eu
cd "$(dirname "$0")"
. ./common.sh
compile Cut.java
sh ../cut/run.sh --list "$out/pairs" "${1:-60000}" "${2:-1}"
jts Cut <"$out/pairs"
