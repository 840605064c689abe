#!/bin/sh
# WKT beside JTS. Needs a JDK, and what ../geos/wkt.sh needs.
#
#   wkt.sh [COUNT [SEED]]   has JTS read the texts of ../geos/wkt.sh --list
set -eu
cd "$(dirname "$0")"
. ./common.sh
compile Wkt.java
# A list that breaks off is no list.
{ sh ../geos/wkt.sh --list "$@" || echo broken; } | jts Wkt
