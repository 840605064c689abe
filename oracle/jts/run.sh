#!/usr/bin/env bash
# Writes the cases, then has JTS answer them. Needs what `cargo run` needs in the folder above, and a JDK.
set -eu
cd "$(dirname "$0")"
. ./common.sh
cargo run --quiet --release --manifest-path ../Cargo.toml --bin jts_cases >"$out/cases"
compile Stars.java
jts Stars "$out/cases"
