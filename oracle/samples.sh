#!/bin/sh
# Makes crates/replay/stdin again: the crate's answers and document 01's, then GEOS's. README.md says which is whose.
set -eu
cd "$(dirname "$0")"
file=../crates/replay/stdin
new=$(mktemp)
trap 'rm -f "$new"' EXIT
cargo run --quiet --release --bin sample >"$new"
sh geos/run.sh --sample >>"$new"
sh cut/run.sh --sample >>"$new"
cat "$new" >"$file"
printf '%s replayed, 0 differ\n' "$(grep -vc '^#' "$file")" >../crates/replay/stdout
cat ../crates/replay/stdout
