#!/bin/sh
# The programs of README.md, in C and in Rust: each is built as the page says, run, and held to what the page says it
# prints.
set -eu
root=$(cd "$(dirname "$0")/.." && pwd -P)
sh "$root/tools/library.sh"
work=$(mktemp -d)
trap 'rm -rf "$work"' EXIT

# A block of the page's code: the first one after a line that names it.
block() { # LANGUAGE
    awk -v open="\`\`\`$1" '$0 == open && !seen { on = 1; seen = 1; next } /^```/ { on = 0 } on' "$root/README.md"
}
block c >"$work/hello.c"
block rust >"$work/main.rs"
block text >"$work/printed"

cc -std=c99 -Wall -Wextra -Werror -I "$root/crates/misonkandi" "$work/hello.c" "$root/target/native/libmisonkandi.a" \
    -o "$work/hello"
"$work/hello" | diff - "$work/printed"
echo "ok README.md's program in C"

mkdir -p "$work/rust/src"
cp "$work/main.rs" "$work/rust/src/main.rs"
cat >"$work/rust/Cargo.toml" <<END
[package]
name = "hello"
edition = "2024"
[dependencies]
misonkandi = { path = "$root/bindings/rust" }
END
(cd "$work/rust" && cargo run --quiet --offline) | diff - "$work/printed"
echo "ok README.md's program in Rust"
