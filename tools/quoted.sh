#!/bin/sh
# Each piece of code that a page quotes with its file's name behind the language (```rust crates/..) must stand in
# that file.
set -eu
root=$(cd "$(dirname "$0")/.." && pwd -P)
cd "$root"
# shellcheck disable=SC2016
awk '
    function text(file,    line, all) {
        all = "\n"
        while ((getline line <file) > 0) all = all line "\n"
        close(file)
        return all
    }
    /^```/ && quoting {
        quoting = 0
        count++
        if (!index(text(from), block)) { print FILENAME ": not in " from ":" block; bad = 1 }
        next
    }
    /^```[a-z]+ [^ ]+\/[^ ]+$/ { quoting = 1; from = $2; block = "\n"; next }
    quoting { block = block $0 "\n" }
    END { print count + 0 " quotations" (bad ? "" : ", all as their files have them"); exit bad }' docs/READING.md
