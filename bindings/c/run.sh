#!/bin/sh
# Compiles example.c over the library as C and as C++, runs it, and compares what it prints with the file stdout. Then
# runs edges.c, which tries what the header says of words, pointers, counts and the stack.
# MISONKANDI_LIB_DIR names a folder with the library for this processor, if one is built already.
set -eu
built=${MISONKANDI_LIB_DIR:+$(cd "$MISONKANDI_LIB_DIR" && pwd)}
cd "$(dirname "$0")"

[ -n "$built" ] || sh ../../tools/library.sh
library=${built:-../../target/native}/libmisonkandi.a

# It has no state and needs nothing but what copies and fills bytes.
needed=$(nm -u "$library" | sed -n 's/^ *U //p' | sort -u)
for name in $needed; do
    case $name in
    memcpy | memmove | memset) ;;
    *) echo "the library needs $name" && exit 1 ;;
    esac
done
if nm "$library" | grep ' [BbCDdGgSs] '; then
    echo "the library has bytes of its own that can be written" && exit 1
fi

work=$(mktemp -d)
trap 'rm -rf "$work"' EXIT
strict='-Wall -Wextra -Werror -pedantic -I ../../crates/misonkandi'
cc -std=c99 $strict example.c "$library" -o "$work/in_c"
c++ -std=c++11 $strict -x c++ example.c -x none "$library" -o "$work/in_c++"
for name in in_c in_c++; do
    "$work/$name" >"$work/stdout"
    diff stdout "$work/stdout"
done
cat "$work/stdout"
echo "the example prints what its file stdout has, as C and as C++"

cc -std=c99 $strict edges.c "$library" -pthread -o "$work/edges"
"$work/edges"
