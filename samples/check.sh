#!/bin/sh
# Runs ./relate on each sample plan, on each example of docs/REFUSALS.md and on words that it doesn't take, ./outlines on each pair of
# outlines, then ./changed and ./ask on their examples and such words, and compares what they print and say.
set -eu
cd "$(dirname "$0")/.."
work=$(mktemp -d)
trap 'rm -rf "$work"' EXIT
failed=0
wrong() { echo "WRONG $*" && failed=1; }

./relate </dev/null >"$work/out" # proved and built first, if it isn't

# each plan, as a file and as standard input
for plan in samples/*.plan; do
    name=${plan%.plan}
    ./relate "$plan" >"$work/out" 2>"$work/said"
    ./relate <"$plan" >"$work/again" 2>>"$work/said"
    if cmp "$work/out" "$name.txt" && cmp "$work/again" "$name.txt"; then
        echo "ok ${name#samples/}: $(head -n 1 "$name.txt")"
    else
        wrong "$plan"
    fi
    case $(cat "$name.txt") in refused*) said=2 ;; *) said=0 ;; esac
    [ "$(wc -l <"$work/said")" -eq "$said" ] || wrong "$plan: $said lines on standard error"
done

# each example of the page on refusals: a line `$ printf .. | ./relate`, and below it what is printed and said
awk '/^\$ printf .*\| \.\/relate$/ { print substr($0, 3); getline; print; getline; print }' docs/REFUSALS.md \
    >"$work/examples"
count=0
while IFS= read -r command && IFS= read -r print && IFS= read -r said; do
    sh -c "$command" >"$work/out" 2>"$work/said"
    count=$((count + 1))
    [ "$(cat "$work/out")" = "$print" ] || wrong "$command prints $(cat "$work/out")"
    [ "$(cat "$work/said")" = "$said" ] || wrong "$command says $(cat "$work/said")"
done <"$work/examples"
[ "$count" -ge 9 ] || wrong "docs/REFUSALS.md has $count examples"
echo "ok $count examples of docs/REFUSALS.md"

# words that it doesn't take: nothing printed, one line said, status 2
for words in --nothing -h samples 'samples/same.plan samples/same.plan' samples/none.plan; do
    status=0
    # shellcheck disable=SC2086
    ./relate $words >"$work/out" 2>"$work/said" || status=$?
    if [ "$status" -eq 2 ] && [ ! -s "$work/out" ] && [ "$(wc -l <"$work/said")" -eq 1 ]; then
        echo "ok $(cat "$work/said")"
    else
        wrong "./relate $words"
    fi
done
./relate --help >"$work/out"
[ "$(wc -l <"$work/out")" -le 24 ] || wrong "the help is longer than a screen"

# ./outlines: each pair, a refusal in words, and words that it doesn't take
./outlines samples/alcove_a.wkt samples/alcove_b.wkt >"$work/out" # proved and built first, if it isn't
count=0
for first in samples/*_a.wkt; do
    name=${first%_a.wkt}
    ./outlines "$first" "${name}_b.wkt" >"$work/out" 2>"$work/said"
    count=$((count + 1))
    if cmp "$work/out" "$name.txt"; then echo "ok ${name#samples/}: $(head -n 1 "$name.txt")"; else wrong "$first"; fi
    [ ! -s "$work/said" ] || wrong "$first: something on standard error"
done
[ "$count" -ge 3 ] || wrong "samples/ has $count pairs of outlines"
pair=crates/outlines_cases/data
for words in 'uncut both 21 at 1 0' 'crossed B 20 at 0 2' 'word B 19 at 4' 'point B 16 at 0' 'long B 12 at 65536' 'none B 23 at 0'; do
    ./outlines $pair/square.wkt "$pair/${words%% *}.wkt" >"$work/out" 2>"$work/said"
    if [ "$(cat "$work/out")" = "refused ${words#* }" ] && [ "$(wc -l <"$work/said")" -eq 1 ]; then
        echo "ok $(cat "$work/said")"
    else
        wrong "./outlines of ${words%% *}"
    fi
done
# names in UTF-8, in Latin-1 and of a file that isn't there
for name in 'h\303\266f' 'h\366f'; do
    # shellcheck disable=SC2059
    name=$(printf "$name")
    cp samples/alcove_a.wkt "$work/$name.wkt"
    ./outlines "$work/$name.wkt" samples/alcove_b.wkt | cmp - samples/alcove.txt || wrong "./outlines $name.wkt"
    [ "$(./outlines "$work/$name.none" samples/alcove_b.wkt 2>"$work/said")" = 'refused A 23 at 0' ] || wrong "./outlines $name.none"
done
for words in --nothing '' $pair/square.wkt "$pair/square.wkt $pair/square.wkt $pair/square.wkt"; do
    status=0
    # shellcheck disable=SC2086
    ./outlines $words >"$work/out" 2>"$work/said" || status=$?
    if [ "$status" -ne 2 ] || [ -s "$work/out" ] || [ "$(wc -l <"$work/said")" -ne 1 ]; then wrong "./outlines $words"; fi
done
./outlines --help >"$work/out"
[ "$(wc -l <"$work/out")" -le 30 ] || wrong "the help of ./outlines is longer than a screen"

# ./changed: the example of README.md, a refusal in words, and words that it doesn't take
pair=crates/changed/data
if ./changed $pair/two.reports $pair/three.reports | cmp - crates/changed/stdout; then echo "ok ./changed"; else wrong ./changed; fi
./changed $pair/two.reports $pair/none.reports >"$work/out" 2>"$work/said"
if [ "$(cat "$work/out")" = 'refused new 23 at 0' ] && [ "$(wc -l <"$work/said")" -eq 1 ]; then
    echo "ok $(cat "$work/said")"
else
    wrong "./changed of a missing file"
fi
name=$(printf 'h\366f')
cp $pair/two.reports "$work/$name"
./changed "$work/$name" $pair/three.reports | cmp - crates/changed/stdout || wrong "./changed $name $pair/three.reports"
if ! same=$(./changed "$work/$name" "$work/$name") || [ -n "$same" ]; then wrong "./changed $name $name"; fi
for words in --nothing '' $pair/two.reports "$pair/two.reports $pair/two.reports $pair/two.reports"; do
    status=0
    # shellcheck disable=SC2086
    ./changed $words >"$work/out" 2>"$work/said" || status=$?
    if [ "$status" -ne 2 ] || [ -s "$work/out" ] || [ "$(wc -l <"$work/said")" -ne 1 ]; then wrong "./changed $words"; fi
done
./changed --help >"$work/out"
[ "$(wc -l <"$work/out")" -le 30 ] || wrong "the help of ./changed is longer than a screen"

# ./ask: each example of the pages (a line `$ ./ask ..`, and below it what is printed), the page's ten patterns, and words that it
# doesn't take
awk -v work="$work" '{ sub(/^    /, "") }
    /^\$ \.\/ask / { n++; print substr($0, 3) >(work "/" n ".ask"); on = 1; next }
    /^```/ || $0 == "" { on = 0 }
    on { print >(work "/" n ".due") }' README.md docs/INSTALLERS.md
count=0
for example in "$work"/*.ask; do
    count=$((count + 1))
    sh "$example" >"$work/out"
    cmp "$work/out" "${example%.ask}.due" || wrong "$(cat "$example")"
done
[ "$count" -ge 4 ] || wrong "README.md and docs/INSTALLERS.md have $count examples of ./ask"
# shellcheck disable=SC2016
sed -n 's/^| `\(.........\)` | .*/\1/p' docs/INSTALLERS.md >"$work/patterns"
[ "$(wc -l <"$work/patterns")" -eq 10 ] || wrong "docs/INSTALLERS.md has other than ten patterns"
while IFS= read -r pattern; do
    [ "$(./ask "$pattern" | wc -l)" -eq 9 ] || wrong "./ask $pattern"
done <"$work/patterns"
echo "ok $count examples of ./ask, ten patterns"
for words in --nothing '' 'T******** 212101212 212101212'; do
    status=0
    # shellcheck disable=SC2086
    (set -f && ./ask $words) >"$work/out" 2>"$work/said" || status=$?
    if [ "$status" -ne 2 ] || [ -s "$work/out" ] || [ "$(wc -l <"$work/said")" -ne 1 ]; then wrong "./ask $words"; fi
done
./ask --help >"$work/out"
[ "$(wc -l <"$work/out")" -le 30 ] || wrong "the help of ./ask is longer than a screen"

[ "$failed" -eq 0 ] && echo "all samples are as they should be"
exit "$failed"
