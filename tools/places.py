#!/usr/bin/env python3
"""Counts the places of docs/DESIGN-PASS.md: python3 tools/places.py [--point N] [--list] [--why] [--left] [--crate NAME]

--list prints each place as crate/src/file.rt:line: what; --why adds the comment just above it, where its reason to stay would stand; --left
leaves out those that have one: a comment with the word Stay or Stays just above, in the body, or at the head of the file for all of it. The
rules are patterns over the source, not judgements: places_forms.py has those of points 1 to 4, this file those of 5 to 8. misonkandi_c,
whose functions pass a call of C on to misonkandi's of the same name, is left out, and counted in a line of its own under point 2.
"""
import argparse
import re
import sys
from collections import Counter, defaultdict
from itertools import combinations

sys.dont_write_bytecode = True
from places_forms import C_SIDE, kinds_of, point_1, point_2, point_3, point_4
from places_read import ROOT, closing, read, split, squeezed


def point_5(files, items):
    """A conjunct of requires or ensures (none that says what the result is) that stands in three or more functions, once parameters are
    named by their types, and numbers by N where it speaks of a length. Parameters, two or more by name and type, that stand together in
    three or more functions and in four of five that have the rarest of them, or in twelve: the largest such groups."""
    facts = defaultdict(list)
    functions = kinds_of(items, "fn")
    for f in functions:
        kinds = {n: re.sub(r"&mut |&|\W", "", k) for n, k in f.params}
        seen = set()
        for word, clause in f.clauses:
            for part in split(clause, "×"):
                while part.startswith("(") and closing(part, 0) == len(part) - 1:
                    part = part[1:-1].strip()
                part = re.sub(r"\b\w+\b", lambda m: kinds.get(m.group(), m.group()), part)
                seen.add((word, re.sub(r"\b\d+\b", "N", part) if "length" in part else part))
        for k in seen:
            if not re.match(r"result(\.\w+)? (≡|≤|<)|\(\w+ .*\) →", k[1]):
                facts[k].append(f)
    for (word, fact), g in sorted(facts.items(), key=lambda x: -len(x[1])):
        if len(g) >= 3:
            names = ", ".join(x.name for x in g[:6]) + (" .." if len(g) > 6 else "")
            yield "fact in contracts", g[0], f"{len(g)} functions, {word} {fact}: {names}"
    sets = [frozenset(f.params) for f in functions]
    alone = Counter(p for s in sets for p in s)
    shared = {a & b for a, b in combinations(set(sets), 2) if len(a & b) > 1}
    found = {}
    for s in shared:
        support = sum(s <= v for v in sets)
        if support >= 12 or support >= 3 and support >= 0.8 * min(alone[p] for p in s):
            found[s] = support
    for s, support in sorted(found.items(), key=lambda x: (-x[1], sorted(x[0]))):
        if any(s < t and found[t] >= 0.6 * support for t in found):
            continue
        first = next(f for f, v in zip(functions, sets) if s <= v)
        yield "parameters together", first, f"{support} functions: {', '.join(n + ': ' + k for n, k in first.params if (n, k) in s)}"


COUNT = {"n", "m", "count", "before"}


def point_6(files, items):
    """Structs with an array and a usize; functions with columns side by side (xs and ys), with a list and a count of it (COUNT), or that
    write into a buffer of bytes and answer how far it is used; searches by a loop; places of a list kept in a number (`place(w)`)."""
    for i in items:
        if i.sort == "struct" and any("[" in k for _, k in i.fields) and any(k == "usize" for _, k in i.fields):
            yield "list beside its count", i, f"struct {i.name}"
        if i.sort != "fn":
            continue
        lists = [n for n, k in i.params if "[" in k]
        counts = [n for n, k in i.params if k == "usize" and n in COUNT]
        if {"xs", "ys"} <= set(lists) or len(re.findall(r"let mut (xs|ys|marks|words) = \[", i.body)) > 1:
            yield "columns side by side", i, f"fn {i.name}({', '.join(lists)})"
        elif lists and counts and not i.file.startswith("asking/"):
            yield "list beside its count", i, f"fn {i.name}({', '.join(lists + counts)})"
        elif i.result == "usize" and any(k.startswith("&mut [u8") for _, k in i.params):
            yield "buffer beside the length used", i, f"fn {i.name}({', '.join(n for n, _ in i.params)}) -> usize"
        if re.search(r"while .*?\bif [^{]*(is_name|same_corner|bad\(|!= b' ')[^{]*\{\s*return", i.body, re.S):
            yield "search by hand", i, f"fn {i.name}"
        if re.search(r"let \w+ = place\([vwx]\);", i.body):
            yield "place of a list kept in a number", i, f"fn {i.name}"


def point_7(files, items):
    """A `match`, or ifs, whose branches call two or more functions with the same arguments but for literals; a parameter of bool that two
    or more calls give as true or false."""
    flagged = {f.name for f in kinds_of(items, "fn") if any(k == "bool" for _, k in f.params)}
    given = defaultdict(list)
    for f in kinds_of(items, "fn"):
        calls = defaultdict(set)
        for name, args in re.findall(r"(?:=>|return|[{}])\s*([a-z_][\w:]*)\(([^;{}]*?)\)(?:,?\n|;|\s*\})", f.body):
            if args:
                calls[re.sub(r"b\"[^\"]*\"|\b\d+\b", "N", squeezed(args))].add(name)
        best = max(calls.values(), key=len, default=set())
        if len(best) >= 2 and re.search(r"\bmatch\b|\bif\b", f.body):
            yield "switch on the step", f, f"fn {f.name}: {len(best)}, {', '.join(sorted(best)[:6])}"
        for n, a in re.findall(r"\b([a-z_]\w*)\(([^;{}]*?)\)", f.body):
            if n in flagged and n not in {"pick", "got_of"} and re.search(r"(^|, )(true|false)(,|$)", a):
                given[n].append(f)
    for n, g in given.items():
        if len(g) > 1:
            yield "flag given as a literal", g[0], f"fn {n}, called by {', '.join(dict.fromkeys(f.name for f in g))}"


def point_8(files, items):
    """Files and lines below crates/*/proofs, by kind. What the library has already, or a check finds alone, only a check can tell."""
    for path in sorted(ROOT.glob("*/proofs/**/*.antt")):
        rule = path.name if path.stem in {"Answers", "Invariants", "Proof"} else "other files: lemmas, imports"
        yield rule, (str(path.relative_to(ROOT)), 1), f"{sum(1 for _ in path.open(encoding='utf-8'))} lines"


def beside(n, items, files):
    """What is counted but is no place."""
    bodies = "\n".join(f.body for f in kinds_of(items, "fn"))
    if n == 1:
        given_up = len(re.findall(r"let [A-Z]\w*::(?:Fine|Used|Is|At)\b", bodies))
        arms = len(re.findall(r"::(?:Refused|Stuck)\(\w+\) => .*(?:Refused|Stuck|refused|refusal)", bodies))
        print(f"  beside: {given_up} `let .. else` and {arms} arms that hand a refusal on")
        own = [at.name for rule, at, _ in point_1([], items) if rule == "enum like Option or Result"]
        uses = Counter(w for _, _, bare in files for w in re.findall(rf"\b({'|'.join(own or ['-'])})\b", bare))
        print(f"  beside: uses of these enums by name: {', '.join(f'{n} {k}' for n, k in uses.most_common())}")
    if n == 4:
        print(f"  beside: {len(re.findall(r'let [a-z_]+ = [a-z_]+[.][a-z_]+;', bodies))} lines that copy a field into a local")
    if n == 2:
        print(f"  beside: {sum(f.file.startswith(C_SIDE) for f in kinds_of(items, 'fn'))} functions of misonkandi_c, each as misonkandi's")


def stays(lines, line):
    """Whether a reason stands by a place: at the head of its file, just above it, or in its body."""
    head = []
    for x in lines:
        if not x.startswith("//"):
            break
        head.append(x)
    k = line - 2
    while k >= 0 and lines[k].strip().startswith(("//", "#[")):
        head.append(lines[k])
        k -= 1
    for x in lines[line - 1 :]:
        head.append(x if "//" in x else "")
        if x.startswith("}") or x.startswith("    }"):
            break
    return any(re.search(r"//.*\bStays?\b", x) for x in head)


def main():
    parser = argparse.ArgumentParser()
    parser.add_argument("--point", type=int)
    parser.add_argument("--crate")
    for flag in ("--list", "--why", "--left"):
        parser.add_argument(flag, action="store_true")
    args = parser.parse_args()
    files, items = read()
    lines = {n: p.splitlines() for n, p, _ in files}
    mine = [i for i in items if not i.file.startswith(C_SIDE)]
    for n in [args.point] if args.point else range(1, 9):
        found = []
        for rule, at, what in globals()[f"point_{n}"]([x for x in files if not x[0].startswith(C_SIDE)], mine):
            file, line = at if isinstance(at, tuple) else (at.file, at.line)
            if not args.crate or file.startswith(args.crate + "/"):
                found.append((rule, file, line, what))
        kept = [f for f in found if stays(lines.get(f[1], []), f[2])]
        print(f"point {n}: {len(found)}, {len(kept)} of them with a reason")
        if args.left:
            found = [f for f in found if f not in kept]
        beside(n, items, files)
        for rule in dict.fromkeys(f[0] for f in found):
            here = [f for f in found if f[0] == rule]
            print(f"  {rule}: {len(here)}" + (f", {sum(int(f[3].split()[0]) for f in here)} lines" if n == 8 else ""))
            for _, file, line, what in here if args.list or args.why else []:
                print(f"    {file}:{line}: {what}")
                k = line - 2
                while args.why and file in lines and k >= 0 and lines[file][k].strip().startswith(("//", "#[")):
                    print(f"        {lines[file][k].strip()}")
                    k -= 1


if __name__ == "__main__":
    main()
