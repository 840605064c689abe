#!/usr/bin/env python3
"""A second count of the places of docs/DESIGN-PASS.md, by other rules than tools/places.py and with none of its code: words and lines as
grep sees them. python3 tools/places_again.py [--list]. The numbers differ from the first count's by their rules; what matters is that each
falls with the places, and that what is left of it is explained. misonkandi_c is left out, but for its own line.
"""
import re
import sys
from collections import defaultdict
from pathlib import Path

ROOT = Path(__file__).resolve().parent.parent / "crates"
LINES = []
for path in sorted(ROOT.glob("*/src/**/*.rt")):
    crate, fn, block = path.relative_to(ROOT).parts[0], "", ""
    for number, raw in enumerate(path.read_text(encoding="utf-8").splitlines(), 1):
        line = raw.split("//")[0].rstrip()
        head = re.match(r"\s*(?:pub(?:\(crate\))? )?(?:unsafe |const |extern \"C\" )*(fn|enum|struct) (\w+)", line)
        if head:
            fn, block = (head.group(2) if head.group(1) == "fn" else fn), f"{head.group(1)} {head.group(2)}"
        if line.strip() and not line.startswith(("ghost use", "use ", "#[", "#![")):
            LINES.append((crate, f"{path.relative_to(ROOT)}:{number}", fn, block, line.strip()))
CODE = [x for x in LINES if x[0] != "misonkandi_c"]
SHOW = "--list" in sys.argv


def say(point, what, places):
    places = list(dict.fromkeys(places))
    print(f"{point}  {what}: {len(places)}")
    for p in places if SHOW else []:
        print(f"     {p}")


def grep(pattern, where=CODE):
    return [x for x in where if re.search(pattern, x[4])]


def at(rows):
    return [f"{x[1]} {x[4]}" for x in rows]


def blocks(rows, least=1):
    """The functions or types that have so many of these lines."""
    found = defaultdict(set)
    for x in rows:
        found[x[1].split(":")[0] + " " + x[3]].add(x[1])
    return [k for k, v in found.items() if len(v) >= least]


def main():
    # 1. Enums by the words of their variants; fields of a state's type; words for refusals; numbers for kinds by name and type.
    words = r"^(Nothing|Nowhere|Bad|Missing|None|Fine|Sound|Unread|Unreadable|Unopened|Failed|Whole|Stuck|Refused|Joined|No)\b(\(.*\))?,$"
    say(1, "enums with a word for none, fine or refused", [b for b in blocks(grep(words)) if " enum " in b])
    types = r"^(pub )?(answer|stop|fault|why|told|good|whole|ended|failed|area): (?!Option|Result)\w+,$"
    say(1, "structs with a field of a state", [b for b in blocks(grep(types)) if " struct " in b])
    say(1, "lines with `::Refused(`", at(grep(r"::Refused\(")))
    say(1, "`let .. else` on Fine, Used, Is or At", at(grep(r"^let \w+::(Fine|Used|Is|At)\b.* else \{")))
    say(1, "parameters that are a kind, version, code, row or mask of kinds as a number",
        at(grep(r"\b(kind|version|code|which|region|accepted|letter): (u8|u32)\b|\(v: u8|\bfn \w+\((n|b|c): (u8|u32)\) -> [A-Z]")))
    say(1, "refusals compared or given as numbers", at(grep(r"number\(r\) (==|!=)|refused\(\d|, 2[01],|=> 2\d,")))
    # 2. Function names that stand in more crates than one; runs of five lines of one shape in two functions; types of one name.
    names, kinds, runs = defaultdict(set), defaultdict(set), defaultdict(set)
    for x in CODE:
        m = re.search(r"\bfn (\w+)", x[4])
        if m and m.group(1) != "main":
            names[m.group(1)].add(x[0])
        m = re.search(r"\b(?:struct|enum) (\w+)", x[4])
        if m:
            kinds[m.group(1)].add(x[0])
    code = [(x, re.sub(r"\d\w*", "0", re.sub(r"[A-Za-z_]\w*", "x", x[4])))
            for x in CODE if not re.search(r"^(requires|ensures|×|\w*\)?\s*\})", x[4])]
    for i in range(len(code) - 5):
        window = code[i:i + 5]
        if len({w[0][1].split(":")[0] + w[0][2] for w in window}) == 1 and sum(len(w[1]) for w in window) > 70:
            runs[tuple(w[1] for w in window)].add(window[0][0][1].split(":")[0] + " " + window[0][0][2])
    say(2, "function names in two crates or more", [f"{k}: {', '.join(sorted(v))}" for k, v in sorted(names.items()) if len(v) > 1])
    say(2, "type names in two crates or more", [f"{k}: {', '.join(sorted(v))}" for k, v in sorted(kinds.items()) if len(v) > 1])
    groups = {frozenset(v) for v in runs.values() if len(v) > 1}
    say(2, "groups of functions that share five lines of one shape", [", ".join(sorted(g)) for g in groups])
    say(2, "functions named with _a/_b, _x/_y, few/more/many, one/two or left/right",
        at(grep(r"\bfn \w*(_a|_b|_x|_y|_few|_more|_many|_one|_two|x_range|y_range|_left|_right)\(")))
    say(2, "functions of misonkandi_c", [x[1] for x in LINES if x[0] == "misonkandi_c" and "fn " in x[4]])
    # 3. The words while and loop; steps by one; the last index of a spelled list of nine.
    say(3, "lines with while or loop", at(grep(r"^while |\bloop \{")))
    say(3, "lines that step by one", at(grep(r"\w [+-]= 1;")))
    say(3, "`for` over a range of numbers", at(grep(r"^(?:'\w+: )?for \w+ in .*\.\.")))
    say(3, "functions that index by 6, 7 or 8, or by 2 and 2", [b for b in blocks(grep(r"\[(at \+ )?[678]\]|\[2\]\[2\]")) if " fn " in b])
    say(3, "functions that name six predicates or more", [b for b in blocks(grep(r"Predicate::\w+"), 6) if " fn " in b])
    # 4. Arms that are literals; words for helpers that the library has; numbers of a byte's place.
    say(4, "functions with two arms or more that are a literal or a variant",
        [b for b in blocks(grep(r"=> (-?\d[\d.]*|true|false|b'.'|\*?b\".*\"|[A-Z]\w*::\w+(\([\w:()]*\))?),$"), 2) if " fn " in b])
    helper = r"pick\w*|choose|one|one_more|bit|area_bit|two_if|larger|largest|least|clamp|read|size|size_of|wide|copy|same_\w+|is_same"
    helper += r"|power|glyph|digit\w*"
    say(4, "functions named as a choice, a bound, a cast or a copy", at(grep(rf"\bfn ({helper})\(")))
    say(4, "lines that pick one of two by `if` in a line", at(grep(r"^(?:let .*)?if .* \{ [^{}]+ \} else \{ [^{}]+ \}")))
    power = r"(256|65536|16777216|4294967296)"
    say(4, "lines with 256, 65536, 16777216 or 4294967296 and an operation", at(grep(rf"[*/%+-] {power}\b|\b{power} [*]")))
    say(4, "lines that copy a field into a local", at(grep(r"^let \w+ = [a-z_]+\.[a-z_]+;$")))
    # 5. Lines of contracts that stand three times or more to the letter; parameters by the words most met.
    lines = defaultdict(list)
    for x in grep(r"^requires \w*\s*\{"):
        for part in re.sub(r"^requires \w*\s*\{|\}$", "", x[4]).split("×"):
            lines[re.sub(r"\b\d+\b", "N", part.strip(" ()"))].append(x[1])
    often = sorted(lines.items(), key=lambda y: -len(y[1]))
    say(5, "parts of `requires`, to the letter but for numbers, three times or more", [f"{len(v)} {k}" for k, v in often if len(v) > 2])
    for group in (r"out: &mut \[u8\], at: usize", r"s: &\[u8\], at: usize", r"text: &\[u8\], (kind: Kind, )?at: usize",
                  r"xs: &\[i32\], ys: &\[i32\]", r"buf(fer)?: &mut \[u8\], (at|offset): usize", r"a: Corner, b: Corner",
                  r"a: &\[i32\], b: &\[i32\]", r"area_a: Position, area_b: Position"):
        say(5, f"lines with {group}", at(grep(group)))
    # 6. Words of counts beside lists.
    say(6, "fields and parameters named count, n or m: usize", at(grep(r"\b(count|n|m): usize\b")))
    say(6, "lines with xs or ys as a list", at(grep(r"\b(xs|ys): &|let mut (xs|ys) ")))
    lent = blocks(grep(r"\b(out|buf|buffer|labels|held): &mut \[u8"))
    say(6, "functions that take a buffer: out, buf, buffer, labels or held", [b for b in lent if " fn " in b])
    # 7. Arms that call; flags given.
    say(7, "functions with two arms or more that call", [b for b in blocks(grep(r"=> (\w+::)?[a-z_]\w*\(.*\),$"), 2) if " fn " in b])
    say(7, "calls with true or false", at(grep(r"\w\((.*, )?(true|false)(, .*)?\)(;| *$)")))
    # 8. Files and lines.
    for name in ("Answers.antt", "Invariants.antt", "Proof.antt", "*.antt"):
        files = list(ROOT.glob(f"*/proofs/**/{name}"))
        print(f"8  {name}: {len(files)} files, {sum(len(f.read_text(encoding='utf-8').splitlines()) for f in files)} lines")


if __name__ == "__main__":
    main()
