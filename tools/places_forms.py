"""Points 1 to 4 of docs/DESIGN-PASS.md, for tools/places.py: what counts as a place of each. Patterns decide, not a compiler; what each
one takes is said above its function."""
import re
from collections import defaultdict
from places_read import closing, split, squeezed, tokens

NUMBER = r"(?:u8|u16|u32|u64|usize|isize|i32|i64)"
C_SIDE = "misonkandi_c/"
STATE = {"answer", "stop", "fault", "why", "told", "good", "whole", "ended", "failed", "area"}
KIND = {"kind", "version", "which", "code", "accepted", "region"}
SENTINEL = """de9im: anything non_empty empty zero one two accepted cell_letter row
nodes: index_of; pairs: row fault_in first_side second_side; channel: arg got_of; stream: got_of; refit: told_number told_offset
decoder: ordered ordered_few ordered_more ordered_many ordered_by axis; ends: quad_of quadrant axis_no axis
masks: match_number verdict_number number; verdict: told"""
SENTINELS = {(c.split(":")[0].strip(), n) for c in re.split(r"[;\n]", SENTINEL) for n in c.split(":")[1].split()}


def kinds_of(items, sort):
    return [i for i in items if i.sort == sort]


def point_1(files, items):
    """Enums of two to six variants, one with a value and one without (or with a Refusal, or named Stuck), and one that is None beside
    another enum's variants; structs with a field named as a state (STATE) and of no Option or Result, beside others; functions that take
    a kind, version, code or row as a number (KIND, or `v: u8`), or match a parameter's numbers on variants; functions by name (SENTINEL)
    that answer a number for a kind, for none or for bad; constants NO_.., NOT_..; nine numbers for nine dimensions; a refusal's number
    compared or written as a literal."""
    enums = kinds_of(items, "enum")
    sets = {frozenset(n for n, _ in e.variants): e.name for e in enums}
    for e in enums:
        empty, valued = [n for n, v in e.variants if not v], [n for n, v in e.variants if v]
        refused = [n for n, v in e.variants if "Refusal" in v or n == "Stuck"]
        if 2 <= len(e.variants) <= 6 and valued and (empty or refused):
            yield "enum like Option or Result", e, f"enum {e.name} {{{', '.join(n + v for n, v in e.variants)}}}"
        elif not valued and frozenset(empty) - {"None"} in sets and "None" in empty:
            yield "enum like Option or Result", e, f"enum {e.name}: {sets[frozenset(empty) - {'None'}]} or None"
    for s in kinds_of(items, "struct"):
        flags = [f"{n}: {k}" for n, k in s.fields if n in STATE and not re.match(r"(io::)?(Option|Result)\b", k)]
        if flags and len(s.fields) > 1:
            yield "state beside a value", s, f"struct {s.name} ({', '.join(flags)})"
        if len(s.fields) == 9 and all(k == "u8" for _, k in s.fields):
            yield "kind as a number", s, f"struct {s.name}: nine u8"
    names = {e.name for e in enums}
    for f in kinds_of(items, "fn"):
        numbers = [(n, k) for n, k in f.params if k in ("u8", "u32", "usize")]
        only = len(f.params) == 1 and numbers and numbers[0][0] != "count"
        taken = [n for n, k in numbers if n in KIND and k != "usize" or (n, k) == ("v", "u8")]
        turned = only and (f.result in names or re.search(r"match \w+ \{ 0 => b'", squeezed(f.body)))
        if (f.file.split("/")[0], f.name) in SENTINELS and re.fullmatch(NUMBER, f.result):
            yield "number that stands for a kind, none or bad", f, f"fn {f.name} -> {f.result}"
        elif taken or turned:
            yield "kind as a number", f, f"fn {f.name}({', '.join(n + ': ' + k for n, k in numbers)})"
        elif re.search(r"\b(kind|version) == \d", f.body):
            yield "kind as a number", f, f"fn {f.name}, a local"
    refusal = r"(\bnumber\(r\)|\w\.number\(\)) [!=]= \d+|\brefused\(\d+, \d+\)|\b\w+_line\(out, b\"\w+\", 2\d"
    refusal += r"|(?<!RingOpen )=> 2[0-3],"
    for name, _, bare in files:
        for rule, pattern in (("number that stands for a kind, none or bad", rf"const (NO_\w+|NOT_\w+): {NUMBER}\b"),
                              ("kind as a number", r"type \w+ = \[u8; 9\]"), ("refusal as a literal number", refusal)):
            for m in re.finditer(pattern, bare):
                yield rule, (name, bare.count("\n", 0, m.start()) + 1), squeezed(m.group())


KEEP = set("if else match let mut return while for in as true false Ok Err Some None Self self".split())


def shape(f):
    """The tokens of a function, each name as the number of its first use, each literal as N; and the tokens as they are."""
    raw, names = tokens(" ".join(k for _, k in f.params) + " -> " + f.result + " " + f.body), {}
    plain = ["N" if re.match(r"\d|b?['\"]", t) else t for t in raw]
    return tuple(f"v{names.setdefault(t, len(names))}" if re.match(r"[A-Za-z_]", t) and t not in KEEP | {"N"} else t for t in plain), raw


def differing(one, other):
    return len({pair for pair in zip(one, other) if pair[0] != pair[1]})


def point_2(files, items):
    """Groups of functions: alike but for names and literals with 30 tokens or more (60 where the names need not agree among themselves);
    in one crate, with 10 tokens or more, where at most two names differ; of one name and one body in several crates; choices by a flag.
    Groups of types with the same fields or variants. Functions that hold one array in several sizes. One group is one place."""
    functions = [f for f in kinds_of(items, "fn") if not f.file.startswith(C_SIDE)]
    shapes = {id(f): shape(f) for f in functions}
    groups = defaultdict(list)
    for f in functions:
        alike, raw = shapes[id(f)]
        if len(raw) >= 30:
            groups["alike but for names and literals", alike].append(f)
        if len(raw) >= 60:
            groups["alike but for names and literals", tuple(re.sub(r"v\d+", "v", t) for t in alike)].append(f)
        if len(raw) >= 10:
            groups["few names differ", f.file.split("/")[0], alike].append(f)
        groups["same name and body", f.name, re.sub(rf"\b{NUMBER}\b", "T", " ".join(tokens(f.body)))].append(f)
        if len(f.params) == 3 and re.fullmatch(r"if \w+ \{ (return )?\w+;? \} (else \{ )?\w+( \})?", squeezed(f.body)):
            groups["choice by a flag for each type", 0].append(f)
        sizes = set(re.findall(r"let mut \w+ = \[0\w*; (\d+)\]", f.body))
        if len(sizes) > 1 and len(re.findall(r"\(([^()]*)&mut out\)", f.body)) > 1:
            groups["one array in several sizes", f.name].append(f)
    for t in items:
        parts = tuple(n for n, _ in (t.fields if t.sort == "struct" else t.variants)) if t.sort != "fn" else ()
        if len(parts) > 1:
            parts = tuple(n.replace("kept", "cells") for n in parts) if len(parts) > 3 else parts
            groups["types with the same parts", t.sort, parts].append(t)
    order = ["choice by a flag for each type", "one array in several sizes", "alike but for names and literals", "same name and body",
             "few names differ", "types with the same parts"]
    done = []
    for key, g in sorted(groups.items(), key=lambda x: (order.index(x[0][0]), -len(x[1]))):
        if key[0] == "few names differ":
            g = [f for f in g if any(differing(shapes[id(f)][1], shapes[id(h)][1]) <= 2 for h in g if h is not f)]
        here = {(x.file, x.line) for x in g}
        if (len(here) > 1 or key[0] == "one array in several sizes") and not any(here <= d for d in done):
            done.append(here)
            yield key[0], g[0], f"{len(here)}: " + ", ".join(f"{x.file.replace('/src/', '/')[:-3]} {x.name}" for x in g)


FORMULA = {"refused", "pick", "infinite", "on_side", "are_sharing", "same_corner"}


def point_3(files, items):
    """Every `while` and `loop`: those that step a name by += or -= which their condition has or that indexes count by hand, the others
    stand in a row of their own. Functions that spell a list out: six indexes of one name, or six calls of one function, or four that are
    alike but for literals, variants and single letters (FORMULA: calls that are parts of a formula, or refusals)."""
    for f in kinds_of(items, "fn"):
        for m in re.finditer(r"\bloop \{|\bwhile ([^{]*)\{", f.body):
            body = f.body[m.end():closing(f.body, m.end() - 1)]
            steps = re.findall(r"\b(\w+) [+-]= ", body)
            by_hand = any(re.search(rf"\b{s}\b", m.group(1) or "") or re.search(rf"\[{s}\b", body) for s in steps)
            at = (f.file, f.body_line + f.body.count("\n", 0, m.start()))
            yield ("loop that counts by hand" if by_hand else "other while or loop"), at, f"fn {f.name}: {squeezed(m.group())[:-2]}"
        indexes, calls = defaultdict(set), defaultdict(list)
        for m in re.finditer(r"\b(\w+)\[(\d\]\[\d|\d+|at \+ \d|p \+ \d)\]", f.body):
            indexes[m.group(1)].add(m.group(2))
        for n, field in re.findall(r"[\[,]\s*(\w+)\.(\w+)(?=[,\]])", f.body):
            indexes[n + "."].add(field)
        for m in re.finditer(r"(?<!\.)\b(?!if|while|match)([a-z_]\w*)\(", f.body):
            args = squeezed(f.body[m.end():closing(f.body, m.end() - 1)])
            calls[m.group(1)].append(re.sub(r"\b(\d+|[A-Z]\w*::\w+|[a-k])\b", "N", args))
        spelled = [f"{len(v)} indexes of {n}" for n, v in indexes.items() if len(v) >= 6]
        spelled += [f"{len(v)} calls of {n}" for n, v in calls.items()
                    if n not in FORMULA and (len(v) >= 6 or len(v) >= 4 and len(v) - len(set(v)) >= 3)]
        if spelled:
            yield "list spelled out", f, f"fn {f.name}: {', '.join(spelled)}"


def plain_arm(a):
    """A literal, a variant or a name, or one of these in one call of one argument."""
    call = re.fullmatch(r"([\w:]+)\((.*)\)( as \w+)?", a)
    if call and call.group(1).split("::")[-1][0].islower():
        if re.search(r"(^|:)(push|put|copy)$", call.group(1)):
            return "b\"" in a
        return len(split(call.group(2))) < 2
    return bool(call) or bool(re.fullmatch(r"\*?b?\"[^\"]*\"|b'.'|b - 46|-?\d\w*|[\w:]+( as \w+)?|text == .*", a))


def by_hand(f, enums):
    body = re.sub(r"^let (\w+) = [\w.()]+; ", "", re.sub(r"b\"(?:\\.|[^\"\\])*\"", "b\"\"", squeezed(f.body)))
    m = re.fullmatch(r"match (\*?\w+|\w+\(\w+\)) \{ (.*?),? \}", body)
    if m:
        arms = [a.split("=>", 1)[1].strip() for a in split(m.group(2)) if "=>" in a]
        tests = f.result == "bool" and all("(" in a for a in arms) and "==" not in arms[0]
        if len(arms) > 1 and all(plain_arm(a) for a in arms) and not tests:
            return "printing by a match" if "b\"" in arms[0] else "conversion or equality by a match"
    if f.result in enums and len(f.params) == 1 and re.fullmatch(NUMBER, f.params[0][1]) and f.name != "counted":
        return "conversion or equality by a match"
    if re.fullmatch(r"if (\w+) (<|<=) ([\w.]+) \{ (.*?) \} else \{ (.*?) \}", body) and len(body) < 100:
        return "bound, size or sign"
    if re.fullmatch(r"if \w+ \{ (return )?[\w:]+;? \} (else \{ )?[\w:]+( \})?", body):
        return "choice by a flag"
    if f.result == "Order" or re.fullmatch(r"pick\(number\(.*<.*\)", body):
        return "order by hand"
    fields = re.findall(r"\b(\w+)\.(\w+) == (\w+)\.(\w+)", body)
    if any(a == b for _, a, _, b in fields) and "&" in body or len(re.findall(r"(\w)\[(\d)\] == \w\[\2\]", body)) > 2:
        return "equality or order field by field"
    if re.fullmatch(r"\w+ as \w+|\w+\.as_slice\(\) == \w+", body):
        return "cast or equality under a name"
    if re.search(r"\b(256|65536|16777216|4294967296)\b", body) and re.search(r"[*/] |[-+] 4294967296|4294967295 -", body) \
            and not re.search(r"[<]= 65536|while|% 16\b|% 4\b", body) and len(body) < 420 or re.fullmatch(r"\w+\(.*4294967295 - .*", body):
        return "bytes of a number"
    if re.fullmatch(r"\w+\.\w+", body) and f.name.endswith(("_of", "_after")):
        return "field handed out"
    if re.search(r"48 \+|- 48|- 87|h / 10|n < 10 \{|byte - 32|from_bits\(0x[7f]ff|b'0' <= |100 => |2 => 100,", body):
        return "digits, letters or floats"
    if re.fullmatch(r"(to|from)_(cells|matrix|numbers|text|str)|joined|ten_of|(un)?packed", f.name) and f.file.split("/")[0] != "replay":
        return "conversion under a name"
    if re.search(r"while[^{]*\{ (\w+)\[(\w+)\] = (\w+)\[\2\];", body):
        return "loop that copies"
    return None


def point_4(files, items):
    """Functions that only choose: a `match` whose arms are literals, variants, or one call of one argument (a conversion, an equality, a
    text to print); min, max, size and sign; a choice by a flag; an order, or fields compared one by one; casts under a name; the bytes of a
    number put together or taken apart; digits, letters and floats; conversions under a name of their own; fields handed out; copies by a
    loop. Own enums of an order (Before). What stands in an impl of a trait, as From and Display, is today's form, and no place."""
    enums = {e.name for e in kinds_of(items, "enum")}
    for e in kinds_of(items, "enum"):
        if "Before" in {n for n, _ in e.variants}:
            yield "order by hand", e, f"enum {e.name}"
    for f in kinds_of(items, "fn"):
        rule = by_hand(f, enums)
        if rule and not f.of_trait:
            yield rule, f, f"fn {f.name}({', '.join(k for _, k in f.params)}) -> {f.result or '()'}"
