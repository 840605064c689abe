#!/usr/bin/env python3
"""An independent reading of what ./ask prints: from the words, each as bytes, to the bytes printed.

A verdict goes by brute force: over every matrix whose cells are at least as large, which are those that further
records can come to.
"""
import functools
import itertools

CELLS = [a + b for a in "IBE" for b in "IBE"]
MEANS = {"*": "anything", "T": "not empty", "t": "not empty", "F": "empty", "f": "empty",
         "0": "points only", "1": "lines, no area", "2": "an area"}
ACCEPTS = {"*": "F012", "T": "012", "t": "012", "F": "F", "f": "F", "0": "0", "1": "1", "2": "2"}
ORDER = "F012"
NAMES = ["disjoint", "intersects", "within", "contains", "equal_topo", "coveredby", "covers", "contains_properly",
         "touches", "crosses", "overlaps"]


def fits(pattern, matrix):
    return all(m in ACCEPTS[p] for p, m in zip(pattern, matrix))


def some(matrix, *patterns):
    return any(fits(p, matrix) for p in patterns)


def holds(name, m):
    a, b = max(ORDER.index(x) for x in m[:3]), max(ORDER.index(m[k]) for k in (0, 3, 6))
    apart = some(m, "FF*FF****")
    if name == "disjoint":
        return apart
    if name == "intersects":
        return not apart
    if name == "crosses":
        return (a < b and some(m, "T*T******")) or (b < a and some(m, "T*****T**")) or (a == b == 2 and m[0] == "0")
    if name == "overlaps":
        return a == b and a > 0 and some(m, "1*T***T**" if a == 2 else "T*T***T**")
    return some(m, *{
        "within": ["T*F**F***"],
        "contains": ["T*****FF*"],
        "equal_topo": ["FFFFFFFF2", "T*F**FFF*"],
        "coveredby": ["T*F**F***", "*TF**F***", "**FT*F***", "**F*TF***"],
        "covers": ["T*****FF*", "*T****FF*", "***T**FF*", "****T*FF*"],
        "contains_properly": ["T**FF*FF*"],
        "touches": ["FT*******", "F**T*****", "F***T****"],
    }[name])


@functools.lru_cache(maxsize=None)
def verdict(word, matrix):
    asks = (lambda m: holds(word, m)) if word in NAMES else (lambda m: fits(word, m))
    said = set()
    for m in itertools.product(*[ORDER[ORDER.index(x):] for x in matrix]):
        said.add(asks("".join(m)))
        if len(said) == 2:
            return "open"
    return "yes for good" if said == {True} else "no for good"


def refused(word, kind, letters):
    lead, what = ("refused ", "pattern") if kind == "pattern" else ("refused matrix ", "matrix")
    if len(word) != 9:
        return f"{lead}10: a {what} has nine letters, this has {len(word)}\n".encode()
    for k, byte in enumerate(word):
        if chr(byte) not in letters:
            shown = "".join(chr(x) if 32 <= x < 127 else "?" for x in word)
            return f"{shown}\n{' ' * k}^\n{lead}11 at {k}: a letter is one of {' '.join(letters)}\n".encode()
    return None


def printed(word, matrix=None):
    named = matrix is not None and word.decode("latin-1") in NAMES
    if not named:
        bad = refused(word, "pattern", "*TtFf012")
        if bad:
            return bad
    text = word.decode("latin-1")
    if matrix is None:
        return "".join(f"{c} {p} {MEANS[p]}\n" for c, p in zip(CELLS, text)).encode()
    bad = refused(matrix, "matrix", "F012")
    if bad:
        return bad
    m = matrix.decode()
    said = holds(text, m) if named else fits(text, m)
    lines = ["yes" if said else "no", verdict(text, m)]
    if not named:
        lines += [f"{c} {p} {x}" for c, p, x in zip(CELLS, text, m) if x not in ACCEPTS[p]]
    return "".join(line + "\n" for line in lines).encode()
