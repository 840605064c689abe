#!/usr/bin/env python3
"""Writes the words of crates/ask_cases, and what must be printed for them by the independent reading of rule.py.

    python3 oracle/ask/cases.py           writes crates/ask_cases/args and stdout, and those of crates/ask
    python3 oracle/ask/cases.py --check   compares them
"""
import os
import sys

import rule

ROOT = os.path.join(os.path.dirname(os.path.abspath(__file__)), "..", "..", "crates")
NONE = b"."

PAIRS = [
    # the incident: the X that slept, alone, and of matrices whose first cell agrees and disagrees
    (b"F*X******", NONE), (b"F*X******", b"212101212"), (b"F*X******", b"FF2FF1212"), (b"T*X******", b"FFFFFFFF2"),
    # good patterns: every letter, both cases
    (b"T*F**F***", NONE), (b"*TtFf012*", NONE), (b"012TtFf**", NONE), (b"*********", NONE), (b"FFFFFFFF2", NONE),
    # bad at each place, and the first of several
    *[(b"*" * k + b"X" + b"*" * (8 - k), NONE) for k in range(9)],
    (b"TTXTTXTTX", NONE), (b"T*3******", NONE), (b"T*F**F**x", NONE), (b"T F**F***", NONE),
    # bytes that aren't printable are shown as ?
    (b"T*\x01******", NONE), (b"T*\x7f******", NONE), ("TT\u00c4TTTTT".encode(), NONE), (b"\xff********", NONE), (b"T*~******", NONE),
    # not nine bytes
    (b"T", NONE), (b"T*F**F**", NONE), (b"T*F**F****", NONE), (b"T*F**F*", NONE), (b"X", NONE), (b"T" * 100, NONE),
    (b"T" * 5000, NONE),
    # a name alone is taken for a pattern
    (b"within", NONE), (b"coveredby", NONE),
    # the pattern is looked at before the matrix
    (b"X********", b"X"), (b"T*F**F**", b"X12101212"), (b"nothing", b"21210121x"), (b"Within", b"212101212"),
    # refusals of the matrix text
    (b"T*F**F***", b"21210121"), (b"T*F**F***", b"2121012121"), (b"T*F**F***", b"f12101212"), (b"T*F**F***", b"21*101212"),
    (b"T*F**F***", b"21210121T"), (b"T*F**F***", b"2121\x0201212"), (b"T*F**F***", b"\xc3\x842101212"), (b"within", b"2121012"),
    (b"within", b"21210121X"), (b"coveredby", b"........."),
    # yes and no, each with the three verdicts it can have
    (b"T********", b"212101212"), (b"2*T***T**", b"212101212"), (b"T*F**F***", b"2FF1FF212"), (b"T*F**F***", b"212101212"),
    (b"FF*FF****", b"FF2FF1212"), (b"FF*FF****", b"212101212"), (b"*********", b"FFFFFFFF2"), (b"T********", b"FFFFFFFF2"),
    (b"FFFFFFFFF", b"222222222"), (b"TTTTTTTTT", b"FFFFFFFFF"), (b"222222222", b"FFFFFFFFF"), (b"111111111", b"012012012"),
    (b"ttfft0t12", b"012012012"), (b"000000000", b"111111111"), (b"0********", b"0FFFFF212"), (b"1********", b"0FFFFF212"),
    # the eleven names, of areas that overlap, of a reader in a room, of nothing yet
    *[(n.encode(), m) for m in (b"212101212", b"0FFFFF212", b"FFFFFFFF2") for n in rule.NAMES],
    (b"within", b"2FF1FF212"), (b"equal_topo", b"2FFF1FFF2"), (b"touches", b"FF2F11212"), (b"crosses", b"1010F0212"),
    (b"overlaps", b"1F1FFF1F2"), (b"crosses", b"0F1FFF1F2"), (b"disjoint", b"FF2FF1212"),
]


def due(first, second):
    return b"-- " + first + b" " + second + b"\n" + rule.printed(first, None if second == NONE else second)


def files():
    assert len(PAIRS) <= 128
    yield "ask_cases/args", b"".join(a + b"\n" + b + b"\n" for a, b in PAIRS)
    yield "ask_cases/stdout", b"".join(due(a, b) for a, b in PAIRS)
    yield "ask/args", b"F*X******\n212101212\n"
    yield "ask/stdout", rule.printed(b"F*X******", b"212101212")


wrong = 0
for name, text in files():
    path = os.path.join(ROOT, name)
    if sys.argv[1:] == ["--check"]:
        if open(path, "rb").read() != text:
            wrong = 1
            print("differs:", name)
    else:
        open(path, "wb").write(text)
print(len(PAIRS), "pairs of words")
sys.exit(wrong)
